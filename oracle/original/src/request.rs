//! A call as a request to the original. The JSON is written directly: no name in it needs an escape.

use std::io::Write;

use calls::{
    Call, ErrorInfo, Event, InvocationState, Mapping, Node, Output, Position, State, Workflow,
    NONE, STORE,
};
use runspore_types::model::{
    event_kind, CODEC_VERSION, SEMANTICS_VERSION_0_2, STATE_FORMAT, WORKFLOW_FORMAT,
    WORKFLOW_FORMAT_0_2,
};
use runspore_types::reducer::{Envelope, Identity, Limits, TransitionRequest};
use runspore_types::script::Mapped;

use crate::added::{self, Capped, ARRIVAL};
use crate::names::{Action, Activation, Code, EventId, Node as NodeName, Outcome, Signal};

/// Over the original's `MAX_NODES`.
const TOO_MANY_NODES: usize = 257;

macro_rules! put {
    ($out:expr, $($what:tt)*) => {
        write!($out, $($what)*).expect("a vector takes every write")
    };
}

pub(crate) struct Request {
    pub request: TransitionRequest,
    pub raised: bool,
}

/// The request of a call whose sheet has its form.
pub(crate) fn request(call: &Call) -> Request {
    let capped = Capped::of(&call.workflow, &call.ceilings);
    Request {
        raised: capped.needs_raised(),
        request: TransitionRequest {
            identity: Identity {
                semantics_version: SEMANTICS_VERSION_0_2.to_string(),
                codec_version: CODEC_VERSION.to_string(),
            },
            graph: graph(call, &capped),
            snapshot: call
                .state
                .as_ref()
                .map(|state| snapshot(state, &call.workflow)),
            input_event: envelope(call),
            frozen_limits: Limits {
                microsteps: call.limits.microsteps,
                max_command_count: call.limits.commands,
                max_state_bytes: u32::MAX,
                expression_operations: call.limits.operations,
            },
        },
    }
}

/// The mapping answers as the script has them, the first at the end.
pub(crate) fn script(call: &Call) -> Vec<Mapped> {
    if added::has_unknown_answers(&call.mappings) {
        return Vec::new();
    }
    let answers = &call.mappings.answers[..call.mappings.count as usize];
    answers.iter().rev().map(mapped).collect()
}

fn mapped(mapping: &Mapping) -> Mapped {
    match mapping.kind {
        1 => Mapped::Value {
            value: mapping.value,
            operations: mapping.operations,
        },
        2 => Mapped::Fault {
            code: Code(mapping.code).to_string(),
            detail: mapping.detail,
            operations: mapping.operations,
        },
        _ => Mapped::Unencodable,
    }
}

/// Puts commas between the members of an object or a list.
struct Commas(bool);

impl Commas {
    fn next(&mut self, out: &mut Vec<u8>) {
        if self.0 {
            out.push(b',');
        }
        self.0 = true;
    }
}

fn graph(call: &Call, capped: &Capped) -> Vec<u8> {
    let workflow = &call.workflow;
    let mut out = Vec::with_capacity(4096);
    match workflow.format {
        1 => put!(out, r#"{{"format":"{WORKFLOW_FORMAT}""#),
        2 => put!(out, r#"{{"format":"{WORKFLOW_FORMAT_0_2}""#),
        other => put!(out, r#"{{"format":"format-{other}""#),
    }
    put!(
        out,
        r#","name":"w","start":"{}","limits":{{"maxVisitsPerNode":{},"maxActivations":{}}},"actions":{{"#,
        NodeName(workflow.start),
        capped.visits,
        capped.activations
    );
    actions(&mut out, call, capped);
    out.extend(br#"},"nodes":{"#);
    nodes(&mut out, workflow);
    if capped.over_nodes {
        for added in workflow.node_count as usize..TOO_MANY_NODES {
            put!(out, r#","over-{added}":{{"kind":"complete"}}"#);
        }
    }
    out.extend(b"}}");
    out
}

/// The delay of every policy is the event's: backoffMs and maxBackoffMs alike give exactly that.
fn actions(out: &mut Vec<u8>, call: &Call, capped: &Capped) {
    let workflow = &call.workflow;
    let delay = added::sent_delay(&call.event);
    let mut declared = &workflow.declared[..workflow.declared_count as usize];
    let mut commas = Commas(false);
    for action in 0..workflow.action_count {
        let of_action = declared.partition_point(|row| row.action <= action);
        let (rows, rest) = declared.split_at(of_action);
        declared = rest;
        commas.next(out);
        let effect = match workflow.actions[action as usize].effect {
            0 => ["pure", "read-only", "idempotent"][action as usize % 3],
            1 => "unsafe",
            _ => "reconcilable",
        };
        put!(
            out,
            r#""{}":{{"effect":"{effect}","retry":{{"maxAttempts":{},"backoffMs":"{delay}","maxBackoffMs":"{delay}"}},"outcomes":["#,
            Action(action),
            capped.attempts[action as usize]
        );
        let mut commas = Commas(false);
        for row in rows {
            commas.next(out);
            put!(out, r#""{}""#, Outcome(row.outcome));
        }
        out.extend(b"]}");
    }
}

fn nodes(out: &mut Vec<u8>, workflow: &Workflow) {
    let mut routes = &workflow.routes[..workflow.route_count as usize];
    let mut limits = &workflow.limits[..workflow.limit_count as usize];
    let mut commas = Commas(false);
    for node in 0..workflow.node_count {
        let (of_node, rest) = routes.split_at(routes.partition_point(|row| row.node <= node));
        routes = rest;
        let (limits_of_node, rest) =
            limits.split_at(limits.partition_point(|row| row.node <= node));
        limits = rest;
        let row = &workflow.nodes[node as usize];
        commas.next(out);
        put!(out, r#""{}":{{"#, NodeName(node));
        kind(out, node, row);
        if row.kind <= 2 {
            out.extend(br#","outcomes":{"#);
            let mut commas = Commas(false);
            for route in of_node {
                commas.next(out);
                put!(
                    out,
                    r#""{}":"{}""#,
                    Outcome(route.outcome),
                    NodeName(route.target)
                );
            }
            out.push(b'}');
        }
        if row.has_limits == 1 {
            out.extend(br#","loopLimits":{"#);
            let mut commas = Commas(false);
            for limit in limits_of_node {
                commas.next(out);
                put!(out, r#""{}":{}"#, Outcome(limit.outcome), limit.limit);
            }
            out.push(b'}');
        }
        out.push(b'}');
    }
}

/// The kind of a node with its own fields. A mapping names its node and field.
fn kind(out: &mut Vec<u8>, node: u32, row: &Node) {
    match row.kind {
        1 => {
            put!(
                out,
                r#""kind":"activity","action":"{}","input":[{node},0]"#,
                Action(row.action)
            );
            if row.has_params == 1 {
                put!(out, r#","params":[{node},1]"#);
            }
        }
        2 => put!(
            out,
            r#""kind":"await-signal","signal":"{}""#,
            Signal(row.signal)
        ),
        3 => put!(out, r#""kind":"complete","output":[{node},2]"#),
        _ => {
            out.extend(br#""kind":"fail","error":"#);
            error(
                out,
                &ErrorInfo {
                    code: row.code,
                    node: NONE,
                    detail: row.detail,
                },
            );
        }
    }
}

fn error(out: &mut Vec<u8>, error: &ErrorInfo) {
    put!(
        out,
        r#"{{"code":"{}","message":"","nodeId":"#,
        Code(error.code)
    );
    match error.node {
        NONE => out.extend(b"null"),
        node => put!(out, r#""{}""#, NodeName(node)),
    }
    put!(out, r#","details":{}}}"#, error.detail);
}

/// An outcome that may be absent.
fn outcome(out: &mut Vec<u8>, outcome: u32) {
    match outcome {
        NONE => out.extend(b"null"),
        outcome => put!(out, r#""{}""#, Outcome(outcome)),
    }
}

/// The data of a signal: its handle, and above it its slot plus one.
fn data(handle: u32, slot: usize) -> u64 {
    (slot as u64 + 1) << 32 | u64::from(handle)
}

fn snapshot(state: &State, workflow: &Workflow) -> Vec<u8> {
    if !added::has_blank_slots(state, workflow) {
        return b"null".to_vec();
    }
    let mut out = Vec::with_capacity(4096);
    put!(
        out,
        r#"{{"format":"{STATE_FORMAT}","semantics":"{SEMANTICS_VERSION_0_2}","tenant":"t","runId":"r","status":"#
    );
    match state.status {
        1 => out.extend(br#""running""#),
        2 => out.extend(br#""waiting""#),
        3 => out.extend(br#""needs-intervention""#),
        4 => out.extend(br#""completed""#),
        5 => out.extend(br#""failed""#),
        other => put!(out, r#""status-{other}""#),
    }
    put!(
        out,
        r#","input":{},"activations":{},"lastSequence":"{}","lastAcceptedAtMs":"{}","position":"#,
        state.input,
        state.activations,
        state.last_sequence,
        state.last_accepted_at
    );
    position(&mut out, &state.position);
    out.extend(br#","invocation":"#);
    invocation(&mut out, &state.invocation);
    out.extend(br#","result":"#);
    match &state.result {
        Output::Nothing => out.extend(b"null"),
        Output::Handle(handle) => put!(out, r#"{{"output":{handle}}}"#),
        Output::Error(kept) => wrapped_error(&mut out, kept),
    }
    slots(&mut out, state);
    out.extend(br#","signals":["#);
    signals(&mut out, state);
    out.extend(b"]}");
    out
}

fn wrapped_error(out: &mut Vec<u8>, kept: &ErrorInfo) {
    out.extend(br#"{"error":"#);
    error(out, kept);
    out.push(b'}');
}

/// Any position but the one that stands for none is sent as it is.
fn position(out: &mut Vec<u8>, position: &Position) {
    if *position == Position::NONE {
        out.extend(b"null");
        return;
    }
    put!(
        out,
        r#"{{"nodeId":"{}","activationId":"{}","visit":{}}}"#,
        NodeName(position.node),
        Activation(position.node, position.visit),
        position.visit
    );
}

/// Any invocation but the one that stands for none is sent as it is.
fn invocation(out: &mut Vec<u8>, invocation: &InvocationState) {
    if *invocation == InvocationState::NONE {
        out.extend(b"null");
        return;
    }
    let id = Activation(invocation.node, invocation.visit);
    put!(
        out,
        r#"{{"invocationId":"{id}","activationId":"{id}","nodeId":"{}","actionId":"{}","attempt":{},"inputDigest":"{}","state":"#,
        NodeName(invocation.node),
        Action(invocation.action),
        invocation.attempt,
        invocation.input
    );
    match invocation.phase {
        1 => out.extend(br#""scheduled""#),
        2 => out.extend(br#""unknown""#),
        3 => out.extend(br#""stuck""#),
        other => put!(out, r#""phase-{other}""#),
    }
    if let Some(kept) = &invocation.error {
        out.extend(br#","error":"#);
        error(out, kept);
    }
    out.push(b'}');
}

/// Results, visits and streaks by node.
fn slots(out: &mut Vec<u8>, state: &State) {
    out.extend(br#","nodes":{"#);
    let mut commas = Commas(false);
    for (node, result) in (0..).zip(&state.results) {
        if result.output == Output::Nothing {
            continue;
        }
        commas.next(out);
        put!(
            out,
            r#""{}":{{"visit":{},"outcome":"{}","output":"#,
            NodeName(node),
            result.visit,
            Outcome(result.outcome)
        );
        match &result.output {
            Output::Error(kept) => wrapped_error(out, kept),
            Output::Handle(handle) => put!(out, "{handle}"),
            Output::Nothing => {}
        }
        out.push(b'}');
    }
    out.extend(br#"},"visits":{"#);
    let mut commas = Commas(false);
    for (node, count) in (0..).zip(&state.visits).filter(|(_, count)| **count != 0) {
        commas.next(out);
        put!(out, r#""{}":{count}"#, NodeName(node));
    }
    out.extend(br#"},"streaks":{"#);
    let mut commas = Commas(false);
    for (node, streak) in (0..)
        .zip(&state.streaks)
        .filter(|(_, streak)| streak.count != 0)
    {
        commas.next(out);
        put!(
            out,
            r#""{}":{{"outcome":"{}","count":{}}}"#,
            NodeName(node),
            Outcome(streak.outcome),
            streak.count
        );
    }
    out.push(b'}');
}

/// The stored signals; of a count above the store's size the first that is too many, blank.
fn signals(out: &mut Vec<u8>, state: &State) {
    let mut commas = Commas(false);
    for slot in 0..(state.signal_count as usize).min(STORE + 1) {
        let signal = state.signals.get(slot).copied().unwrap_or_default();
        commas.next(out);
        put!(
            out,
            r#"{{"eventId":"{}","sequence":"{}","name":"{}","data":{},"outcome":"#,
            EventId(signal.event_id, slot),
            signal.sequence,
            Signal(signal.signal),
            data(signal.data, slot)
        );
        outcome(out, signal.outcome);
        out.push(b'}');
    }
}

fn envelope(call: &Call) -> Envelope {
    let event = &call.event;
    let (kind, payload) = if added::has_unknown_answers(&call.mappings) {
        ("unknown answers", Vec::new())
    } else {
        match event.kind {
            1 => (event_kind::RUN_STARTED, started(event)),
            2 => (event_kind::SIGNAL_RECEIVED, signal(event)),
            3 => (event_kind::ACTIVITY_RESULT, result(event)),
            4 => (event_kind::INVOCATION_RESOLVED, resolved(event)),
            5 => (event_kind::ON_INTERVENTION_FAILED, noted()),
            _ => ("unknown", Vec::new()),
        }
    };
    Envelope {
        event_id: EventId(event.event_id, ARRIVAL).to_string(),
        kind: kind.to_string(),
        sequence: event.sequence,
        accepted_at_ms: event.accepted_at,
        payload,
    }
}

fn started(event: &Event) -> Vec<u8> {
    format!(r#"{{"tenant":"t","runId":"r","input":{}}}"#, event.input).into_bytes()
}

fn signal(event: &Event) -> Vec<u8> {
    let mut out = Vec::with_capacity(64);
    put!(
        out,
        r#"{{"name":"{}","data":{},"outcome":"#,
        Signal(event.signal),
        data(event.data, ARRIVAL)
    );
    outcome(&mut out, event.outcome);
    out.push(b'}');
    out
}

/// The error of an event, which names no node.
fn reported(event: &Event) -> ErrorInfo {
    ErrorInfo {
        code: event.code,
        node: NONE,
        detail: event.detail,
    }
}

fn result(event: &Event) -> Vec<u8> {
    let mut out = Vec::with_capacity(256);
    let id = Activation(event.node, event.visit);
    put!(
        out,
        r#"{{"invocationId":"{id}","attemptId":"{id}/{}","attempt":{},"output":{},"retryable":{},"status":"#,
        event.attempt,
        event.attempt,
        event.output,
        event.retryable
    );
    match event.status {
        1 => out.extend(br#""success""#),
        2 => out.extend(br#""failure""#),
        3 => out.extend(br#""unknown""#),
        4 => out.extend(br#""expired""#),
        other => put!(out, r#""status-{other}""#),
    }
    out.extend(br#","outcome":"#);
    outcome(&mut out, event.outcome);
    if event.has_error {
        out.extend(br#","error":"#);
        error(&mut out, &reported(event));
    }
    out.push(b'}');
    out
}

/// An outcome is mandatory here: 255 is sent as a name like any other.
fn resolved(event: &Event) -> Vec<u8> {
    let mut out = Vec::with_capacity(128);
    put!(
        out,
        r#"{{"invocationId":"{}","resolution":{{"action":"#,
        Activation(event.node, event.visit)
    );
    match event.resolution {
        1 => put!(
            out,
            r#""complete","outcome":"{}","output":{}"#,
            Outcome(event.outcome),
            event.output
        ),
        2 => out.extend(br#""retry""#),
        3 => {
            out.extend(br#""fail","error":"#);
            error(&mut out, &reported(event));
        }
        other => put!(out, r#""resolution-{other}""#),
    }
    out.extend(b"}}");
    out
}

fn noted() -> Vec<u8> {
    let mut out = br#"{"action":"a000","status":"failed","error":"#.to_vec();
    error(
        &mut out,
        &ErrorInfo {
            code: 0,
            node: NONE,
            detail: 0,
        },
    );
    out.push(b'}');
    out
}
