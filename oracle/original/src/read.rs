//! What comes back from the original, as numbers.

use calls::{
    BufferedSignal, ErrorInfo, Event, InvocationState, NodeResult, Note, Order, Output, Position,
    State, Streak, NODES, NONE,
};
use runspore_kernel::code as kernel;
use runspore_types::model::{
    self, code, command_kind, event_kind, InvocationPhase, RetryActivity, RunResult, RunStatus,
    ScheduleActivity,
};
use runspore_types::reducer::{Command, Diagnostic, Failure};
use serde_json::Value;

use crate::names::{
    activation_numbers, code_number, event_id_numbers, node_number, number, outcome_number,
};

/// Number and item of a refusal, from the original's own code and message.
pub(crate) fn refusal(failure: &Failure, event: &Event) -> (u32, u32) {
    let message = failure.message.as_str();
    let number = match failure.code.as_str() {
        code::WORKFLOW_INVALID => return (rule(message), item(message)),
        code::WORKFLOW_UNSUPPORTED_EFFECT => return (16, item(message)),
        code::EVENT_UNKNOWN_KIND => 21,
        code::EVENT_INVALID => {
            assert!(
                is_unknown(event) || !message.contains("payload"),
                "{message}"
            );
            21
        }
        code::EVENT_OUT_OF_ORDER => 22,
        code::STATE_MISSING => 23,
        code::STATE_UNEXPECTED_START => 24,
        code::STATE_INVALID => {
            assert!(!is_misspelt(message), "{message}");
            25
        }
        code::BUDGET_MICROSTEPS => 26,
        kernel::BUDGET_COUNTER_RANGE => 27,
        kernel::BUDGET_VALUE_DEPTH => 28,
        code::BUDGET_COMMAND_COUNT => 29,
        code::BUDGET_EXPRESSION_OPERATIONS => 30,
        other => panic!("{other}: {message}"),
    };
    (number, NONE)
}

/// A status or a resolution that the original's types can't decode.
fn is_unknown(event: &Event) -> bool {
    match event.kind {
        3 => !(1..=4).contains(&event.status),
        4 => !(1..=3).contains(&event.resolution),
        _ => false,
    }
}

/// A snapshot that is refused for how it is written rather than for what it says.
fn is_misspelt(message: &str) -> bool {
    let syntax = message.contains(" field `") || message.contains(" at line ");
    syntax || (message.contains("invalid type") && !message.contains("null, expected struct State"))
}

/// The number of a message `W08: ..`.
fn rule(message: &str) -> u32 {
    let digits = message.strip_prefix('W').and_then(|rest| rest.get(..2));
    let rule = digits.and_then(|digits| digits.parse().ok());
    rule.unwrap_or_else(|| panic!("{message}"))
}

/// The node or action that a message names first.
fn item(message: &str) -> u32 {
    let about = match message.split_once(": ") {
        Some((rule, about)) if rule.starts_with('W') => about,
        _ => message,
    };
    let named = about
        .strip_prefix("node \"")
        .or_else(|| about.strip_prefix("action \""));
    named
        .and_then(|named| named.split('"').next())
        .map_or(NONE, number)
}

/// Where the signals of a call are afterwards, by the slot that they were sent with.
pub(crate) struct Slots {
    pub stored: Vec<usize>,
    /// The slot whose data a node's result holds.
    pub routed: [Option<usize>; NODES],
}

/// A value of the original: a handle, and above it a signal's slot plus one.
fn handle(value: &Value) -> (u32, Option<usize>) {
    let value = value.as_u64().expect("a value is a handle");
    (
        value as u32,
        (value >> 32).checked_sub(1).map(|slot| slot as usize),
    )
}

pub(crate) fn state(read: &model::State) -> (State, Slots) {
    let mut state = State::fresh(handle(&read.input).0);
    state.status = status_number(read.status);
    state.activations = read.activations;
    state.last_sequence = read.last_sequence;
    state.last_accepted_at = read.last_accepted_at_ms;
    if let Some(position) = &read.position {
        state.position = Position {
            node: number(&position.node_id),
            visit: position.visit,
        };
        assert_eq!(
            activation_numbers(&position.activation_id),
            (state.position.node, state.position.visit)
        );
    }
    if let Some(read) = &read.invocation {
        state.invocation = invocation(read);
    }
    state.result = match &read.result {
        None => Output::Nothing,
        Some(RunResult::Output(value)) => Output::Handle(handle(value).0),
        Some(RunResult::Error(read)) => Output::Error(error(read)),
    };
    let mut slots = Slots {
        stored: Vec::with_capacity(read.signals.len()),
        routed: [None; NODES],
    };
    for (node, read) in &read.nodes {
        let node = number(node) as usize;
        (state.results[node], slots.routed[node]) = result(read);
    }
    for (node, count) in &read.visits {
        state.visits[number(node) as usize] = *count;
    }
    for (node, streak) in &read.streaks {
        state.streaks[number(node) as usize] = Streak {
            outcome: outcome_number(&streak.outcome),
            count: streak.count,
        };
    }
    state.signal_count = read.signals.len() as u32;
    for (signal, place) in read.signals.iter().zip(&mut state.signals) {
        let (event_id, slot) = event_id_numbers(&signal.event_id);
        slots.stored.push(slot);
        *place = BufferedSignal {
            sequence: signal.sequence,
            event_id,
            signal: number(&signal.name),
            outcome: signal.outcome.as_deref().map_or(NONE, outcome_number),
            data: handle(&signal.data).0,
        };
    }
    (state, slots)
}

fn status_number(status: RunStatus) -> u32 {
    match status {
        RunStatus::Running => 1,
        RunStatus::Waiting => 2,
        RunStatus::NeedsIntervention => 3,
        RunStatus::Completed => 4,
        RunStatus::Failed => 5,
    }
}

fn invocation(read: &model::InvocationState) -> InvocationState {
    let (node, visit) = activation_numbers(&read.activation_id);
    assert_eq!(node, number(&read.node_id));
    assert_eq!(read.invocation_id, read.activation_id);
    InvocationState {
        phase: match read.state {
            InvocationPhase::Scheduled => 1,
            InvocationPhase::Unknown => 2,
            InvocationPhase::Stuck => 3,
        },
        node,
        visit,
        action: number(&read.action_id),
        attempt: read.attempt,
        input: read.input_digest.parse().expect("a digest is a handle"),
        error: read.error.as_ref().map(error),
    }
}

/// The details of an error: a number as supplied, or what the kernel tells of codes 3 and 4.
fn error(read: &model::ErrorInfo) -> ErrorInfo {
    let detail = match &read.details {
        Value::Null => 0,
        Value::Object(details) => match (details.get("outcome"), details.get("lastStatus")) {
            (Some(outcome), None) => outcome_number(text(outcome)),
            (None, Some(status)) => attempt_status_number(text(status)),
            _ => panic!("details {details:?}"),
        },
        value => handle(value).0,
    };
    ErrorInfo {
        code: code_number(&read.code),
        node: node_number(read.node_id.as_deref()),
        detail,
    }
}

fn attempt_status_number(status: &str) -> u32 {
    match status {
        "unknown" => 3,
        "expired" => 4,
        other => panic!("status {other}"),
    }
}

fn result(read: &model::NodeResult) -> (NodeResult, Option<usize>) {
    let (output, slot) = match read.output.get("error") {
        Some(value) => (Output::Error(error(&error_info(value))), None),
        None => {
            let (handle, slot) = handle(&read.output);
            (Output::Handle(handle), slot)
        }
    };
    let result = NodeResult {
        visit: read.visit,
        outcome: outcome_number(&read.outcome),
        output,
    };
    (result, slot)
}

fn error_info(value: &Value) -> model::ErrorInfo {
    serde_json::from_value(value.clone()).expect("an error")
}

fn text(value: &Value) -> &str {
    value.as_str().expect("a text")
}

fn small(value: &Value) -> u32 {
    let value = value.as_u64().and_then(|value| u32::try_from(value).ok());
    value.expect("a number of 32 bits")
}

pub(crate) fn order(command: &Command) -> Order {
    let (node, visit) = activation_numbers(&command.activation_id);
    match command.kind.as_str() {
        command_kind::ACTIVITY_SCHEDULE => {
            let order: ScheduleActivity =
                serde_json::from_slice(&command.payload).expect("a schedule");
            assert_eq!(order.activation_id, command.activation_id);
            assert_eq!(number(&order.node_id), node);
            Order::Schedule {
                node,
                visit,
                action: number(&order.action_id),
                attempt: order.attempt,
                not_before: order.not_before_ms,
                input: handle(&order.input).0,
                params: order.params.as_ref().map(|params| handle(params).0),
            }
        }
        command_kind::ACTIVITY_RETRY => {
            let order: RetryActivity = serde_json::from_slice(&command.payload).expect("a retry");
            assert_eq!(order.invocation_id, command.activation_id);
            Order::Retry {
                node,
                visit,
                attempt: order.attempt,
                not_before: order.not_before_ms,
            }
        }
        other => panic!("command {other}"),
    }
}

pub(crate) fn note(diagnostic: &Diagnostic) -> Note {
    let details: Value = serde_json::from_slice(&diagnostic.details).expect("details are JSON");
    let named = || activation_numbers(text(&details["invocationId"]));
    let (code, [a, b, c]) = match diagnostic.code.as_str() {
        code::EVENT_IGNORED_TERMINAL => (1, [kind_number(text(&details["kind"])), 0, 0]),
        code::RESULT_STALE => {
            let (node, visit) = named();
            (2, [node, visit, small(&details["attempt"])])
        }
        code::RESOLVE_NOT_APPLICABLE => {
            let (node, visit) = named();
            (3, [node, visit, reason_number(text(&details["reason"]))])
        }
        code::SIGNAL_BUFFER_OVERFLOW => (4, [event_id(&details), 0, 0]),
        code::SIGNAL_OUTCOME_UNROUTED => {
            let outcome = outcome_number(text(&details["outcome"]));
            (5, [event_id(&details), outcome, 0])
        }
        code::INVOCATION_UNKNOWN => {
            let status = attempt_status_number(text(&details["status"]));
            (6, [named().1, small(&details["attempt"]), status])
        }
        code::INVOCATION_STUCK => {
            let error = error_info(&details["error"]);
            let code = code_number(&error.code);
            (7, [named().1, small(&details["attempt"]), code])
        }
        code::ACTIVITY_RETRY_SCHEDULED => (8, [small(&details["attempt"]), 0, 0]),
        code::LOOP_EXHAUSTED => {
            let outcome = outcome_number(text(&details["outcome"]));
            (9, [outcome, small(&details["limit"]), 0])
        }
        other => panic!("diagnostic {other}"),
    };
    Note {
        code,
        node: node_number(diagnostic.node_id.as_deref()),
        a,
        b,
        c,
    }
}

fn event_id(details: &Value) -> u32 {
    event_id_numbers(text(&details["eventId"])).0
}

fn kind_number(kind: &str) -> u32 {
    match kind {
        event_kind::RUN_STARTED => 1,
        event_kind::SIGNAL_RECEIVED => 2,
        event_kind::ACTIVITY_RESULT => 3,
        event_kind::INVOCATION_RESOLVED => 4,
        event_kind::ON_INTERVENTION_FAILED => 5,
        other => panic!("kind {other}"),
    }
}

fn reason_number(reason: &str) -> u32 {
    match reason {
        "invocation-mismatch" => 1,
        "invocation-not-unknown" => 2,
        "outcome-undeclared" => 3,
        other => panic!("reason {other}"),
    }
}
