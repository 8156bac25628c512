//! Calls that chance seldom reaches: Joint A, every way to an end with something stored, 130 microsteps, 65 notes and 65
//! endings, full sheets.

use calls::{
    Action, BufferedSignal, Call, Ceilings, InvocationState, Limit, Node, Position, Rows, State,
    Streak, Workflow, ACTIONS, NODES, NONE, STORE,
};

use crate::{full, joint};

pub fn calls() -> Vec<Call> {
    let mut calls: Vec<Call> = joint::cases().into_iter().map(|case| case.call).collect();
    calls.extend(ends());
    for limit in [130, 129, 131, 65, u32::MAX] {
        for outcome in [NONE, 4, 5, 9] {
            let mut call = spin(outcome);
            call.limits.microsteps = limit;
            calls.push(call);
        }
    }
    for outcome in [NONE, 4, 9] {
        calls.push(noted(outcome));
        calls.push(from_result(outcome));
    }
    calls
}

/// Starts on full sheets, on one with a node or an action counted that there is no room for, and on one that names the
/// action after the last. What would be read as the row that isn't there has the form of one.
pub fn at_counts() -> Vec<Call> {
    let of_kind = |kind, action| Node {
        kind,
        action,
        ..Node::default()
    };
    let mut nodes = [of_kind(1, 1); NODES];
    nodes[NODES - 1] = of_kind(3, 0);
    let routes: Vec<_> = (0..NODES as u32 - 1).map(|n| (n, 0, n + 1)).collect();
    let declared: Vec<_> = (0..ACTIONS as u32).map(|action| (action, 0)).collect();
    let all_used = Rows {
        nodes: &nodes,
        routes: &routes,
        limits: &[],
        actions: &[(0, 1); ACTIONS],
        declared: &declared,
    };
    let all_used = Workflow::of(200, 300, &all_used);
    let [mut node_more, mut action_more] = [all_used.clone(), all_used.clone()];
    node_more.node_count += 1;
    action_more.action_count += 1;
    let after_the_last = Rows {
        nodes: &[of_kind(1, 1), of_kind(3, 0)],
        routes: &[(0, 2, 1)],
        limits: &[],
        actions: &[(0, 1)],
        declared: &[(0, 0)],
    };
    let after_the_last = Workflow::of(200, 300, &after_the_last);
    let mut sheets = vec![all_used, node_more, action_more, after_the_last];
    sheets.push(full::sheet(64));
    sheets.extend(full::refused().into_iter().map(|(_, sheet)| sheet));
    let start = |sheet: &Workflow| {
        let mut call = joint::call(sheet, None, joint::start());
        call.ceilings = full::CEILINGS;
        call.ceilings.nodes = 100;
        call
    };
    sheets.iter().map(start).collect()
}

/// Every way to an end, on Joint A with something stored.
fn ends() -> Vec<Call> {
    let storing = |mut state: State| {
        joint::store(&mut state, 6, NONE);
        joint::store(&mut state, 5, 9);
        state
    };
    let scheduled = storing(joint::scheduled());
    let waiting = storing(joint::waiting());
    let stuck = storing(joint::stuck());
    let mut unknown = scheduled.clone();
    unknown.status = 3;
    unknown.invocation.phase = 2;
    let mut routed = unknown.clone();
    joint::store(&mut routed, 5, NONE);
    let sheet = joint::sheet();
    let on = |state: &State, event| joint::call(&sheet, Some(state), event);
    let [through, again] = [NONE, 4].map(|outcome| joint::signal(5, outcome));
    let mut calls = vec![
        on(&waiting, through),
        on(&unknown, joint::resolved(3)),
        on(&stuck, joint::resolved(3)),
        on(&routed, joint::resolved(1)),
    ];
    // The fail node, and both limits.
    let changes: [fn(&mut State); 3] = [
        |state| {
            state.streaks[1] = Streak {
                outcome: 4,
                count: 1,
            }
        },
        |state| state.visits[0] = 3,
        |state| state.activations = 10,
    ];
    for change in changes {
        let mut state = waiting.clone();
        change(&mut state);
        calls.push(on(&state, again));
    }
    // Faults at output, input and params.
    for event in [through, again] {
        let mut call = on(&waiting, event);
        call.mappings.answers[0].kind = 2;
        calls.push(call);
    }
    let mut call = on(&waiting, again);
    call.workflow.nodes[0].has_params = 1;
    call.mappings.count = 2;
    call.mappings.answers[1].kind = 2;
    calls.push(call);
    // In format 1 a failure without a route ends the run.
    let mut old = sheet.clone();
    old.format = 1;
    old.nodes[1].has_limits = 0;
    old.limit_count = 0;
    old.limits[0] = Limit::default();
    old.actions[0] = Action {
        effect: 0,
        max_attempts: 1,
    };
    let mut undeclared = joint::result(0, 1, 1, 1);
    undeclared.outcome = 9;
    let [failure, expired] = [2, 4].map(|status| joint::result(0, 1, 1, status));
    for event in [undeclared, failure, expired] {
        calls.push(joint::call(&old, Some(&scheduled), event));
    }
    calls
}

fn wide(mut call: Call) -> Call {
    call.ceilings = Ceilings {
        nodes: 64,
        visits: 1000,
        activations: 1000,
        attempts: 64,
    };
    call
}

/// Node 0: activity, ok to 1, exhausted to 1, limit 1 on ok. Node 1: await signal 5, received and 4 to itself, 5 to 2,
/// exhausted to itself, limit 1 on 4. Node 2 complete.
fn sheet() -> Workflow {
    let limited = |kind, signal| Node {
        kind,
        signal,
        has_limits: 1,
        ..Node::default()
    };
    let complete = Node {
        kind: 3,
        ..Node::default()
    };
    let rows = Rows {
        nodes: &[limited(1, 0), limited(2, 5), complete],
        routes: &[
            (0, 0, 1),
            (0, 3, 1),
            (1, 1, 1),
            (1, 3, 1),
            (1, 4, 1),
            (1, 5, 2),
        ],
        limits: &[(0, 0, 1), (1, 4, 1)],
        actions: &[(0, 1)],
        declared: &[(0, 0)],
    };
    Workflow::of(200, 300, &rows)
}

fn stored(outcome: u32) -> State {
    let mut state = State::fresh(42);
    state.last_sequence = 70;
    state.signal_count = STORE as u32;
    for (i, signal) in state.signals.iter_mut().enumerate() {
        *signal = BufferedSignal {
            sequence: i as u64 + 3,
            event_id: 1003 + i as u32,
            signal: 5,
            outcome,
            data: 7,
        };
    }
    state
}

fn waiting(outcome: u32) -> State {
    let mut state = stored(outcome);
    state.status = 2;
    state.position = Position { node: 1, visit: 1 };
    state.visits[1] = 1;
    state.activations = 1;
    state
}

/// An arrival that routes, then 64 stored signals: 130 microsteps where their outcome routes too.
pub fn spin(outcome: u32) -> Call {
    let state = waiting(outcome);
    wide(joint::call(&sheet(), Some(&state), joint::signal(5, NONE)))
}

/// The same with the arrival's limit used up.
fn noted(outcome: u32) -> Call {
    let mut state = waiting(outcome);
    state.streaks[1] = Streak {
        outcome: 4,
        count: 1,
    };
    wide(joint::call(&sheet(), Some(&state), joint::signal(5, 4)))
}

/// A success whose limit is used up, then 64 stored signals.
fn from_result(outcome: u32) -> Call {
    let mut state = stored(outcome);
    state.position = Position { node: 0, visit: 2 };
    state.visits[0] = 2;
    state.activations = 3;
    state.streaks[0] = Streak {
        outcome: 0,
        count: 1,
    };
    state.invocation = InvocationState {
        phase: 1,
        node: 0,
        visit: 2,
        action: 0,
        attempt: 1,
        input: 5,
        error: None,
    };
    wide(joint::call(
        &sheet(),
        Some(&state),
        joint::result(0, 2, 1, 1),
    ))
}
