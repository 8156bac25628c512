//! Run records: edits that keep a record right, and damage.

use calls::{
    BufferedSignal, ErrorInfo, InvocationState, NodeResult, Output, Position, State, Streak,
    Workflow, LIMITS, MOST, NODES, NONE, ROUTES, STORE,
};

use crate::rng::{Rng, EDGES, LONG_EDGES};

/// Boundary values of a name.
pub const NAMES: [u32; 12] = [0, 1, 2, 3, 4, 5, 6, 62, 63, 64, 254, 255];
/// Boundary values of an error's code.
pub const CODES: [u32; 8] = [0, 1, 2, 5, 77, 255, 256, 65535];

/// A name; at times one above what a name can be.
pub fn any_name(rng: &mut Rng) -> u32 {
    match rng.one_in(8) {
        true => rng.pick(&[256, 257, 65536, u32::MAX]),
        false => rng.pick(&NAMES),
    }
}

/// An error's code; at times one above what a code can be.
pub fn any_code(rng: &mut Rng) -> u32 {
    match rng.one_in(8) {
        true => rng.pick(&[65536, 65537, u32::MAX]),
        false => rng.pick(&CODES),
    }
}

pub fn error(rng: &mut Rng) -> ErrorInfo {
    ErrorInfo {
        code: rng.pick(&CODES),
        node: rng.pick(&[0, 1, 63, 255]),
        detail: rng.pick(&[0, 9, u32::MAX]),
    }
}

/// The same, also with a code and a node that it can't hold.
fn any_error(rng: &mut Rng) -> ErrorInfo {
    ErrorInfo {
        code: any_code(rng),
        node: any_name(rng),
        ..error(rng)
    }
}

fn output(rng: &mut Rng, error: fn(&mut Rng) -> ErrorInfo) -> Output {
    match rng.percent(70) {
        true => Output::Handle(rng.pick(&EDGES)),
        false => Output::Error(error(rng)),
    }
}

/// A signal that some await node of the sheet waits for, mostly.
pub fn signal(rng: &mut Rng, workflow: &Workflow) -> u32 {
    let nodes = &workflow.nodes[..(workflow.node_count as usize).min(NODES)];
    let waited: Vec<u32> = nodes
        .iter()
        .filter(|node| node.kind == 2)
        .map(|node| node.signal)
        .collect();
    if waited.is_empty() || rng.percent(15) {
        return rng.pick(&[0, 5, 6, 7, 254, 255]);
    }
    rng.pick(&waited)
}

/// An outcome that some node routes, an absent one, or another.
pub fn outcome(rng: &mut Rng, workflow: &Workflow) -> u32 {
    let used = (workflow.route_count as usize).min(ROUTES);
    match rng.below(10) {
        0..=5 if used > 0 => workflow.routes[rng.below(used)].outcome,
        6 | 7 => NONE,
        8 => rng.pick(&[0, 1, 2, 3, 4]),
        _ => rng.pick(&NAMES),
    }
}

pub fn stored(rng: &mut Rng, workflow: &Workflow, last: u64) -> BufferedSignal {
    BufferedSignal {
        sequence: match rng.percent(90) {
            true => last - rng.next() % (last.min(100) + 1),
            false => rng.pick(&LONG_EDGES).min(MOST),
        },
        event_id: rng.small(5000),
        signal: signal(rng, workflow),
        outcome: outcome(rng, workflow),
        data: rng.small(100),
    }
}

fn near(rng: &mut Rng, value: u32) -> u32 {
    match rng.below(5) {
        0 => value.saturating_add(1),
        1 => value.saturating_sub(1),
        2 => value.saturating_sub(2),
        3 => rng.pick(&[0, 1, u32::MAX]),
        _ => value,
    }
}

fn fill(rng: &mut Rng, workflow: &Workflow, state: &mut State) {
    let goal = rng.pick(&[1, 2, 3, 5, 20, 63, 64, 64, 64]);
    let alike = rng.percent(60);
    let mut like = stored(rng, workflow, state.last_sequence);
    if state.status == 2 && rng.percent(50) {
        like.signal = workflow.nodes[state.position.node as usize % NODES].signal;
    }
    while (state.signal_count as usize) < goal.min(STORE) {
        let mut signal = stored(rng, workflow, state.last_sequence);
        if alike {
            signal.signal = like.signal;
            if rng.percent(80) {
                signal.outcome = like.outcome;
            }
        }
        state.signals[state.signal_count as usize] = signal;
        state.signal_count += 1;
    }
}

/// Changes a right record into another right one.
pub fn edit(rng: &mut Rng, workflow: &Workflow, state: &mut State) {
    let nodes = workflow.node_count.clamp(1, NODES as u32);
    let ended = state.status > 3;
    match rng.below(13) {
        0..=2 if !ended => fill(rng, workflow, state),
        3 => {
            let node = rng.small(nodes);
            if ended || node != state.position.node {
                state.visits[node as usize] = near(rng, workflow.max_visits_per_node);
            }
        }
        4 if !ended => {
            let visit = near(rng, workflow.max_visits_per_node).max(1);
            state.visits[state.position.node as usize % NODES] = visit;
            state.position.visit = visit;
            if state.invocation.phase != 0 {
                state.invocation.visit = visit;
            }
        }
        5 => state.activations = near(rng, workflow.max_activations),
        6 | 7 if state.invocation.phase != 0 => {
            let action = &workflow.actions[state.invocation.action as usize % NODES];
            state.invocation.attempt = match rng.percent(15) {
                true => u32::MAX,
                false => near(rng, action.max_attempts).max(1),
            };
        }
        8 => state.last_accepted_at = rng.pick(&LONG_EDGES).min(MOST),
        9 if rng.percent(30) => state.last_sequence = rng.pick(&LONG_EDGES).min(MOST),
        10 => {
            let used = (workflow.limit_count as usize).min(LIMITS);
            if used > 0 {
                let row = workflow.limits[rng.below(used)];
                state.streaks[row.node as usize % NODES] = Streak {
                    outcome: row.outcome,
                    count: rng.pick(&[row.limit, row.limit, row.limit - 1, 1]).max(1),
                };
            }
        }
        11 => {
            state.results[rng.small(nodes) as usize] = NodeResult {
                visit: rng.pick(&[0, 1, 2, u32::MAX]),
                outcome: rng.pick(&NAMES),
                output: output(rng, error),
            };
        }
        _ if state.invocation.phase != 0 => repark(rng, workflow, state),
        _ => {}
    }
}

/// Another status and phase of the same invocation.
fn repark(rng: &mut Rng, workflow: &Workflow, state: &mut State) {
    let invocation = &mut state.invocation;
    invocation.error = None;
    match rng.below(3) {
        0 => {
            state.status = 1;
            invocation.phase = 1;
        }
        1 if workflow.format == 2 => {
            state.status = 3;
            invocation.phase = 3;
            invocation.error = Some(error(rng));
        }
        _ => {
            state.status = 3;
            invocation.phase = 2;
        }
    }
}

/// Damages one thing. Not everything here breaks the run check; some of it no record of the boundary holds.
pub fn damage(rng: &mut Rng, workflow: &Workflow, state: &mut State) {
    // An ended run stores nothing.
    if state.status > 3 && rng.percent(20) {
        return fill(rng, workflow, state);
    }
    match rng.below(10) {
        0 => {
            state.status = match rng.percent(70) {
                true => 1 + rng.small(5),
                false => rng.pick(&[0, 6, 255]),
            }
        }
        1 => damage_position(rng, state),
        2 | 3 => damage_invocation(rng, state),
        4 => {
            state.result = match rng.below(3) {
                0 => Output::Nothing,
                1 => Output::Handle(rng.pick(&EDGES)),
                _ => Output::Error(any_error(rng)),
            }
        }
        5 => damage_store(rng, workflow, state),
        6 | 7 => damage_slots(rng, workflow, state),
        8 => {
            let field = match rng.percent(50) {
                true => &mut state.last_sequence,
                false => &mut state.last_accepted_at,
            };
            *field = rng.pick(&LONG_EDGES);
        }
        _ => match rng.below(3) {
            0 => state.invocation = InvocationState::NONE,
            1 => state.position = Position::NONE,
            _ => {
                state.status = 3;
                state.invocation.phase = 3;
                state.invocation.error = rng.percent(70).then(|| any_error(rng));
            }
        },
    }
}

fn damage_position(rng: &mut Rng, state: &mut State) {
    match rng.percent(50) {
        true => state.position.node = any_name(rng),
        false => {
            let visit = state.position.visit;
            state.position.visit =
                rng.pick(&[0, visit.wrapping_add(1), visit.wrapping_sub(1), u32::MAX]);
            if rng.percent(40) {
                // Visit 0 where the count is 0 too.
                state.visits[state.position.node as usize % NODES] = state.position.visit;
            }
        }
    }
}

fn damage_invocation(rng: &mut Rng, state: &mut State) {
    let kept = any_error(rng);
    let invocation = &mut state.invocation;
    match rng.below(7) {
        0 => {
            invocation.phase = match rng.percent(80) {
                true => rng.small(4),
                false => rng.pick(&[4, 255]),
            }
        }
        1 => invocation.node = any_name(rng),
        2 => invocation.visit = invocation.visit.wrapping_add(rng.pick(&[1, 2, u32::MAX])),
        3 => invocation.action = any_name(rng),
        4 => invocation.attempt = rng.pick(&[0, 1, u32::MAX]),
        5 => invocation.input = rng.pick(&EDGES),
        _ => {
            invocation.error = match invocation.error {
                Some(_) => None,
                None => Some(kept),
            }
        }
    }
}

fn damage_store(rng: &mut Rng, workflow: &Workflow, state: &mut State) {
    match rng.below(5) {
        0 => {
            let count = state.signal_count;
            state.signal_count = rng.pick(&[
                0,
                count.wrapping_add(1),
                count.wrapping_sub(1),
                63,
                64,
                65,
                u32::MAX,
            ]);
        }
        1 => {
            let at = rng.below(STORE);
            state.signals[at] = stored(rng, workflow, state.last_sequence.min(MOST));
        }
        2 => {
            let at = (state.signal_count as usize).min(STORE - 1);
            let signal = &mut state.signals[at];
            match rng.below(5) {
                0 => signal.sequence = 1,
                1 => signal.event_id = 1,
                2 => signal.signal = rng.pick(&[1, 256]),
                3 => signal.outcome = rng.pick(&[1, 256]),
                _ => signal.data = 1,
            }
        }
        _ => {
            if state.signal_count == 0 {
                state.signals[0] = stored(rng, workflow, state.last_sequence.min(MOST));
                state.signal_count = 1;
            }
            let at = rng.below((state.signal_count as usize).min(STORE));
            state.signals[at].sequence = rng.pick(&LONG_EDGES);
        }
    }
}

/// Visits, streaks and results, of nodes that are there and others.
fn damage_slots(rng: &mut Rng, workflow: &Workflow, state: &mut State) {
    let count = workflow.node_count.min(NODES as u32) as usize;
    let at = match rng.below(4) {
        0 => count.min(NODES - 1),
        1 => NODES - 1,
        2 => rng.below(NODES),
        _ => rng.below(count),
    };
    match rng.below(6) {
        0 => state.visits[at] = rng.pick(&[0, 1, 2, u32::MAX]),
        1 => state.streaks[at].outcome = any_name(rng),
        2 => state.streaks[at].count = rng.pick(&[0, 1, 2, u32::MAX]),
        3 => {
            let used = (workflow.limit_count as usize).min(LIMITS);
            if used > 0 {
                let row = workflow.limits[rng.below(used)];
                let limit = row.limit;
                state.streaks[row.node as usize % NODES] = Streak {
                    outcome: row.outcome,
                    count: rng.pick(&[0, limit, limit.wrapping_add(1), limit / 2]),
                };
            }
        }
        4 => match rng.below(3) {
            0 => state.results[at].output = Output::Nothing,
            1 => state.results[at].visit = 1,
            _ => state.results[at].outcome = rng.pick(&[1, 1, 256]),
        },
        _ => state.results[at].output = output(rng, any_error),
    }
}
