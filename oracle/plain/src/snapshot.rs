//! The run check: refusal 25.

use calls::{
    BufferedSignal, InvocationState, NodeResult, Output, Position, State, Streak, MOST, STORE,
};

use super::graph::{Graph, ACTIVITY, AWAIT_SIGNAL};
use super::sheet::Sheet;

pub(super) const RUNNING: u32 = 1;
pub(super) const WAITING: u32 = 2;
pub(super) const NEEDS_INTERVENTION: u32 = 3;
pub(super) const COMPLETED: u32 = 4;
pub(super) const FAILED: u32 = 5;

pub(super) const SCHEDULED: u32 = 1;
pub(super) const UNKNOWN: u32 = 2;
pub(super) const STUCK: u32 = 3;

pub(super) fn is_terminal(state: &State) -> bool {
    state.status == COMPLETED || state.status == FAILED
}

/// What the moves rely on, the counters' range and the zeros of unused slots.
pub(super) fn consistent(state: &State, graph: &Graph<impl Sheet>) -> bool {
    if state.last_sequence > MOST || state.last_accepted_at > MOST {
        return false;
    }
    if !signals_fit(state) || !slots_fit(state, graph) {
        return false;
    }
    if is_terminal(state) {
        return ended(state);
    }
    parked(state, graph)
}

fn signals_fit(state: &State) -> bool {
    let count = state.signal_count as usize;
    if count > STORE {
        return false;
    }
    let (used, unused) = state.signals.split_at(count);
    used.iter().all(|signal| signal.sequence <= MOST) && unused.iter().fold(0, bits) == 0
}

/// The bits that are set in any field.
fn bits(any: u64, signal: &BufferedSignal) -> u64 {
    let fields = signal.event_id | signal.signal | signal.outcome | signal.data;
    any | signal.sequence | u64::from(fields)
}

/// Streaks that the sheet's limits allow; nothing in unused slots and in those of nodes that the sheet lacks.
fn slots_fit(state: &State, graph: &Graph<impl Sheet>) -> bool {
    let count = graph.node_count();
    for node in 0..count {
        if !streak_fits(&state.streaks[node], node as u32, graph) {
            return false;
        }
        let result = &state.results[node];
        if result.output == Output::Nothing && *result != NodeResult::default() {
            return false;
        }
    }
    let streaks = &state.streaks[count..];
    let any = state.visits[count..].iter().fold(0, |any, x| any | x)
        | streaks.iter().fold(0, |any, x| any | x.outcome | x.count);
    any == 0
        && state.results[count..]
            .iter()
            .all(|result| *result == NodeResult::default())
}

fn streak_fits(streak: &Streak, node: u32, graph: &Graph<impl Sheet>) -> bool {
    if streak.count == 0 {
        return streak.outcome == 0;
    }
    match graph.limit(node, streak.outcome) {
        Some(limit) => streak.count <= limit,
        None => false,
    }
}

fn ended(state: &State) -> bool {
    if state.signal_count != 0 {
        return false;
    }
    if state.position != Position::NONE || state.invocation != InvocationState::NONE {
        return false;
    }
    match state.result {
        Output::Handle(_) => state.status == COMPLETED,
        Output::Error(_) => state.status == FAILED,
        Output::Nothing => false,
    }
}

fn parked(state: &State, graph: &Graph<impl Sheet>) -> bool {
    let position = &state.position;
    if state.result != Output::Nothing || position.node as usize >= graph.node_count() {
        return false;
    }
    if position.visit == 0 || state.visits[position.node as usize] != position.visit {
        return false;
    }
    let node = graph.node(position.node);
    let invocation = &state.invocation;
    match (state.status, node.kind, invocation.phase) {
        (WAITING, AWAIT_SIGNAL, 0) => *invocation == InvocationState::NONE,
        (RUNNING, ACTIVITY, SCHEDULED) => owned_by(invocation, position, node.action),
        (NEEDS_INTERVENTION, ACTIVITY, UNKNOWN) => owned_by(invocation, position, node.action),
        (NEEDS_INTERVENTION, ACTIVITY, STUCK) => {
            graph.parks_stuck_steps() && owned_by(invocation, position, node.action)
        }
        _ => false,
    }
}

/// The invocation belongs to the activation the run is parked at.
fn owned_by(invocation: &InvocationState, position: &Position, action: u32) -> bool {
    invocation.node == position.node
        && invocation.visit == position.visit
        && invocation.action == action
        && invocation.attempt != 0
        && invocation.error.is_some() == (invocation.phase == STUCK)
}
