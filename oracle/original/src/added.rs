//! What documents 01 and 02 add to the original, decided here and nowhere else.
//!
//! - 20, the form of a sheet: the original's types hold no such sheet.
//! - 21 for over two mapping answers or one of an unknown kind: the original is sent an unknown kind of event.
//! - 25 for slots that must be zero: the original is sent a snapshot that is no state.
//! - Ceilings as arguments: the original is sent a value that breaks the same rule.
//! - A retry with a delay above 2^63 - 1, which no policy of the original holds: 27.
//! - Signal endings and the count of microsteps, from the trace and the stores.
//! - What is left over where a run ends: the original leaves it stored.

use calls::{
    BufferedSignal, Call, Ceilings, Ending, Event, Mappings, NodeResult, Output, State, Streak,
    Workflow, ACTIONS, DECLARED, LIMITS, MOST, NODES, ROUTES, STORE,
};
use runspore_types::model::code;
use runspore_types::reducer::Diagnostic;
use runspore_types::script::Trace;
use serde_json::Value;

use crate::names;
use crate::read::Slots;

const ACTIVITY: u32 = 1;
const AWAIT_SIGNAL: u32 = 2;
const COMPLETE: u32 = 3;
const FAIL: u32 = 4;

/// The slot of an arrival, behind those of the store.
pub(crate) const ARRIVAL: usize = STORE;

/// "20: over 64 nodes or actions or a capacity above; unknown kind or effect; route or limit rows not strictly
/// ascending by node and outcome, or on an end node or a node that isn't there; limits without the mark, or the mark
/// on an end node; declared rows not grouped by rising action or of no action; outcome 255; unused slots or fields
/// not zero". A signal above 255, an error code above 16 bits and a mark that isn't 0 or 1, which no rule judges, have no
/// form either. A format, start, action or target of any size is the rules' matter (1, 5, 8, 9).
pub(crate) fn has_form(workflow: &Workflow) -> bool {
    counts_fit(workflow)
        && nodes_fit(workflow)
        && routes_fit(workflow)
        && limits_fit(workflow)
        && actions_fit(workflow)
        && declared_fit(workflow)
}

fn counts_fit(workflow: &Workflow) -> bool {
    workflow.node_count as usize <= NODES
        && workflow.action_count as usize <= ACTIONS
        && workflow.route_count as usize <= ROUTES
        && workflow.limit_count as usize <= LIMITS
        && workflow.declared_count as usize <= DECLARED
}

/// Used slots as rows, and whether all others are zero.
fn split<T: Default + PartialEq>(slots: &[T], count: u32) -> (&[T], bool) {
    let (rows, unused) = slots.split_at(count as usize);
    (rows, unused.iter().all(|slot| *slot == T::default()))
}

fn nodes_fit(workflow: &Workflow) -> bool {
    let (rows, blank) = split(&workflow.nodes, workflow.node_count);
    blank
        && rows.iter().all(|node| {
            let unused = match node.kind {
                ACTIVITY => [node.signal, node.code, node.detail, 0, 0, 0],
                AWAIT_SIGNAL => [node.action, node.has_params, node.code, node.detail, 0, 0],
                COMPLETE => [
                    node.action,
                    node.has_params,
                    node.signal,
                    node.code,
                    node.detail,
                    node.has_limits,
                ],
                FAIL => [
                    node.action,
                    node.has_params,
                    node.signal,
                    node.has_limits,
                    0,
                    0,
                ],
                _ => return false,
            };
            unused == [0; 6]
                && node.signal <= 255
                && node.code <= 65535
                && node.has_params <= 1
                && node.has_limits <= 1
        })
}

/// Whether a node is there and routes.
fn may_route(workflow: &Workflow, node: u32) -> bool {
    let (nodes, _) = split(&workflow.nodes, workflow.node_count);
    let kind = nodes.get(node as usize).map(|node| node.kind);
    matches!(kind, Some(ACTIVITY | AWAIT_SIGNAL))
}

fn ascending(rows: impl Iterator<Item = (u32, u32)> + Clone) -> bool {
    rows.clone().zip(rows.skip(1)).all(|(row, next)| row < next)
}

fn routes_fit(workflow: &Workflow) -> bool {
    let (rows, blank) = split(&workflow.routes, workflow.route_count);
    blank
        && ascending(rows.iter().map(|route| (route.node, route.outcome)))
        && rows
            .iter()
            .all(|route| may_route(workflow, route.node) && route.outcome < 255)
}

fn limits_fit(workflow: &Workflow) -> bool {
    let (rows, blank) = split(&workflow.limits, workflow.limit_count);
    blank
        && ascending(rows.iter().map(|limit| (limit.node, limit.outcome)))
        && rows.iter().all(|limit| {
            may_route(workflow, limit.node)
                && workflow.nodes[limit.node as usize].has_limits == 1
                && limit.outcome < 255
        })
}

fn actions_fit(workflow: &Workflow) -> bool {
    let (rows, blank) = split(&workflow.actions, workflow.action_count);
    blank && rows.iter().all(|action| action.effect <= 2)
}

fn declared_fit(workflow: &Workflow) -> bool {
    let (rows, blank) = split(&workflow.declared, workflow.declared_count);
    blank
        && rows.windows(2).all(|rows| rows[0].action <= rows[1].action)
        && rows
            .iter()
            .all(|declared| declared.action < workflow.action_count && declared.outcome < 255)
}

/// "21: .. over 2 answers, or an unknown .. kind of answer": of any answer below the count, read or not.
pub(crate) fn has_unknown_answers(mappings: &Mappings) -> bool {
    match mappings.answers.get(..mappings.count as usize) {
        Some(answers) => answers
            .iter()
            .any(|mapping| !(1..=3).contains(&mapping.kind)),
        None => true,
    }
}

/// "Added: .. unused slots, and slots of nodes the sheet lacks, all zero". Of an absent position or invocation the
/// original judges the fields itself.
pub(crate) fn has_blank_slots(state: &State, workflow: &Workflow) -> bool {
    let (stored, nodes) = (state.signal_count as usize, workflow.node_count as usize);
    state
        .signals
        .iter()
        .skip(stored)
        .all(|signal| *signal == Default::default())
        && state
            .streaks
            .iter()
            .all(|streak| streak.count != 0 || streak.outcome == 0)
        && state
            .results
            .iter()
            .all(|result| result.output != Output::Nothing || *result == NodeResult::default())
        && state.visits[nodes..].iter().all(|count| *count == 0)
        && state.streaks[nodes..]
            .iter()
            .all(|streak| *streak == Streak::default())
        && state.results[nodes..]
            .iter()
            .all(|result| *result == NodeResult::default())
}

/// The largest values of the original's own constants.
const MAX_VISITS_PER_NODE: u32 = 1_000;
const MAX_ACTIVATIONS: u32 = 10_000;
const MAX_ATTEMPTS: u32 = 100;

/// The sheet's limits as they are sent: 0, which breaks the same rule, for one above its ceiling.
pub(crate) struct Capped {
    pub visits: u32,
    pub activations: u32,
    pub attempts: [u32; ACTIONS],
    /// More nodes than the ceiling: nodes are added until they are over the original's own.
    pub over_nodes: bool,
}

impl Capped {
    pub(crate) fn of(workflow: &Workflow, ceilings: &Ceilings) -> Capped {
        let capped = |value: u32, ceiling: u32| if value > ceiling { 0 } else { value };
        Capped {
            visits: capped(workflow.max_visits_per_node, ceilings.visits),
            activations: capped(workflow.max_activations, ceilings.activations),
            attempts: workflow
                .actions
                .map(|action| capped(action.max_attempts, ceilings.attempts)),
            over_nodes: workflow.node_count > ceilings.nodes,
        }
    }

    /// A value within its ceiling and above the original's constant: the call goes to the raised copy.
    pub(crate) fn needs_raised(&self) -> bool {
        self.visits > MAX_VISITS_PER_NODE
            || self.activations > MAX_ACTIVATIONS
            || self
                .attempts
                .iter()
                .any(|&attempts| attempts > MAX_ATTEMPTS)
    }
}

/// The delay as it is sent.
pub(crate) fn sent_delay(event: &Event) -> u64 {
    event.delay.min(MOST)
}

/// "27 retry time above 2^63 - 1": a retry was reached, and its delay alone is above.
pub(crate) fn is_delay_over(event: &Event, trace: &[Trace]) -> bool {
    let retried = |seen: &Trace| matches!(seen, Trace::Command(attempt) if *attempt > 1);
    event.kind == 3 && event.delay > MOST && trace.iter().any(retried)
}

/// What an accepted call did with signals and how many microsteps it took.
pub(crate) struct Course {
    pub endings: Vec<Ending>,
    pub microsteps: u32,
}

/// Follows the trace of an accepted call: each diagnostic as it arose, and each entry, which follows a routed take
/// wherever the node before was waiting. `limited` is an entry that a limit stopped, of which the trace has nothing.
pub(crate) fn course(
    call: &Call,
    after: &Slots,
    diagnostics: &[Diagnostic],
    trace: &[Trace],
    limited: bool,
) -> Course {
    let mut follower = Follower::new(call, after);
    let mut diagnostics = diagnostics.iter();
    // The run check asks once for the activation id of a live record.
    let asked = call.state.as_ref().is_some_and(|state| state.status <= 3);
    let mut activations = 0;
    for seen in trace {
        match seen {
            Trace::Activation(id) => {
                activations += 1;
                if !asked || activations > 1 {
                    follower.enter(Some(names::activation_numbers(id).0));
                }
            }
            Trace::Details => {
                if let Some(diagnostic) = diagnostics.next() {
                    follower.diagnose(diagnostic);
                }
            }
            Trace::Command(_) => {}
        }
    }
    if limited {
        follower.enter(None);
    }
    assert!(diagnostics.next().is_none(), "a diagnostic without a trace");
    follower.finish(after)
}

struct Follower<'a> {
    call: &'a Call,
    /// Slots that are gone from the store, or never came in, and have no ending yet.
    gone: Vec<usize>,
    /// The await node at which a take may follow.
    waiter: Option<u32>,
    /// The slot that each node was last routed with.
    routed: [Option<usize>; NODES],
    endings: Vec<Ending>,
    entries: u32,
    takes: u32,
}

impl<'a> Follower<'a> {
    fn new(call: &'a Call, after: &Slots) -> Self {
        let arrived = call.event.kind == 2;
        let stored = call.state.as_ref().map_or(0, |state| state.signal_count);
        let gone = (0..stored as usize)
            .chain(arrived.then_some(ARRIVAL))
            .filter(|slot| !after.stored.contains(slot))
            .collect();
        let position = call.state.as_ref().map(|state| state.position.node);
        Self {
            call,
            gone,
            waiter: position.filter(|_| arrived),
            routed: [None; NODES],
            endings: Vec::new(),
            entries: 0,
            takes: 0,
        }
    }

    fn sequence(&self, slot: usize) -> u64 {
        match (slot, &self.call.state) {
            (ARRIVAL, _) => self.call.event.sequence,
            (_, Some(state)) => state.signals[slot].sequence,
            (_, None) => panic!("a stored signal without a record"),
        }
    }

    fn end(&mut self, slot: usize, ending: u32) {
        let place = self.gone.iter().position(|gone| *gone == slot);
        self.gone
            .remove(place.expect("a signal ends once and is not stored"));
        self.endings.push(Ending {
            sequence: self.sequence(slot),
            ending,
        });
        self.takes += u32::from(ending <= 2);
    }

    fn diagnose(&mut self, diagnostic: &Diagnostic) {
        match diagnostic.code.as_str() {
            code::EVENT_IGNORED_TERMINAL if self.call.event.kind == 2 => self.end(ARRIVAL, 4),
            code::SIGNAL_BUFFER_OVERFLOW => self.end(named_slot(diagnostic), 3),
            code::SIGNAL_OUTCOME_UNROUTED => self.end(named_slot(diagnostic), 2),
            _ => {}
        }
    }

    /// An entry; `None` for one that a limit stopped.
    fn enter(&mut self, node: Option<u32>) {
        if let Some(waiter) = self.waiter {
            let slot = self.taken(waiter);
            self.routed[waiter as usize] = Some(slot);
            self.end(slot, 1);
        }
        self.entries += 1;
        self.waiter = node.filter(|&node| {
            let nodes = &self.call.workflow.nodes;
            nodes[node as usize].kind == AWAIT_SIGNAL
        });
    }

    /// The signal that was taken and routed at a node: the arrival, or the oldest that waited there and is gone.
    fn taken(&self, waiter: u32) -> usize {
        if self.gone.contains(&ARRIVAL) {
            return ARRIVAL;
        }
        let (nodes, state) = (&self.call.workflow.nodes, self.call.state.as_ref());
        let signals = &state.expect("a take follows from a record").signals;
        let name = nodes[waiter as usize].signal;
        let slot = self.gone.iter().find(|&&slot| signals[slot].signal == name);
        *slot.expect("a routed signal is gone from the store")
    }

    /// Every signal that is gone has ended, and each node's result tells of the signal that it was routed with.
    fn finish(self, after: &Slots) -> Course {
        assert!(self.gone.is_empty(), "a signal is gone without an ending");
        assert_eq!(self.routed, after.routed, "another signal was routed");
        Course {
            endings: self.endings,
            microsteps: self.entries + self.takes,
        }
    }
}

/// "The call that ends it lists them with ending 5, left over, oldest first, after that call's other endings, and empties
/// the store." `state` is the record that an accepted call left.
pub(crate) fn leave_over(call: &Call, state: &mut State, endings: &mut Vec<Ending>) {
    let is_ended = |state: &State| matches!(state.status, 4 | 5);
    if !is_ended(state) || call.state.as_ref().is_some_and(is_ended) {
        return;
    }
    let stored = state.signals.iter().take(state.signal_count as usize);
    endings.extend(stored.map(|signal| Ending {
        sequence: signal.sequence,
        ending: 5,
    }));
    state.signal_count = 0;
    state.signals = [BufferedSignal::default(); STORE];
}

fn named_slot(diagnostic: &Diagnostic) -> usize {
    let details: Value = serde_json::from_slice(&diagnostic.details).expect("details are JSON");
    let id = details["eventId"].as_str().expect("an event id");
    names::event_id_numbers(id).1
}
