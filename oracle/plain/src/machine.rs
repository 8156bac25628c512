//! The step: dispatch and moves.

use calls::{
    BufferedSignal, Ending, ErrorInfo, Event, InvocationState, Limits, Mappings, NodeResult, Note,
    Order, Output, Position, Streak, MOST, NONE, STORE,
};

use super::event::{self, FAILURE, SUCCESS};
use super::graph::{self, Graph, EXHAUSTED, OK, RECEIVED, REPEATABLE};
use super::sheet::Sheet;
use super::snapshot::{
    self, COMPLETED, NEEDS_INTERVENTION, RUNNING, SCHEDULED, STUCK, UNKNOWN, WAITING,
};
use super::{refused, Decision, Kind, Step};

const VISITS_EXCEEDED: u32 = 1;
const ACTIVATIONS_EXCEEDED: u32 = 2;
const UNDECLARED_OUTCOME: u32 = 3;
const ATTEMPTS_EXHAUSTED: u32 = 4;
const ACTIVITY_FAILED: u32 = 5;

const NOTE_IGNORED: u32 = 1;
const NOTE_STALE: u32 = 2;
const NOTE_NOT_APPLICABLE: u32 = 3;
const NOTE_OVERFLOW: u32 = 4;
const NOTE_UNROUTED: u32 = 5;
const NOTE_UNKNOWN: u32 = 6;
const NOTE_STUCK: u32 = 7;
const NOTE_RETRY: u32 = 8;
const NOTE_LOOP_EXHAUSTED: u32 = 9;

const REASON_MISMATCH: u32 = 1;
const REASON_NOT_UNKNOWN: u32 = 2;
const REASON_UNDECLARED: u32 = 3;

const ROUTED: u32 = 1;
const UNROUTED: u32 = 2;
const OVERFLOW: u32 = 3;
const IGNORED: u32 = 4;
const LEFT_OVER: u32 = 5;

const INPUT: u32 = 0;
const PARAMS: u32 = 1;
const OUTPUT: u32 = 2;

/// Moves the run in `out`, which a want or a refusal leaves as it is at that moment.
pub(super) struct Machine<'a, S> {
    graph: &'a Graph<S>,
    limits: &'a Limits,
    mappings: &'a Mappings,
    out: &'a mut Decision,
    read: usize,
    operations: u64,
}

impl<'a, S: Sheet> Machine<'a, S> {
    pub(super) fn new(
        graph: &'a Graph<S>,
        limits: &'a Limits,
        mappings: &'a Mappings,
        out: &'a mut Decision,
    ) -> Machine<'a, S> {
        Machine {
            graph,
            limits,
            mappings,
            out,
            read: 0,
            operations: 0,
        }
    }

    /// Sequence and time, then dispatch by kind. An ended run only notes the event.
    pub(super) fn apply(&mut self, event: &Event) -> Step<()> {
        let state = &mut self.out.state;
        state.last_sequence = event.sequence;
        state.last_accepted_at = state.last_accepted_at.max(event.accepted_at);
        if snapshot::is_terminal(state) {
            self.note(NOTE_IGNORED, NONE, event.kind, 0, 0);
            if event.kind == event::SIGNAL {
                self.end_signal(event.sequence, IGNORED);
            }
            return Ok(());
        }
        match event.kind {
            event::START => self.enter(self.graph.start(), NONE),
            event::SIGNAL => self.on_signal(event),
            event::RESULT => self.on_result(event),
            event::RESOLVED => self.on_resolved(event),
            _ => Ok(()),
        }
    }

    /// The command limit, then the operation limit; what an ended run still stores is left over.
    pub(super) fn finish(&mut self) -> Step<()> {
        let orders = u32::from(self.out.order.is_some());
        if orders > self.limits.commands {
            return Err(refused(29));
        }
        if self.operations > u64::from(self.limits.operations) {
            return Err(refused(30));
        }
        if snapshot::is_terminal(&self.out.state) {
            self.leave_over();
        }
        Ok(())
    }

    /// Every stored signal ends, the oldest first, and the store is empty.
    fn leave_over(&mut self) {
        let count = self.out.state.signal_count as usize;
        for i in 0..count {
            self.end_signal(self.out.state.signals[i].sequence, LEFT_OVER);
        }
        self.out.state.signals[..count].fill(BufferedSignal::default());
        self.out.state.signal_count = 0;
    }

    /// The waiter is asked first, so a full store never starves it. Any other signal is stored last, or dropped when
    /// the store is full.
    fn on_signal(&mut self, event: &Event) -> Step<()> {
        let arrived = BufferedSignal {
            sequence: event.sequence,
            event_id: event.event_id,
            signal: event.signal,
            outcome: event.outcome,
            data: event.data,
        };
        let state = &mut self.out.state;
        if state.status == WAITING {
            let waiter = state.position.node;
            if arrived.signal == self.graph.node(waiter).signal {
                return match self.take(&arrived)? {
                    Some(target) => self.enter(target, waiter),
                    None => Ok(()),
                };
            }
        }
        let count = state.signal_count as usize;
        if count >= STORE {
            self.note(NOTE_OVERFLOW, NONE, arrived.event_id, 0, 0);
            self.end_signal(arrived.sequence, OVERFLOW);
            return Ok(());
        }
        state.signals[count] = arrived;
        state.signal_count += 1;
        Ok(())
    }

    /// The invocation that an event names by node and visit, the attempt not counting.
    fn names_current(&self, event: &Event) -> bool {
        let invocation = &self.out.state.invocation;
        invocation.phase != 0 && invocation.node == event.node && invocation.visit == event.visit
    }

    /// A result applies only to the attempt the state authorizes; anything else is stale.
    fn on_result(&mut self, event: &Event) -> Step<()> {
        let invocation = self.out.state.invocation;
        let current = self.names_current(event);
        let applies =
            current && invocation.attempt == event.attempt && invocation.phase == SCHEDULED;
        if !applies {
            let node = if current { invocation.node } else { NONE };
            self.note(NOTE_STALE, node, event.node, event.visit, event.attempt);
            return Ok(());
        }
        match event.status {
            SUCCESS => self.on_success(event),
            FAILURE => self.on_failure(event),
            _ => self.on_unknown(event),
        }
    }

    fn on_success(&mut self, event: &Event) -> Step<()> {
        let outcome = if event.outcome == NONE {
            OK
        } else {
            event.outcome
        };
        if self
            .graph
            .declares(self.out.state.invocation.action, outcome)
        {
            return self.complete(outcome, event.output);
        }
        self.fail_invocation(UNDECLARED_OUTCOME, outcome, true)
    }

    fn on_failure(&mut self, event: &Event) -> Step<()> {
        if event.retryable && self.may_retry() {
            return self.retry(event.delay);
        }
        if event.has_error {
            return self.fail_invocation(event.code, event.detail, true);
        }
        self.fail_invocation(ACTIVITY_FAILED, 0, true)
    }

    /// Unknown or expired.
    fn on_unknown(&mut self, event: &Event) -> Step<()> {
        let invocation = &mut self.out.state.invocation;
        if self.graph.action(invocation.action).effect != REPEATABLE {
            invocation.phase = UNKNOWN;
            self.out.state.status = NEEDS_INTERVENTION;
            let (visit, attempt) = (event.visit, event.attempt);
            self.note(NOTE_UNKNOWN, event.node, visit, attempt, event.status);
            return Ok(());
        }
        if self.may_retry() {
            return self.retry(event.delay);
        }
        self.fail_invocation(ATTEMPTS_EXHAUSTED, event.status, true)
    }

    fn may_retry(&self) -> bool {
        let invocation = &self.out.state.invocation;
        invocation.attempt < self.graph.action(invocation.action).max_attempts
    }

    /// A resolution applies only to the current invocation while it is parked.
    fn on_resolved(&mut self, event: &Event) -> Step<()> {
        let invocation = self.out.state.invocation;
        if !self.names_current(event) {
            self.not_applicable(event, NONE, REASON_MISMATCH);
            return Ok(());
        }
        if invocation.phase == SCHEDULED {
            self.not_applicable(event, invocation.node, REASON_NOT_UNKNOWN);
            return Ok(());
        }
        match event.resolution {
            event::COMPLETE => {
                if self.graph.declares(invocation.action, event.outcome) {
                    return self.complete(event.outcome, event.output);
                }
                self.not_applicable(event, invocation.node, REASON_UNDECLARED);
                Ok(())
            }
            event::RETRY => self.retry(0),
            _ => match invocation.error {
                Some(kept) => {
                    self.terminate(kept);
                    Ok(())
                }
                None => self.fail_invocation(event.code, event.detail, false),
            },
        }
    }

    fn not_applicable(&mut self, event: &Event, node: u32, reason: u32) {
        self.note(NOTE_NOT_APPLICABLE, node, event.node, event.visit, reason);
    }

    /// Admits the node against the sheet's limits, counts the visit, then acts by its kind. Only a consumed signal goes
    /// on. `from` is the node whose result led here; 255 for the start.
    fn enter(&mut self, first: u32, from: u32) -> Step<()> {
        let mut target = first;
        let mut from = from;
        loop {
            self.count_microstep()?;
            let id = target;
            let node = self.graph.node(id);
            let Some(position) = self.admit(id) else {
                return Ok(());
            };
            match node.kind {
                graph::ACTIVITY => {
                    let Some(input) = self.evaluate(id, INPUT, from)? else {
                        return Ok(());
                    };
                    let mut params = None;
                    if node.has_params == 1 {
                        params = self.evaluate(id, PARAMS, from)?;
                        if params.is_none() {
                            return Ok(());
                        }
                    }
                    self.schedule(position, node.action, input, params);
                    return Ok(());
                }
                graph::AWAIT_SIGNAL => {
                    let state = &mut self.out.state;
                    state.position = position;
                    state.status = WAITING;
                    state.invocation = InvocationState::NONE;
                    let Some(next) = self.consume(node.signal)? else {
                        return Ok(());
                    };
                    from = id;
                    target = next;
                }
                graph::COMPLETE => {
                    if let Some(output) = self.evaluate(id, OUTPUT, from)? {
                        let state = &mut self.out.state;
                        state.status = COMPLETED;
                        state.result = Output::Handle(output);
                        state.position = Position::NONE;
                    }
                    return Ok(());
                }
                _ => {
                    self.terminate(ErrorInfo {
                        code: node.code,
                        node: id,
                        detail: node.detail,
                    });
                    return Ok(());
                }
            }
        }
    }

    /// Counts the visit, or ends the run at a limit.
    fn admit(&mut self, id: u32) -> Option<Position> {
        let state = &mut self.out.state;
        let visits = state.visits[id as usize];
        if visits >= self.graph.max_visits_per_node() {
            self.terminate(kernel_error(VISITS_EXCEEDED, id, 0));
            return None;
        }
        if state.activations >= self.graph.max_activations() {
            self.terminate(kernel_error(ACTIVATIONS_EXCEEDED, id, 0));
            return None;
        }
        state.visits[id as usize] = visits + 1;
        state.activations += 1;
        Some(Position {
            node: id,
            visit: visits + 1,
        })
    }

    /// Creates the invocation of a freshly entered activity and orders attempt 1.
    fn schedule(&mut self, position: Position, action: u32, input: u32, params: Option<u32>) {
        let state = &mut self.out.state;
        self.out.order = Some(Order::Schedule {
            node: position.node,
            visit: position.visit,
            action,
            attempt: 1,
            not_before: state.last_accepted_at,
            input,
            params,
        });
        state.invocation = InvocationState {
            phase: SCHEDULED,
            node: position.node,
            visit: position.visit,
            action,
            attempt: 1,
            input,
            error: None,
        };
        state.position = position;
        state.status = RUNNING;
    }

    /// Takes matching stored signals, oldest first, until one routes.
    fn consume(&mut self, signal: u32) -> Step<Option<u32>> {
        let mut i = 0;
        while i < self.out.state.signal_count as usize {
            if self.out.state.signals[i].signal != signal {
                i += 1;
                continue;
            }
            let taken = self.remove(i);
            if let Some(target) = self.take(&taken)? {
                return Ok(Some(target));
            }
        }
        Ok(None)
    }

    /// Removes a stored signal; the others keep their order.
    fn remove(&mut self, index: usize) -> BufferedSignal {
        let state = &mut self.out.state;
        let last = state.signal_count as usize - 1;
        let taken = state.signals[index];
        state.signals.copy_within(index + 1..=last, index);
        state.signals[last] = BufferedSignal::default();
        state.signal_count -= 1;
        taken
    }

    /// Takes one signal at the waiter for one microstep: it routes, or is dropped as unrouted.
    fn take(&mut self, taken: &BufferedSignal) -> Step<Option<u32>> {
        self.count_microstep()?;
        let node = self.out.state.position.node;
        let outcome = if taken.outcome == NONE {
            RECEIVED
        } else {
            taken.outcome
        };
        let reserved = outcome == EXHAUSTED && self.graph.reserves_exhausted();
        let Some(target) = self.graph.route(node, outcome).filter(|_| !reserved) else {
            self.note(NOTE_UNROUTED, node, taken.event_id, outcome, 0);
            self.end_signal(taken.sequence, UNROUTED);
            return Ok(None);
        };
        self.end_signal(taken.sequence, ROUTED);
        Ok(Some(self.route(
            outcome,
            target,
            Output::Handle(taken.data),
        )))
    }

    /// Stores the result, counts the streak under loop limits, and gives the node to enter: the outcome's target, or
    /// that of `exhausted` once the limit is used up.
    fn route(&mut self, outcome: u32, target: u32, output: Output) -> u32 {
        let state = &mut self.out.state;
        let Position { node, visit } = state.position;
        state.results[node as usize] = NodeResult {
            visit,
            outcome,
            output,
        };
        if self.graph.node(node).has_limits == 0 {
            return target;
        }
        let streak = &mut state.streaks[node as usize];
        let Some(limit) = self.graph.limit(node, outcome) else {
            *streak = Streak::default();
            return target;
        };
        let count = if streak.outcome == outcome {
            streak.count
        } else {
            0
        };
        if count >= limit {
            *streak = Streak::default();
            self.note(NOTE_LOOP_EXHAUSTED, node, outcome, limit, 0);
            return self.graph.route(node, EXHAUSTED).unwrap_or(target);
        }
        *streak = Streak {
            outcome,
            count: count + 1,
        };
        target
    }

    /// A declared outcome: clears the invocation, routes the node, enters where it leads.
    fn complete(&mut self, outcome: u32, output: u32) -> Step<()> {
        self.leave(outcome, Output::Handle(output))
    }

    fn leave(&mut self, outcome: u32, output: Output) -> Step<()> {
        let node = self.out.state.position.node;
        self.out.state.invocation = InvocationState::NONE;
        let Some(target) = self.graph.route(node, outcome) else {
            return Ok(());
        };
        let target = self.route(outcome, target, output);
        self.enter(target, node)
    }

    /// Orders the next attempt of the same invocation. The delay counts from the last accepted time.
    fn retry(&mut self, delay: u64) -> Step<()> {
        let state = &mut self.out.state;
        let not_before = state.last_accepted_at.checked_add(delay);
        let Some(not_before) = not_before.filter(|time| *time <= MOST) else {
            return Err(refused(27));
        };
        let invocation = &mut state.invocation;
        let Some(attempt) = invocation.attempt.checked_add(1) else {
            return Err(refused(27));
        };
        invocation.attempt = attempt;
        invocation.phase = SCHEDULED;
        invocation.error = None;
        let (node, visit) = (invocation.node, invocation.visit);
        state.status = RUNNING;
        self.out.order = Some(Order::Retry {
            node,
            visit,
            attempt,
            not_before,
        });
        self.note(NOTE_RETRY, node, attempt, 0, 0);
        Ok(())
    }

    /// Follows the node's `failed` route when it has one. Otherwise format 2 parks a result's failure as stuck, and
    /// anything else ends the run with the error.
    fn fail_invocation(&mut self, code: u32, detail: u32, may_park: bool) -> Step<()> {
        let node = self.out.state.position.node;
        let error = kernel_error(code, node, detail);
        if self.graph.route(node, graph::FAILED).is_some() {
            return self.leave(graph::FAILED, Output::Error(error));
        }
        if may_park && self.graph.parks_stuck_steps() {
            self.stick(error);
        } else {
            self.terminate(error);
        }
        Ok(())
    }

    /// The invocation keeps its error and waits for a person.
    fn stick(&mut self, error: ErrorInfo) {
        let state = &mut self.out.state;
        let invocation = &mut state.invocation;
        invocation.phase = STUCK;
        invocation.error = Some(error);
        let (node, visit, attempt) = (invocation.node, invocation.visit, invocation.attempt);
        state.status = NEEDS_INTERVENTION;
        self.note(NOTE_STUCK, node, visit, attempt, error.code);
    }

    /// Ends the run as failed; position and invocation go.
    fn terminate(&mut self, error: ErrorInfo) {
        let state = &mut self.out.state;
        state.status = snapshot::FAILED;
        state.result = Output::Error(error);
        state.position = Position::NONE;
        state.invocation = InvocationState::NONE;
    }

    /// Reads the next mapping answer. A fault ends the run and yields nothing.
    fn evaluate(&mut self, node: u32, field: u32, from: u32) -> Step<Option<u32>> {
        if self.read >= self.mappings.count as usize {
            return Err(Kind::Wants { node, field, from });
        }
        let answer = &self.mappings.answers[self.read];
        self.read += 1;
        match answer.kind {
            event::VALUE => {
                self.operations += u64::from(answer.operations);
                Ok(Some(answer.value))
            }
            event::FAULT => {
                self.operations += u64::from(answer.operations);
                self.terminate(kernel_error(answer.code, node, answer.detail));
                Ok(None)
            }
            _ => Err(refused(28)),
        }
    }

    fn count_microstep(&mut self) -> Step<()> {
        self.out.microsteps += 1;
        if self.out.microsteps > self.limits.microsteps {
            return Err(refused(26));
        }
        Ok(())
    }

    fn note(&mut self, code: u32, node: u32, a: u32, b: u32, c: u32) {
        if let Some(slot) = self.out.notes.get_mut(self.out.note_count) {
            *slot = Note {
                code,
                node,
                a,
                b,
                c,
            };
            self.out.note_count += 1;
        }
    }

    fn end_signal(&mut self, sequence: u64, ending: u32) {
        if let Some(slot) = self.out.endings.get_mut(self.out.ending_count) {
            *slot = Ending { sequence, ending };
            self.out.ending_count += 1;
        }
    }
}

fn kernel_error(code: u32, node: u32, detail: u32) -> ErrorInfo {
    ErrorInfo { code, node, detail }
}
