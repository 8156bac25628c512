//! The number form of `docs/NUMBERS.md`, both ways, and the sample's lines.

use crate::layout as at;
use crate::*;

pub use crate::layout::{ANSWER, CALL, RECORD, SHEET};

/// The largest node, action, signal or outcome of a call or a record.
const NAME: u32 = 255;
/// The largest code of an error in a call or a record.
const CODE: u32 = 65535;

/// Kinds of arrays in the sample's lines.
pub const KIND_SHEET: u64 = 1;
pub const KIND_CALL: u64 = 2;
pub const KIND_RECORD: u64 = 3;
pub const KIND_ANSWER: u64 = 4;

pub fn sheet(workflow: &Workflow) -> Box<[u32; SHEET]> {
    let mut w = Box::new([0; SHEET]);
    w[at::SHEET_FORMAT] = workflow.format;
    w[at::SHEET_START] = workflow.start;
    w[at::SHEET_MAX_VISITS_PER_NODE] = workflow.max_visits_per_node;
    w[at::SHEET_MAX_ACTIVATIONS] = workflow.max_activations;
    w[at::SHEET_NODE_COUNT] = workflow.node_count;
    w[at::SHEET_ROUTE_COUNT] = workflow.route_count;
    w[at::SHEET_LIMIT_COUNT] = workflow.limit_count;
    w[at::SHEET_ACTION_COUNT] = workflow.action_count;
    w[at::SHEET_DECLARED_COUNT] = workflow.declared_count;
    for (i, node) in workflow.nodes.iter().enumerate() {
        w[at::SHEET_NODE_KIND + i] = node.kind;
        w[at::SHEET_NODE_ACTION + i] = node.action;
        w[at::SHEET_NODE_HAS_PARAMS + i] = node.has_params;
        w[at::SHEET_NODE_SIGNAL + i] = node.signal;
        w[at::SHEET_NODE_CODE + i] = node.code;
        w[at::SHEET_NODE_DETAIL + i] = node.detail;
        w[at::SHEET_NODE_HAS_LIMITS + i] = node.has_limits;
    }
    for (i, x) in workflow.routes.iter().enumerate() {
        w[at::SHEET_ROUTE_NODE + i] = x.node;
        w[at::SHEET_ROUTE_OUTCOME + i] = x.outcome;
        w[at::SHEET_ROUTE_TARGET + i] = x.target;
    }
    for (i, x) in workflow.limits.iter().enumerate() {
        w[at::SHEET_LIMIT_NODE + i] = x.node;
        w[at::SHEET_LIMIT_OUTCOME + i] = x.outcome;
        w[at::SHEET_LIMIT_LIMIT + i] = x.limit;
    }
    for (i, x) in workflow.actions.iter().enumerate() {
        w[at::SHEET_ACTION_EFFECT + i] = x.effect;
        w[at::SHEET_ACTION_MAX_ATTEMPTS + i] = x.max_attempts;
    }
    for (i, x) in workflow.declared.iter().enumerate() {
        w[at::SHEET_DECLARED_ACTION + i] = x.action;
        w[at::SHEET_DECLARED_OUTCOME + i] = x.outcome;
    }
    w
}

pub fn workflow_of(w: &[u32; SHEET]) -> Workflow {
    let mut workflow = Workflow {
        format: w[at::SHEET_FORMAT],
        start: w[at::SHEET_START],
        max_visits_per_node: w[at::SHEET_MAX_VISITS_PER_NODE],
        max_activations: w[at::SHEET_MAX_ACTIVATIONS],
        node_count: w[at::SHEET_NODE_COUNT],
        route_count: w[at::SHEET_ROUTE_COUNT],
        limit_count: w[at::SHEET_LIMIT_COUNT],
        action_count: w[at::SHEET_ACTION_COUNT],
        declared_count: w[at::SHEET_DECLARED_COUNT],
        ..Workflow::empty()
    };
    for (i, node) in workflow.nodes.iter_mut().enumerate() {
        *node = Node {
            kind: w[at::SHEET_NODE_KIND + i],
            action: w[at::SHEET_NODE_ACTION + i],
            has_params: w[at::SHEET_NODE_HAS_PARAMS + i],
            signal: w[at::SHEET_NODE_SIGNAL + i],
            code: w[at::SHEET_NODE_CODE + i],
            detail: w[at::SHEET_NODE_DETAIL + i],
            has_limits: w[at::SHEET_NODE_HAS_LIMITS + i],
        };
    }
    for (i, x) in workflow.routes.iter_mut().enumerate() {
        *x = Route {
            node: w[at::SHEET_ROUTE_NODE + i],
            outcome: w[at::SHEET_ROUTE_OUTCOME + i],
            target: w[at::SHEET_ROUTE_TARGET + i],
        };
    }
    for (i, x) in workflow.limits.iter_mut().enumerate() {
        *x = Limit {
            node: w[at::SHEET_LIMIT_NODE + i],
            outcome: w[at::SHEET_LIMIT_OUTCOME + i],
            limit: w[at::SHEET_LIMIT_LIMIT + i],
        };
    }
    for (i, x) in workflow.actions.iter_mut().enumerate() {
        *x = Action {
            effect: w[at::SHEET_ACTION_EFFECT + i],
            max_attempts: w[at::SHEET_ACTION_MAX_ATTEMPTS + i],
        };
    }
    for (i, x) in workflow.declared.iter_mut().enumerate() {
        *x = Declared {
            action: w[at::SHEET_DECLARED_ACTION + i],
            outcome: w[at::SHEET_DECLARED_OUTCOME + i],
        };
    }
    workflow
}

/// Row `i` of those that begin at `first`.
fn row<const WIDTH: usize>(w: &[u64], first: usize, i: usize) -> [u64; WIDTH] {
    w[first + WIDTH * i..][..WIDTH].try_into().expect("a row")
}

fn put<const WIDTH: usize>(w: &mut [u64], first: usize, i: usize, row: [u64; WIDTH]) {
    w[first + WIDTH * i..][..WIDTH].copy_from_slice(&row);
}

fn error_numbers(error: &Option<ErrorInfo>) -> [u64; at::ERROR_WIDTH] {
    match error {
        None => [0; at::ERROR_WIDTH],
        Some(it) => [1, it.code.into(), it.node.into(), it.detail.into()],
    }
}

fn output_numbers(output: &Output) -> [u64; at::OUTPUT_WIDTH] {
    match output {
        Output::Nothing => [0; at::OUTPUT_WIDTH],
        Output::Handle(handle) => [1, u64::from(*handle), 0, 0],
        Output::Error(it) => [2, it.code.into(), it.node.into(), it.detail.into()],
    }
}

pub fn record(state: &State) -> Vec<u64> {
    let mut w = vec![0; RECORD];
    write_record(&mut w, state);
    w
}

/// Writes a record over zeros.
fn write_record(w: &mut [u64], state: &State) {
    w[at::RECORD_STATUS] = state.status.into();
    w[at::RECORD_INPUT] = state.input.into();
    w[at::RECORD_ACTIVATIONS] = state.activations.into();
    w[at::RECORD_LAST_SEQUENCE] = state.last_sequence;
    w[at::RECORD_LAST_ACCEPTED_AT] = state.last_accepted_at;
    w[at::RECORD_POSITION_NODE] = state.position.node.into();
    w[at::RECORD_POSITION_VISIT] = state.position.visit.into();
    let invocation = &state.invocation;
    w[at::RECORD_PHASE] = invocation.phase.into();
    w[at::RECORD_INVOCATION_NODE] = invocation.node.into();
    w[at::RECORD_INVOCATION_VISIT] = invocation.visit.into();
    w[at::RECORD_INVOCATION_ACTION] = invocation.action.into();
    w[at::RECORD_INVOCATION_ATTEMPT] = invocation.attempt.into();
    w[at::RECORD_INVOCATION_INPUT] = invocation.input.into();
    put(w, at::RECORD_ERROR, 0, error_numbers(&invocation.error));
    put(w, at::RECORD_RESULT, 0, output_numbers(&state.result));
    w[at::RECORD_STORED] = state.signal_count.into();
    for (i, x) in state.signals.iter().enumerate() {
        let row: [u64; at::SIGNAL_WIDTH] = [
            x.sequence,
            x.event_id.into(),
            x.signal.into(),
            x.outcome.into(),
            x.data.into(),
        ];
        put(w, at::RECORD_SIGNALS, i, row);
    }
    for n in 0..NODES {
        w[at::RECORD_VISITS + n] = state.visits[n].into();
        let streak = &state.streaks[n];
        let row: [u64; at::STREAK_WIDTH] = [streak.outcome.into(), streak.count.into()];
        put(w, at::RECORD_STREAKS, n, row);
        let result = &state.results[n];
        let [kind, first, second, third] = output_numbers(&result.output);
        let (visit, outcome) = (result.visit.into(), result.outcome.into());
        let row: [u64; at::RESULT_WIDTH] = [visit, outcome, kind, first, second, third];
        put(w, at::RECORD_RESULTS, n, row);
    }
}

fn small(number: u64) -> Option<u32> {
    u32::try_from(number).ok()
}

/// A node, an action, a signal or an outcome.
fn name(number: u64) -> Option<u32> {
    small(number).filter(|number| *number <= NAME)
}

/// An error's code.
fn code(number: u64) -> Option<u32> {
    small(number).filter(|number| *number <= CODE)
}

fn flag(number: u64) -> Option<bool> {
    match number {
        0 => Some(false),
        1 => Some(true),
        _ => None,
    }
}

fn error_of(numbers: [u64; 3]) -> Option<ErrorInfo> {
    let [number, node, detail] = numbers;
    Some(ErrorInfo {
        code: code(number)?,
        node: name(node)?,
        detail: small(detail)?,
    })
}

fn kept_of(row: [u64; at::ERROR_WIDTH]) -> Option<Option<ErrorInfo>> {
    match row {
        [0, 0, 0, 0] => Some(None),
        [1, code, node, detail] => Some(Some(error_of([code, node, detail])?)),
        _ => None,
    }
}

fn output_of(row: [u64; at::OUTPUT_WIDTH]) -> Option<Output> {
    match row {
        [0, 0, 0, 0] => Some(Output::Nothing),
        [1, handle, 0, 0] => Some(Output::Handle(small(handle)?)),
        [2, code, node, detail] => Some(Output::Error(error_of([code, node, detail])?)),
        _ => None,
    }
}

/// None where the numbers are no record: a number that its field can't hold, or numbers in an absent output or error.
pub fn state_of(w: &[u64]) -> Option<State> {
    if w.len() != RECORD {
        return None;
    }
    let mut state = State::fresh(small(w[at::RECORD_INPUT])?);
    state.status = small(w[at::RECORD_STATUS])?;
    state.activations = small(w[at::RECORD_ACTIVATIONS])?;
    state.last_sequence = w[at::RECORD_LAST_SEQUENCE];
    state.last_accepted_at = w[at::RECORD_LAST_ACCEPTED_AT];
    state.position = Position {
        node: name(w[at::RECORD_POSITION_NODE])?,
        visit: small(w[at::RECORD_POSITION_VISIT])?,
    };
    state.invocation = InvocationState {
        phase: small(w[at::RECORD_PHASE])?,
        node: name(w[at::RECORD_INVOCATION_NODE])?,
        visit: small(w[at::RECORD_INVOCATION_VISIT])?,
        action: name(w[at::RECORD_INVOCATION_ACTION])?,
        attempt: small(w[at::RECORD_INVOCATION_ATTEMPT])?,
        input: small(w[at::RECORD_INVOCATION_INPUT])?,
        error: kept_of(row(w, at::RECORD_ERROR, 0))?,
    };
    state.result = output_of(row(w, at::RECORD_RESULT, 0))?;
    state.signal_count = small(w[at::RECORD_STORED])?;
    for (i, x) in state.signals.iter_mut().enumerate() {
        let [sequence, event_id, signal, outcome, data]: [u64; at::SIGNAL_WIDTH] =
            row(w, at::RECORD_SIGNALS, i);
        *x = BufferedSignal {
            sequence,
            event_id: small(event_id)?,
            signal: name(signal)?,
            outcome: name(outcome)?,
            data: small(data)?,
        };
    }
    for n in 0..NODES {
        state.visits[n] = small(w[at::RECORD_VISITS + n])?;
        let [outcome, count]: [u64; at::STREAK_WIDTH] = row(w, at::RECORD_STREAKS, n);
        state.streaks[n] = Streak {
            outcome: name(outcome)?,
            count: small(count)?,
        };
        let [visit, outcome, output @ ..]: [u64; at::RESULT_WIDTH] = row(w, at::RECORD_RESULTS, n);
        state.results[n] = NodeResult {
            visit: small(visit)?,
            outcome: name(outcome)?,
            output: output_of(output)?,
        };
    }
    Some(state)
}

/// The call without its sheet and its record.
pub fn call(call: &Call) -> Vec<u64> {
    let mut w = vec![0; CALL];
    w[at::CALL_CEILING_NODES] = call.ceilings.nodes.into();
    w[at::CALL_CEILING_VISITS] = call.ceilings.visits.into();
    w[at::CALL_CEILING_ACTIVATIONS] = call.ceilings.activations.into();
    w[at::CALL_CEILING_ATTEMPTS] = call.ceilings.attempts.into();
    w[at::CALL_LIMIT_MICROSTEPS] = call.limits.microsteps.into();
    w[at::CALL_LIMIT_COMMANDS] = call.limits.commands.into();
    w[at::CALL_LIMIT_OPERATIONS] = call.limits.operations.into();
    w[at::CALL_HAS_RECORD] = call.state.is_some().into();
    let event = &call.event;
    w[at::CALL_SEQUENCE] = event.sequence;
    w[at::CALL_ACCEPTED_AT] = event.accepted_at;
    w[at::CALL_EVENT_ID] = event.event_id.into();
    w[at::CALL_KIND] = event.kind.into();
    w[at::CALL_INPUT] = event.input.into();
    w[at::CALL_SIGNAL] = event.signal.into();
    w[at::CALL_OUTCOME] = event.outcome.into();
    w[at::CALL_DATA] = event.data.into();
    w[at::CALL_NODE] = event.node.into();
    w[at::CALL_VISIT] = event.visit.into();
    w[at::CALL_ATTEMPT] = event.attempt.into();
    w[at::CALL_STATUS] = event.status.into();
    w[at::CALL_OUTPUT] = event.output.into();
    w[at::CALL_HAS_ERROR] = event.has_error.into();
    w[at::CALL_ERROR_CODE] = event.code.into();
    w[at::CALL_ERROR_DETAIL] = event.detail.into();
    w[at::CALL_RETRYABLE] = event.retryable.into();
    w[at::CALL_DELAY] = event.delay;
    w[at::CALL_RESOLUTION] = event.resolution.into();
    w[at::CALL_ANSWERED] = call.mappings.count.into();
    for (i, answer) in call.mappings.answers.iter().enumerate() {
        let row: [u64; at::MAPPING_WIDTH] = [
            answer.kind.into(),
            answer.value.into(),
            answer.code.into(),
            answer.detail.into(),
            answer.operations.into(),
        ];
        put(&mut w, at::CALL_MAPPINGS, i, row);
    }
    w
}

/// What a call carries beside its sheet and its record.
pub type Carried = (Ceilings, Limits, Event, Mappings);

/// None where a number is more than its field can hold.
pub fn carried_of(w: &[u64; CALL]) -> Option<Carried> {
    flag(w[at::CALL_HAS_RECORD])?;
    let ceilings = Ceilings {
        nodes: small(w[at::CALL_CEILING_NODES])?,
        visits: small(w[at::CALL_CEILING_VISITS])?,
        activations: small(w[at::CALL_CEILING_ACTIVATIONS])?,
        attempts: small(w[at::CALL_CEILING_ATTEMPTS])?,
    };
    let limits = Limits {
        microsteps: small(w[at::CALL_LIMIT_MICROSTEPS])?,
        commands: small(w[at::CALL_LIMIT_COMMANDS])?,
        operations: small(w[at::CALL_LIMIT_OPERATIONS])?,
    };
    let event = Event {
        sequence: w[at::CALL_SEQUENCE],
        accepted_at: w[at::CALL_ACCEPTED_AT],
        event_id: small(w[at::CALL_EVENT_ID])?,
        kind: small(w[at::CALL_KIND])?,
        input: small(w[at::CALL_INPUT])?,
        signal: name(w[at::CALL_SIGNAL])?,
        outcome: name(w[at::CALL_OUTCOME])?,
        data: small(w[at::CALL_DATA])?,
        node: name(w[at::CALL_NODE])?,
        visit: small(w[at::CALL_VISIT])?,
        attempt: small(w[at::CALL_ATTEMPT])?,
        status: small(w[at::CALL_STATUS])?,
        output: small(w[at::CALL_OUTPUT])?,
        has_error: flag(w[at::CALL_HAS_ERROR])?,
        code: code(w[at::CALL_ERROR_CODE])?,
        detail: small(w[at::CALL_ERROR_DETAIL])?,
        retryable: flag(w[at::CALL_RETRYABLE])?,
        delay: w[at::CALL_DELAY],
        resolution: small(w[at::CALL_RESOLUTION])?,
    };
    let mut mappings = Mappings {
        count: small(w[at::CALL_ANSWERED])?,
        ..Mappings::default()
    };
    for (i, answer) in mappings.answers.iter_mut().enumerate() {
        let [kind, value, number, detail, operations]: [u64; at::MAPPING_WIDTH] =
            row(w, at::CALL_MAPPINGS, i);
        *answer = Mapping {
            kind: small(kind)?,
            value: small(value)?,
            code: code(number)?,
            detail: small(detail)?,
            operations: small(operations)?,
        };
    }
    Some((ceilings, limits, event, mappings))
}

/// None where a number is more than its field can hold, or the record's mark and the record part.
pub fn call_of(workflow: Workflow, w: &[u64], state: Option<State>) -> Option<Call> {
    let w: &[u64; CALL] = w.try_into().ok()?;
    let (ceilings, limits, event, mappings) = carried_of(w)?;
    (w[at::CALL_HAS_RECORD] == u64::from(state.is_some())).then_some(Call {
        ceilings,
        limits,
        workflow,
        state,
        event,
        mappings,
    })
}

/// Writes a next record and what goes with it, over zeros: at most 65 notes and 65 endings.
pub fn write_next(
    w: &mut [u64],
    state: &State,
    order: Option<&Order>,
    notes: &[Note],
    endings: &[Ending],
    microsteps: u32,
) {
    w[at::ANSWER_KIND] = at::NEXT as u64;
    w[at::ANSWER_MICROSTEPS] = microsteps.into();
    if let Some(order) = order {
        put(w, at::ANSWER_ORDER, 0, order_numbers(order));
    }
    w[at::ANSWER_NOTED] = notes.len() as u64;
    w[at::ANSWER_ENDED] = endings.len() as u64;
    for (i, note) in notes.iter().enumerate() {
        let row: [u32; at::NOTE_WIDTH] = [note.code, note.node, note.a, note.b, note.c];
        put(w, at::ANSWER_NOTES, i, row.map(u64::from));
    }
    for (i, ending) in endings.iter().enumerate() {
        let row: [u64; at::ENDING_WIDTH] = [ending.sequence, ending.ending.into()];
        put(w, at::ANSWER_ENDINGS, i, row);
    }
    write_record(&mut w[at::ANSWER_RECORD..], state);
}

/// Writes a want, over zeros.
pub fn write_want(w: &mut [u64], node: u32, field: u32, from: u32, state: &State) {
    w[at::ANSWER_KIND] = at::WANT as u64;
    w[at::ANSWER_WANT_NODE] = node.into();
    w[at::ANSWER_WANT_FIELD] = field.into();
    w[at::ANSWER_WANT_FROM] = from.into();
    write_record(&mut w[at::ANSWER_RECORD..], state);
}

/// Writes a refusal, over zeros.
pub fn write_refusal(w: &mut [u64], number: u32, item: u32) {
    w[at::ANSWER_KIND] = at::REFUSAL as u64;
    w[at::ANSWER_REFUSAL_NUMBER] = number.into();
    w[at::ANSWER_REFUSAL_ITEM] = item.into();
}

/// The numbers of an answer with at most one order, 65 notes and 65 endings; None for others.
pub fn answer(answer: &Answer) -> Option<Vec<u64>> {
    let mut w = vec![0; ANSWER];
    match answer {
        Answer::Next {
            state,
            orders,
            notes,
            endings,
            microsteps,
        } => {
            if orders.len() > 1 || notes.len() > at::NOTES || endings.len() > at::ENDINGS {
                return None;
            }
            write_next(&mut w, state, orders.first(), notes, endings, *microsteps);
        }
        Answer::Wants {
            node,
            field,
            from,
            state,
        } => write_want(&mut w, *node, *field, *from, state),
        Answer::Refused { number, item } => write_refusal(&mut w, *number, *item),
    }
    Some(w)
}

/// How many numbers an order is: what it is, and its fields.
const ORDER_WIDTH: usize = at::ANSWER_NOTED - at::ANSWER_ORDER;

fn order_numbers(order: &Order) -> [u64; ORDER_WIDTH] {
    match *order {
        Order::Schedule {
            node,
            visit,
            action,
            attempt,
            not_before,
            input,
            params,
        } => [
            1,
            node.into(),
            visit.into(),
            action.into(),
            attempt.into(),
            not_before,
            input.into(),
            params.is_some().into(),
            params.unwrap_or(0).into(),
        ],
        Order::Retry {
            node,
            visit,
            attempt,
            not_before,
        } => [
            2,
            node.into(),
            visit.into(),
            0,
            attempt.into(),
            not_before,
            0,
            0,
            0,
        ],
    }
}

fn orders_of(row: [u64; ORDER_WIDTH]) -> Option<Vec<Order>> {
    match row {
        [0, 0, 0, 0, 0, 0, 0, 0, 0] => Some(Vec::new()),
        [1, node, visit, action, attempt, not_before, input, has, params] => {
            let params = match (flag(has)?, small(params)?) {
                (true, params) => Some(params),
                (false, 0) => None,
                (false, _) => return None,
            };
            Some(vec![Order::Schedule {
                node: small(node)?,
                visit: small(visit)?,
                action: small(action)?,
                attempt: small(attempt)?,
                not_before,
                input: small(input)?,
                params,
            }])
        }
        [2, node, visit, 0, attempt, not_before, 0, 0, 0] => Some(vec![Order::Retry {
            node: small(node)?,
            visit: small(visit)?,
            attempt: small(attempt)?,
            not_before,
        }]),
        _ => None,
    }
}

/// None where the numbers are no answer.
pub fn answer_of(w: &[u64]) -> Option<Answer> {
    if w.len() != ANSWER {
        return None;
    }
    match w[at::ANSWER_KIND] as usize {
        at::NEXT => {
            let noted = w[at::ANSWER_NOTED] as usize;
            let ended = w[at::ANSWER_ENDED] as usize;
            if noted > at::NOTES || ended > at::ENDINGS {
                return None;
            }
            let mut notes = Vec::new();
            for i in 0..noted {
                let [code, node, a, b, c]: [u64; at::NOTE_WIDTH] = row(w, at::ANSWER_NOTES, i);
                notes.push(Note {
                    code: small(code)?,
                    node: small(node)?,
                    a: small(a)?,
                    b: small(b)?,
                    c: small(c)?,
                });
            }
            let mut endings = Vec::new();
            for i in 0..ended {
                let [sequence, ending]: [u64; at::ENDING_WIDTH] = row(w, at::ANSWER_ENDINGS, i);
                endings.push(Ending {
                    sequence,
                    ending: small(ending)?,
                });
            }
            Some(Answer::Next {
                state: Box::new(state_of(&w[at::ANSWER_RECORD..])?),
                orders: orders_of(row(w, at::ANSWER_ORDER, 0))?,
                notes,
                endings,
                microsteps: small(w[at::ANSWER_MICROSTEPS])?,
            })
        }
        at::WANT => Some(Answer::Wants {
            node: small(w[at::ANSWER_WANT_NODE])?,
            field: small(w[at::ANSWER_WANT_FIELD])?,
            from: small(w[at::ANSWER_WANT_FROM])?,
            state: Box::new(state_of(&w[at::ANSWER_RECORD..])?),
        }),
        at::REFUSAL => Some(Answer::Refused {
            number: small(w[at::ANSWER_REFUSAL_NUMBER])?,
            item: small(w[at::ANSWER_REFUSAL_ITEM])?,
        }),
        _ => None,
    }
}

/// One array of the sample: its kind, how many numbers are not 0, and the offset and value of each of them.
pub fn write_array(out: &mut String, kind: u64, numbers: &[u64]) {
    use std::fmt::Write;
    let count = numbers.iter().filter(|number| **number != 0).count();
    let _ = write!(out, "{kind} {count}");
    for (offset, number) in numbers.iter().enumerate() {
        if *number != 0 {
            let _ = write!(out, " {offset} {number}");
        }
    }
    out.push('\n');
}

/// One group: the sheet, if it is another than that of the group before; the call; the record, if any; the answer.
/// Nothing is written of an answer that has no numbers.
pub fn write_group(
    out: &mut String,
    call: &Call,
    answer: &Answer,
    before: Option<&Workflow>,
) -> bool {
    let Some(answer) = self::answer(answer) else {
        return false;
    };
    if before != Some(&call.workflow) {
        let numbers: Vec<u64> = sheet(&call.workflow)
            .iter()
            .map(|x| u64::from(*x))
            .collect();
        write_array(out, KIND_SHEET, &numbers);
    }
    write_array(out, KIND_CALL, &self::call(call));
    if let Some(state) = &call.state {
        write_array(out, KIND_RECORD, &record(state));
    }
    write_array(out, KIND_ANSWER, &answer);
    true
}

/// Reads the sample's groups.
pub struct Groups<'a> {
    numbers: std::str::SplitAsciiWhitespace<'a>,
    workflow: Option<Workflow>,
}

impl<'a> Groups<'a> {
    pub fn new(text: &'a str) -> Groups<'a> {
        Groups {
            numbers: text.split_ascii_whitespace(),
            workflow: None,
        }
    }

    fn number(&mut self) -> Result<u64, String> {
        let word = self.numbers.next().ok_or("cut off")?;
        word.parse()
            .map_err(|_| format!("{word:?} is not a number"))
    }

    fn array(&mut self, length: usize) -> Result<Vec<u64>, String> {
        let mut numbers = vec![0; length];
        for _ in 0..self.number()? {
            let offset = self.number()?;
            let value = self.number()?;
            let slot = usize::try_from(offset)
                .ok()
                .and_then(|offset| numbers.get_mut(offset));
            *slot.ok_or("an offset past the array")? = value;
        }
        Ok(numbers)
    }

    fn sheet(&mut self) -> Result<Workflow, String> {
        let mut words = [0; SHEET];
        for (word, number) in words.iter_mut().zip(self.array(SHEET)?) {
            *word = small(number).ok_or("a sheet's number is above 32 bits")?;
        }
        Ok(workflow_of(&words))
    }

    fn group(&mut self, first: u64) -> Result<(Call, Answer), String> {
        let mut kind = first;
        if kind == KIND_SHEET {
            self.workflow = Some(self.sheet()?);
            kind = self.number()?;
        }
        if kind != KIND_CALL {
            return Err("a call was due".to_string());
        }
        let numbers = self.array(CALL)?;
        let mut state = None;
        let mut kind = self.number()?;
        if kind == KIND_RECORD {
            state = Some(state_of(&self.array(RECORD)?).ok_or("no record")?);
            kind = self.number()?;
        }
        if kind != KIND_ANSWER {
            return Err("an answer was due".to_string());
        }
        let answer = answer_of(&self.array(ANSWER)?).ok_or("no answer")?;
        let workflow = self.workflow.clone().ok_or("a call before any sheet")?;
        let call = call_of(workflow, &numbers, state).ok_or("no call")?;
        Ok((call, answer))
    }
}

impl Iterator for Groups<'_> {
    type Item = Result<(Call, Answer), String>;

    fn next(&mut self) -> Option<Self::Item> {
        let first = self.numbers.next()?;
        Some(match first.parse() {
            Ok(first) => self.group(first),
            Err(_) => Err(format!("{first:?} is not a number")),
        })
    }
}

#[cfg(test)]
mod tests {
    use super::*;

    /// Distinct numbers in every field.
    struct Counter(u32);

    impl Counter {
        fn next(&mut self) -> u32 {
            self.0 += 1;
            self.0
        }
        fn name(&mut self) -> u32 {
            self.next() % (NAME + 1)
        }
        fn error(&mut self) -> ErrorInfo {
            ErrorInfo {
                code: self.next(),
                node: self.name(),
                detail: self.next(),
            }
        }
    }

    fn numbered_workflow() -> Workflow {
        let mut words = [0; SHEET];
        for (i, word) in words.iter_mut().enumerate() {
            *word = i as u32 + 1;
        }
        workflow_of(&words)
    }

    fn numbered_state() -> State {
        let mut c = Counter(0);
        let mut state = State::fresh(c.next());
        state.status = c.next();
        state.activations = c.next();
        state.last_sequence = u64::MAX;
        state.last_accepted_at = 1 << 63;
        state.position = Position {
            node: c.name(),
            visit: c.next(),
        };
        state.invocation = InvocationState {
            phase: c.next(),
            node: c.name(),
            visit: c.next(),
            action: c.name(),
            attempt: c.next(),
            input: c.next(),
            error: Some(c.error()),
        };
        state.result = Output::Error(c.error());
        state.signal_count = c.next();
        for signal in &mut state.signals {
            *signal = BufferedSignal {
                sequence: u64::from(c.next()) << 32,
                event_id: c.next(),
                signal: c.name(),
                outcome: c.name(),
                data: c.next(),
            };
        }
        for n in 0..NODES {
            state.visits[n] = c.next();
            state.streaks[n] = Streak {
                outcome: c.name(),
                count: c.next(),
            };
            state.results[n] = NodeResult {
                visit: c.next(),
                outcome: c.name(),
                output: match n % 3 {
                    0 => Output::Nothing,
                    1 => Output::Handle(c.next()),
                    _ => Output::Error(c.error()),
                },
            };
        }
        state
    }

    fn numbered_call() -> Call {
        let mut numbers: Vec<u64> = (1..=CALL as u64).collect();
        numbers[at::CALL_HAS_RECORD] = 1;
        numbers[at::CALL_HAS_ERROR] = 0;
        numbers[at::CALL_RETRYABLE] = 1;
        call_of(numbered_workflow(), &numbers, Some(numbered_state())).unwrap()
    }

    #[test]
    fn sheet_both_ways() {
        let words = sheet(&numbered_workflow());
        let counted: Vec<u32> = (1..=SHEET as u32).collect();
        assert_eq!(words[..], counted);
    }

    #[test]
    fn record_both_ways() {
        let state = numbered_state();
        let numbers = record(&state);
        assert_eq!(numbers.len(), RECORD);
        assert_eq!(state_of(&numbers), Some(state));
        assert_eq!(state_of(&record(&State::fresh(7))), Some(State::fresh(7)));
    }

    #[test]
    fn record_that_is_none() {
        for (offset, number) in [
            (at::RECORD_STATUS, 1 << 32),
            (at::RECORD_ERROR, 2),
            (at::RECORD_ERROR + 1, 1),
            (at::RECORD_RESULT, 3),
            (at::RECORD_RESULT + 1, 1),
        ] {
            let mut numbers = record(&State::fresh(7));
            numbers[offset] = number;
            assert_eq!(state_of(&numbers), None, "{offset}");
        }
    }

    #[test]
    fn call_both_ways() {
        let call = numbered_call();
        let numbers = self::call(&call);
        assert_eq!(numbers.len(), CALL);
        assert_eq!(
            call_of(call.workflow.clone(), &numbers, call.state.clone()),
            Some(call)
        );
    }

    fn answers() -> Vec<Answer> {
        let state = Box::new(numbered_state());
        let note = Note {
            code: 1,
            node: 2,
            a: 3,
            b: 4,
            c: 5,
        };
        let ending = Ending {
            sequence: 1 << 62,
            ending: 4,
        };
        let schedule = |params| Order::Schedule {
            node: 1,
            visit: 2,
            action: 3,
            attempt: 4,
            not_before: 1 << 60,
            input: 6,
            params,
        };
        let retry = Order::Retry {
            node: 1,
            visit: 2,
            attempt: 3,
            not_before: 4,
        };
        let next = |orders: Vec<Order>, n: usize| Answer::Next {
            state: state.clone(),
            orders,
            notes: vec![note; n],
            endings: vec![ending; n],
            microsteps: 130,
        };
        vec![
            next(vec![], at::NOTES),
            next(vec![schedule(None)], 1),
            next(vec![schedule(Some(0))], 0),
            next(vec![retry], 0),
            Answer::Wants {
                node: 1,
                field: 2,
                from: 3,
                state: state.clone(),
            },
            Answer::Refused {
                number: 20,
                item: 255,
            },
        ]
    }

    #[test]
    fn answer_both_ways() {
        for answer in answers() {
            let numbers = self::answer(&answer).unwrap();
            assert_eq!(numbers.len(), ANSWER);
            assert_eq!(answer_of(&numbers), Some(answer));
        }
        let numbers = self::answer(&answers()[0]).unwrap();
        assert_eq!(
            row(&numbers, at::ANSWER_NOTES, at::NOTES - 1),
            [1, 2, 3, 4, 5]
        );
        assert_eq!(
            row(&numbers, at::ANSWER_ENDINGS, at::ENDINGS - 1),
            [1 << 62, 4]
        );
    }

    #[test]
    fn groups_both_ways() {
        let mut text = String::new();
        let call = numbered_call();
        let mut bare = call.clone();
        bare.state = None;
        bare.workflow.format = 0;
        let mut before = None;
        let mut written = Vec::new();
        for call in [&call, &call, &bare] {
            for answer in answers() {
                assert!(write_group(&mut text, call, &answer, before));
                before = Some(&call.workflow);
                written.push((call.clone(), answer));
            }
        }
        let read: Result<Vec<_>, _> = Groups::new(&text).collect();
        assert_eq!(read.unwrap(), written);
        assert!(Groups::new("2 1").next().unwrap().is_err());
    }
}
