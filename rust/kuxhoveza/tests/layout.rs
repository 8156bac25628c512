//! The header's offsets are those of the oracle's number form: each names the field that it says. The one place that
//! states the layout's lengths as numbers.

use calls::{numbers, Ending, ErrorInfo, Note, Order, Output, State, NONE};
use generator::fields::{Array, FIELDS};
use generator::rng::Rng;
use kuxhoveza::layout::*;

/// How many arrays of numbers are tried.
const ROUNDS: u64 = 8;

/// Any numbers that their fields hold, every output an error and a record with the call.
fn filled<const N: usize>(array: Array, round: u64) -> [u64; N] {
    let mut rng = Rng::new(round);
    let mut numbers = [0; N].map(|_: u64| rng.next() >> 32);
    match array {
        Array::Call => numbers[CALL_HAS_RECORD] = 1,
        Array::Record => {
            numbers[RECORD_ERROR] = 1;
            numbers[RECORD_RESULT] = 2;
            for row in numbers[RECORD_RESULTS..].chunks_mut(RESULT_WIDTH) {
                row[2] = 2;
            }
        }
    }
    for field in FIELDS.iter().filter(|field| field.array == array) {
        for place in field.places() {
            if field.is_meant(&numbers, place) {
                numbers[place] %= field.most + 1;
            }
        }
    }
    numbers
}

fn filled_record(round: u64) -> [u64; RECORD] {
    filled(Array::Record, round)
}

#[test]
fn lengths() {
    assert_eq!([SHEET, CALL, RECORD, ANSWER], [4169, 38, 918, 1386]);
    assert_eq!([VERDICT, VERDICT_NUMBER, VERDICT_ITEM], [2, 0, 1]);
    assert_eq!(
        [SHEET, CALL, RECORD, ANSWER],
        [
            numbers::SHEET,
            numbers::CALL,
            numbers::RECORD,
            numbers::ANSWER
        ]
    );
    assert_eq!(
        [NODES, ROUTES, LIMITS, ACTIONS, DECLARED, STORE],
        [
            calls::NODES,
            calls::ROUTES,
            calls::LIMITS,
            calls::ACTIONS,
            calls::DECLARED,
            calls::STORE
        ]
    );
}

#[test]
fn sheet() {
    let mut rng = Rng::new(1);
    let words = [0; SHEET].map(|_: u32| rng.next() as u32);
    let sheet = numbers::workflow_of(&words);
    let is = |offset: usize, field: u32| assert_eq!(field, words[offset]);
    is(SHEET_FORMAT, sheet.format);
    is(SHEET_START, sheet.start);
    is(SHEET_MAX_VISITS_PER_NODE, sheet.max_visits_per_node);
    is(SHEET_MAX_ACTIVATIONS, sheet.max_activations);
    is(SHEET_NODE_COUNT, sheet.node_count);
    is(SHEET_ROUTE_COUNT, sheet.route_count);
    is(SHEET_LIMIT_COUNT, sheet.limit_count);
    is(SHEET_ACTION_COUNT, sheet.action_count);
    is(SHEET_DECLARED_COUNT, sheet.declared_count);
    for (i, node) in sheet.nodes.iter().enumerate() {
        is(SHEET_NODE_KIND + i, node.kind);
        is(SHEET_NODE_ACTION + i, node.action);
        is(SHEET_NODE_HAS_PARAMS + i, node.has_params);
        is(SHEET_NODE_SIGNAL + i, node.signal);
        is(SHEET_NODE_CODE + i, node.code);
        is(SHEET_NODE_DETAIL + i, node.detail);
        is(SHEET_NODE_HAS_LIMITS + i, node.has_limits);
    }
    for (i, row) in sheet.routes.iter().enumerate() {
        is(SHEET_ROUTE_NODE + i, row.node);
        is(SHEET_ROUTE_OUTCOME + i, row.outcome);
        is(SHEET_ROUTE_TARGET + i, row.target);
    }
    for (i, row) in sheet.limits.iter().enumerate() {
        is(SHEET_LIMIT_NODE + i, row.node);
        is(SHEET_LIMIT_OUTCOME + i, row.outcome);
        is(SHEET_LIMIT_LIMIT + i, row.limit);
    }
    for (i, row) in sheet.actions.iter().enumerate() {
        is(SHEET_ACTION_EFFECT + i, row.effect);
        is(SHEET_ACTION_MAX_ATTEMPTS + i, row.max_attempts);
    }
    for (i, row) in sheet.declared.iter().enumerate() {
        is(SHEET_DECLARED_ACTION + i, row.action);
        is(SHEET_DECLARED_OUTCOME + i, row.outcome);
    }
    assert_eq!(numbers::sheet(&sheet)[..], words);
}

#[test]
fn call() {
    (0..ROUNDS).for_each(call_of);
}

fn call_of(round: u64) {
    let call: [u64; CALL] = filled(Array::Call, round);
    let is = |offset: usize, field: u64| assert_eq!(field, call[offset]);
    let (ceilings, limits, event, mappings) = numbers::carried_of(&call).unwrap();
    is(CALL_CEILING_NODES, ceilings.nodes.into());
    is(CALL_CEILING_VISITS, ceilings.visits.into());
    is(CALL_CEILING_ACTIVATIONS, ceilings.activations.into());
    is(CALL_CEILING_ATTEMPTS, ceilings.attempts.into());
    is(CALL_LIMIT_MICROSTEPS, limits.microsteps.into());
    is(CALL_LIMIT_COMMANDS, limits.commands.into());
    is(CALL_LIMIT_OPERATIONS, limits.operations.into());
    is(CALL_SEQUENCE, event.sequence);
    is(CALL_ACCEPTED_AT, event.accepted_at);
    is(CALL_EVENT_ID, event.event_id.into());
    is(CALL_KIND, event.kind.into());
    is(CALL_INPUT, event.input.into());
    is(CALL_SIGNAL, event.signal.into());
    is(CALL_OUTCOME, event.outcome.into());
    is(CALL_DATA, event.data.into());
    is(CALL_NODE, event.node.into());
    is(CALL_VISIT, event.visit.into());
    is(CALL_ATTEMPT, event.attempt.into());
    is(CALL_STATUS, event.status.into());
    is(CALL_OUTPUT, event.output.into());
    is(CALL_HAS_ERROR, event.has_error.into());
    is(CALL_RETRYABLE, event.retryable.into());
    is(CALL_ERROR_CODE, event.code.into());
    is(CALL_ERROR_DETAIL, event.detail.into());
    is(CALL_DELAY, event.delay);
    is(CALL_RESOLUTION, event.resolution.into());
    is(CALL_ANSWERED, mappings.count.into());
    assert_eq!(mappings.answers.len(), MAPPINGS);
    for (i, answer) in mappings.answers.iter().enumerate() {
        let row = CALL_MAPPINGS + MAPPING_WIDTH * i;
        is(row, answer.kind.into());
        is(row + 1, answer.value.into());
        is(row + 2, answer.code.into());
        is(row + 3, answer.detail.into());
        is(row + 4, answer.operations.into());
    }
}

fn is_error(numbers: &[u64], error: ErrorInfo) {
    let found = [error.code, error.node, error.detail].map(u64::from);
    assert_eq!(numbers[1..4], found);
}

fn is_output(numbers: &[u64], output: Output) {
    let Output::Error(error) = output else {
        panic!("{output:?}");
    };
    is_error(numbers, error);
}

#[test]
fn record() {
    (0..ROUNDS).for_each(record_of);
}

fn record_of(round: u64) {
    let record = filled_record(round);
    let state = numbers::state_of(&record).unwrap();
    let is = |offset: usize, field: u64| assert_eq!(field, record[offset]);
    is(RECORD_STATUS, state.status.into());
    is(RECORD_INPUT, state.input.into());
    is(RECORD_ACTIVATIONS, state.activations.into());
    is(RECORD_LAST_SEQUENCE, state.last_sequence);
    is(RECORD_LAST_ACCEPTED_AT, state.last_accepted_at);
    is(RECORD_POSITION_NODE, state.position.node.into());
    is(RECORD_POSITION_VISIT, state.position.visit.into());
    is(RECORD_PHASE, state.invocation.phase.into());
    is(RECORD_INVOCATION_NODE, state.invocation.node.into());
    is(RECORD_INVOCATION_VISIT, state.invocation.visit.into());
    is(RECORD_INVOCATION_ACTION, state.invocation.action.into());
    is(RECORD_INVOCATION_ATTEMPT, state.invocation.attempt.into());
    is(RECORD_INVOCATION_INPUT, state.invocation.input.into());
    is_error(&record[RECORD_ERROR..], state.invocation.error.unwrap());
    is_output(&record[RECORD_RESULT..], state.result);
    is(RECORD_STORED, state.signal_count.into());
    for (i, signal) in state.signals.iter().enumerate() {
        let row = RECORD_SIGNALS + SIGNAL_WIDTH * i;
        is(row, signal.sequence);
        is(row + 1, signal.event_id.into());
        is(row + 2, signal.signal.into());
        is(row + 3, signal.outcome.into());
        is(row + 4, signal.data.into());
    }
    for node in 0..NODES {
        is(RECORD_VISITS + node, state.visits[node].into());
        let row = RECORD_STREAKS + STREAK_WIDTH * node;
        is(row, state.streaks[node].outcome.into());
        is(row + 1, state.streaks[node].count.into());
        let row = RECORD_RESULTS + RESULT_WIDTH * node;
        is(row, state.results[node].visit.into());
        is(row + 1, state.results[node].outcome.into());
        is_output(&record[row + 2..], state.results[node].output);
    }
    assert_eq!(numbers::record(&state), record);
    assert_eq!(
        [RECORD_STORED, RECORD],
        [
            RECORD_RESULT + OUTPUT_WIDTH,
            RECORD_RESULTS + RESULT_WIDTH * NODES
        ]
    );
}

/// What a next record's answer holds, each number its offset and one.
fn next(order: Order) -> Vec<u64> {
    let number = |offset: usize| offset as u32 + 1;
    let notes: Vec<Note> = (0..NOTES)
        .map(|i| {
            let row = number(ANSWER_NOTES + NOTE_WIDTH * i);
            Note {
                code: row,
                node: row + 1,
                a: row + 2,
                b: row + 3,
                c: row + 4,
            }
        })
        .collect();
    let endings: Vec<Ending> = (0..ENDINGS)
        .map(|i| {
            let row = number(ANSWER_ENDINGS + ENDING_WIDTH * i);
            Ending {
                sequence: row.into(),
                ending: row + 1,
            }
        })
        .collect();
    let state = numbers::state_of(&filled_record(0)).unwrap();
    let mut answer = vec![0; ANSWER];
    numbers::write_next(
        &mut answer,
        &state,
        Some(&order),
        &notes,
        &endings,
        number(ANSWER_MICROSTEPS),
    );
    answer
}

#[test]
fn answer() {
    let number = |offset: usize| offset as u32 + 1;
    let answer = next(Order::Schedule {
        node: number(ANSWER_ORDER_NODE),
        visit: number(ANSWER_ORDER_VISIT),
        action: number(ANSWER_ORDER_ACTION),
        attempt: number(ANSWER_ORDER_ATTEMPT),
        not_before: number(ANSWER_ORDER_NOT_BEFORE).into(),
        input: number(ANSWER_ORDER_INPUT),
        params: Some(number(ANSWER_ORDER_PARAMS)),
    });
    let mut expected: [u64; ANSWER] = std::array::from_fn(|offset| offset as u64 + 1);
    expected[ANSWER_KIND] = NEXT as u64;
    expected[ANSWER_ORDER] = 1;
    expected[ANSWER_ORDER_HAS_PARAMS] = 1;
    expected[ANSWER_NOTED] = NOTES as u64;
    expected[ANSWER_ENDED] = ENDINGS as u64;
    expected[ANSWER_RECORD..].copy_from_slice(&filled_record(0));
    assert_eq!(answer, expected);

    let mut answer = [0; 4];
    numbers::write_refusal(&mut answer, 12, NONE);
    assert_eq!(answer[ANSWER_KIND], REFUSAL as u64);
    assert_eq!(answer[ANSWER_REFUSAL_NUMBER], 12);
    assert_eq!(answer[ANSWER_REFUSAL_ITEM], NONE.into());

    let mut answer = vec![0; ANSWER];
    numbers::write_want(&mut answer, 5, 1, 6, &State::fresh(42));
    assert_eq!(answer[ANSWER_KIND], WANT as u64);
    assert_eq!(answer[ANSWER_WANT_NODE], 5);
    assert_eq!(answer[ANSWER_WANT_FIELD], 1);
    assert_eq!(answer[ANSWER_WANT_FROM], 6);
    assert_eq!(answer[ANSWER_RECORD + RECORD_INPUT], 42);
}
