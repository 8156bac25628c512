//! The twelve cases of Joint A, with the answers that document 01's text gives them, and what is left over where its run
//! ends, with those that 02's gives.

use calls::{
    Answer, BufferedSignal, Call, Ceilings, Ending, ErrorInfo, Event, InvocationState, Limits,
    Mapping, Mappings, Node, NodeResult, Note, Order, Output, Position, Rows, State, Streak,
    Workflow, MOST, NONE, STORE,
};

pub struct Case {
    pub name: &'static str,
    pub call: Call,
    pub expected: Answer,
}

const INPUT: u32 = 42;
const OUTPUT: u32 = 9;
const DATA: u32 = 7;
const CODE: u32 = 77;
const DETAIL: u32 = 78;

/// Format 2, visits 3, activations 10. Node 0: activity, action 0, ok to 1. Node 1: await signal 5, received to 2,
/// outcome 4 to 0, exhausted to 3, limit 1 on 4. Node 2 complete, 3 fail. Action 0: effect 1, ok, 2 attempts.
pub fn sheet() -> Workflow {
    let of_kind = |kind| Node {
        kind,
        ..Node::default()
    };
    let rows = Rows {
        nodes: &[
            of_kind(1),
            Node {
                signal: 5,
                has_limits: 1,
                ..of_kind(2)
            },
            of_kind(3),
            Node {
                code: CODE,
                detail: DETAIL,
                ..of_kind(4)
            },
        ],
        routes: &[(0, 0, 1), (1, 1, 2), (1, 3, 3), (1, 4, 0)],
        limits: &[(1, 4, 1)],
        actions: &[(1, 2)],
        declared: &[(0, 0)],
    };
    Workflow::of(3, 10, &rows)
}

/// Microstep limit 130, ceilings 64, command and operation limits 10, time 0, one value of 0 operations.
pub fn call(workflow: &Workflow, state: Option<&State>, event: Event) -> Call {
    let sequence = state.map_or(0, |state| state.last_sequence) + 1;
    let value = Mapping {
        kind: 1,
        value: value_of(sequence),
        ..Mapping::default()
    };
    Call {
        ceilings: Ceilings {
            nodes: 64,
            visits: 64,
            activations: 64,
            attempts: 64,
        },
        limits: Limits {
            microsteps: 130,
            commands: 10,
            operations: 10,
        },
        workflow: workflow.clone(),
        state: state.cloned(),
        event: Event {
            sequence,
            event_id: event_id_of(sequence),
            ..event
        },
        mappings: Mappings {
            count: 1,
            answers: [value, Mapping::default()],
        },
    }
}

fn value_of(sequence: u64) -> u32 {
    500 + sequence as u32
}

fn event_id_of(sequence: u64) -> u32 {
    1000 + sequence as u32
}

pub fn start() -> Event {
    Event {
        kind: 1,
        input: INPUT,
        ..Event::default()
    }
}

pub fn signal(signal: u32, outcome: u32) -> Event {
    Event {
        kind: 2,
        signal,
        outcome,
        data: DATA,
        ..Event::default()
    }
}

pub fn result(node: u32, visit: u32, attempt: u32, status: u32) -> Event {
    Event {
        kind: 3,
        node,
        visit,
        attempt,
        status,
        outcome: NONE,
        output: OUTPUT,
        ..Event::default()
    }
}

/// An operator's word on the first visit of node 0.
pub(crate) fn resolved(resolution: u32) -> Event {
    Event {
        kind: 4,
        visit: 1,
        resolution,
        output: OUTPUT,
        code: CODE,
        detail: DETAIL,
        ..Event::default()
    }
}

fn next(
    state: &State,
    orders: Vec<Order>,
    notes: Vec<Note>,
    endings: Vec<Ending>,
    microsteps: u32,
) -> Answer {
    Answer::Next {
        state: Box::new(state.clone()),
        orders,
        notes,
        endings,
        microsteps,
    }
}

fn refused(number: u32, item: u32) -> Answer {
    Answer::Refused { number, item }
}

fn schedule(visit: u32, input: u32) -> Order {
    Order::Schedule {
        node: 0,
        visit,
        action: 0,
        attempt: 1,
        not_before: 0,
        input,
        params: None,
    }
}

fn note(code: u32, node: u32, a: u32, b: u32, c: u32) -> Note {
    Note {
        code,
        node,
        a,
        b,
        c,
    }
}

fn ending(sequence: u64, ending: u32) -> Ending {
    Ending { sequence, ending }
}

/// Puts the run at node 0, scheduled.
fn at_0(state: &mut State, visit: u32, input: u32) {
    state.status = 1;
    state.position = Position { node: 0, visit };
    state.invocation = InvocationState {
        phase: 1,
        node: 0,
        visit,
        action: 0,
        attempt: 1,
        input,
        error: None,
    };
    state.visits[0] = visit;
    state.activations += 1;
    state.last_sequence += 1;
}

/// Puts the run at node 1, waiting, after a success.
fn at_1(state: &mut State, visit: u32) {
    state.status = 2;
    state.results[0] = NodeResult {
        visit,
        outcome: 0,
        output: Output::Handle(OUTPUT),
    };
    state.position = Position { node: 1, visit };
    state.invocation = InvocationState::NONE;
    state.visits[1] = visit;
    state.activations += 1;
    state.last_sequence += 1;
}

fn taken(state: &mut State, visit: u32, outcome: u32) {
    state.results[1] = NodeResult {
        visit,
        outcome,
        output: Output::Handle(DATA),
    };
}

/// Stores an arrival.
pub(crate) fn store(state: &mut State, signal: u32, outcome: u32) {
    state.last_sequence += 1;
    state.signals[state.signal_count as usize] = BufferedSignal {
        sequence: state.last_sequence,
        event_id: event_id_of(state.last_sequence),
        signal,
        outcome,
        data: DATA,
    };
    state.signal_count += 1;
}

/// Takes a signal without outcome at node 1 and counts the visit of node 2.
fn to_2(state: &mut State) {
    taken(state, 1, 1);
    state.visits[2] = 1;
    state.activations += 1;
}

/// Ends the run; nothing stays stored.
fn end(state: &mut State, status: u32, result: Output) {
    state.status = status;
    state.position = Position::NONE;
    state.invocation = InvocationState::NONE;
    state.result = result;
    state.signal_count = 0;
    state.signals = [BufferedSignal::default(); STORE];
}

/// Ends the run at node 2 with the value of its last call.
fn complete(state: &mut State) {
    to_2(state);
    end(state, 4, Output::Handle(value_of(state.last_sequence)));
}

/// After case 1.
pub(crate) fn scheduled() -> State {
    let mut state = State::fresh(INPUT);
    at_0(&mut state, 1, 501);
    state
}

/// After case 2.
pub(crate) fn waiting() -> State {
    let mut state = scheduled();
    at_1(&mut state, 1);
    state
}

/// After case 9.
pub(crate) fn stuck() -> State {
    let mut state = scheduled();
    state.status = 3;
    state.invocation.phase = 3;
    state.invocation.error = Some(ErrorInfo {
        code: 5,
        node: 0,
        detail: 0,
    });
    state.last_sequence += 1;
    state
}

/// All of them.
pub fn cases() -> Vec<Case> {
    let mut cases = twelve();
    cases.extend(left_over());
    cases
}

fn adding(cases: &mut Vec<Case>) -> impl FnMut(&'static str, Call, Answer) + '_ {
    |name, call, expected| {
        cases.push(Case {
            name,
            call,
            expected,
        })
    }
}

pub fn twelve() -> Vec<Case> {
    let sheet = sheet();
    let mut cases = Vec::new();
    let mut add = adding(&mut cases);

    let first = scheduled();
    add(
        "1: start schedules 0, visit 1, attempt 1",
        call(&sheet, None, start()),
        next(&first, vec![schedule(1, 501)], vec![], vec![], 1),
    );

    let second = waiting();
    add(
        "2: success leads to waiting at 1, visit 1",
        call(&sheet, Some(&first), result(0, 1, 1, 1)),
        next(&second, vec![], vec![], vec![], 1),
    );

    let mut third = second.clone();
    taken(&mut third, 1, 4);
    third.streaks[1] = Streak {
        outcome: 4,
        count: 1,
    };
    at_0(&mut third, 2, 503);
    let third_call = call(&sheet, Some(&second), signal(5, 4));
    let third_answer = next(
        &third,
        vec![schedule(2, 503)],
        vec![],
        vec![ending(3, 1)],
        2,
    );
    add(
        "3: signal 5 with 4: streak 1, 0 visit 2",
        third_call.clone(),
        third_answer.clone(),
    );

    let mut fourth = third.clone();
    at_1(&mut fourth, 2);
    let fourth_call = call(&sheet, Some(&fourth), signal(5, 4));
    let mut failed = fourth.clone();
    taken(&mut failed, 2, 4);
    failed.streaks[1] = Streak::default();
    failed.visits[3] = 1;
    failed.activations += 1;
    failed.last_sequence += 1;
    let error = ErrorInfo {
        code: CODE,
        node: 3,
        detail: DETAIL,
    };
    end(&mut failed, 5, Output::Error(error));
    add(
        "4: again after success",
        call(&sheet, Some(&third), result(0, 2, 1, 1)),
        next(&fourth, vec![], vec![], vec![], 1),
    );
    add(
        "4: node 3, failed, note 9, outcome 4 kept, no streak",
        fourth_call,
        next(
            &failed,
            vec![],
            vec![note(9, 1, 4, 1, 0)],
            vec![ending(5, 1)],
            2,
        ),
    );

    let mut tight = third_call.clone();
    tight.limits.microsteps = 1;
    add("5: case 3 at limit 1", tight.clone(), refused(26, NONE));
    tight.limits.microsteps = 2;
    add("5: case 3 at limit 2", tight, third_answer);

    let mut still = second.clone();
    still.last_sequence += 1;
    add(
        "6: signal 5 with 3: note 5, still waiting",
        call(&sheet, Some(&second), signal(5, 3)),
        next(
            &still,
            vec![],
            vec![note(5, 1, event_id_of(3), 3, 0)],
            vec![ending(3, 2)],
            1,
        ),
    );

    let mut parked = first.clone();
    parked.status = 3;
    parked.invocation.phase = 2;
    parked.last_sequence += 1;
    add(
        "7: status 3 parks",
        call(&sheet, Some(&first), result(0, 1, 1, 3)),
        next(&parked, vec![], vec![note(6, 0, 1, 1, 3)], vec![], 0),
    );
    let mut stale = parked.clone();
    stale.last_sequence += 1;
    add(
        "7: the same result next: note 2",
        call(&sheet, Some(&parked), result(0, 1, 1, 3)),
        next(&stale, vec![], vec![note(2, 0, 0, 1, 1)], vec![], 0),
    );

    let mut retried = first.clone();
    retried.invocation.attempt = 2;
    retried.last_sequence += 1;
    let retryable = Event {
        retryable: true,
        delay: MOST,
        ..result(0, 1, 1, 2)
    };
    let retry = Order::Retry {
        node: 0,
        visit: 1,
        attempt: 2,
        not_before: MOST,
    };
    add(
        "8: retryable failure, delay 2^63 - 1, time 0",
        call(&sheet, Some(&first), retryable),
        next(&retried, vec![retry], vec![note(8, 0, 2, 0, 0)], vec![], 0),
    );
    let later = Event {
        accepted_at: 1,
        ..retryable
    };
    add(
        "8: the same at time 1",
        call(&sheet, Some(&first), later),
        refused(27, NONE),
    );

    add(
        "9: failure not retryable: stuck",
        call(&sheet, Some(&first), result(0, 1, 1, 2)),
        next(&stuck(), vec![], vec![note(7, 0, 1, 1, 5)], vec![], 0),
    );

    let mut idle = call(&sheet, None, start());
    idle.limits.commands = 0;
    add("10: start with command limit 0", idle, refused(29, NONE));

    let mut limited = call(&sheet, None, start());
    limited.workflow.limits[0].limit = 2;
    add(
        "11: limit 2 on outcome 4",
        limited.clone(),
        next(&first, vec![schedule(1, 501)], vec![], vec![], 1),
    );
    limited.workflow.limits[0].limit = 3;
    add("11: limit 3 on outcome 4", limited, refused(12, 1));

    let mut full = second.clone();
    for _ in 0..STORE {
        store(&mut full, 6, NONE);
    }
    let mut completed = full.clone();
    completed.last_sequence += 1;
    complete(&mut completed);
    let mut endings = vec![ending(67, 1)];
    endings.extend((3..67).map(|sequence| ending(sequence, 5)));
    add(
        "12: full store: a matching arrival is taken",
        call(&sheet, Some(&full), signal(5, NONE)),
        next(&completed, vec![], vec![], endings, 2),
    );
    let mut dropped = full.clone();
    dropped.last_sequence += 1;
    add(
        "12: full store: signal 6 gets note 4",
        call(&sheet, Some(&full), signal(6, NONE)),
        next(
            &dropped,
            vec![],
            vec![note(4, NONE, event_id_of(67), 0, 0)],
            vec![ending(67, 3)],
            0,
        ),
    );
    drop(add);
    cases
}

/// What is left over where a run ends, and an ended run that stores.
pub fn left_over() -> Vec<Case> {
    let sheet = sheet();
    let mut cases = Vec::new();
    let mut add = adding(&mut cases);

    let mut two = waiting();
    store(&mut two, 6, NONE);
    store(&mut two, 6, NONE);
    let arrival = call(&sheet, Some(&two), signal(5, NONE));
    let mut completed = two.clone();
    completed.last_sequence += 1;
    complete(&mut completed);
    add(
        "left over: two of signal 6, behind the arrival",
        arrival.clone(),
        next(
            &completed,
            vec![],
            vec![],
            vec![ending(5, 1), ending(3, 5), ending(4, 5)],
            2,
        ),
    );

    let mut lacking = arrival.clone();
    lacking.mappings = Mappings::default();
    let mut wanted = two.clone();
    wanted.last_sequence += 1;
    to_2(&mut wanted);
    add(
        "left over: none at a want, which keeps the store",
        lacking,
        Answer::Wants {
            node: 2,
            field: 2,
            from: 1,
            state: Box::new(wanted),
        },
    );
    let mut costly = arrival;
    costly.mappings.answers[0].operations = 11;
    add("left over: none at a refusal", costly, refused(30, NONE));

    let mut early = scheduled();
    store(&mut early, 5, 9);
    store(&mut early, 6, NONE);
    store(&mut early, 5, NONE);
    store(&mut early, 5, NONE);
    let mut through = early.clone();
    at_1(&mut through, 1);
    complete(&mut through);
    add(
        "left over: one of each, behind an unrouted and a routed one",
        call(&sheet, Some(&early), result(0, 1, 1, 1)),
        next(
            &through,
            vec![],
            vec![note(5, 1, event_id_of(2), 9, 0)],
            vec![ending(2, 2), ending(4, 1), ending(3, 5), ending(5, 5)],
            4,
        ),
    );

    let mut parked = stuck();
    store(&mut parked, 5, NONE);
    let kept = parked.invocation.error.expect("it is stuck");
    let mut failed = parked.clone();
    failed.last_sequence += 1;
    end(&mut failed, 5, Output::Error(kept));
    add(
        "left over: one at an operator's fail of a stuck run",
        call(&sheet, Some(&parked), resolved(3)),
        next(&failed, vec![], vec![], vec![ending(3, 5)], 0),
    );

    let mut stored = completed;
    store(&mut stored, 6, NONE);
    let noted = Event {
        kind: 5,
        ..Event::default()
    };
    add(
        "left over: an ended run that stores one is inconsistent",
        call(&sheet, Some(&stored), noted),
        refused(25, NONE),
    );
    add(
        "left over: a start with it is still 24",
        call(&sheet, Some(&stored), start()),
        refused(24, NONE),
    );
    drop(add);
    cases
}
