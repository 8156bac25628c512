use calls::{Answer, Call, Ceilings, Ending, Event, Note, Order, State, Workflow, MOST, NONE};
use generator::joint::{self, signal};

use crate::added::Capped;
use crate::{answer, answer_fast};

fn start() -> Call {
    joint::call(&joint::sheet(), None, joint::start())
}

fn next(call: &Call) -> State {
    match answer(call) {
        Answer::Next { state, .. } => *state,
        other => panic!("{other:?}"),
    }
}

/// The call that follows one that is accepted.
fn then(call: &Call, event: Event) -> Call {
    let state = next(call);
    Call {
        event: Event {
            sequence: state.last_sequence + 1,
            ..event
        },
        state: Some(state),
        ..call.clone()
    }
}

/// A retryable one of the first visit.
fn result(attempt: u32, status: u32) -> Event {
    Event {
        retryable: true,
        ..joint::result(0, 1, attempt, status)
    }
}

fn refusal(call: &Call) -> (u32, u32) {
    match answer(call) {
        Answer::Refused { number, item } => (number, item),
        other => panic!("{other:?}"),
    }
}

#[test]
fn a_value_above_its_ceiling_breaks_its_rule() {
    let mut call = start();
    call.ceilings.visits = 2;
    assert_eq!(refusal(&call), (6, NONE));
    let mut call = start();
    call.ceilings.activations = 9;
    assert_eq!(refusal(&call), (6, NONE));
    let mut call = start();
    call.ceilings.attempts = 1;
    assert_eq!(refusal(&call), (7, 0));
    let mut call = start();
    call.ceilings.nodes = 3;
    assert_eq!(refusal(&call), (3, NONE));
    call.workflow.format = 1;
    call.workflow.nodes[0].has_params = 1;
    assert_eq!(refusal(&call), (1, 0));
}

#[test]
fn a_value_above_the_constants_goes_to_the_raised_copy() {
    let highest = Ceilings {
        nodes: u32::MAX,
        visits: u32::MAX,
        activations: u32::MAX,
        attempts: u32::MAX,
    };
    let mut call = start();
    call.ceilings = highest;
    let raised = |call: &Call| Capped::of(&call.workflow, &call.ceilings).needs_raised();
    call.workflow.max_visits_per_node = 1000;
    call.workflow.max_activations = 10_000;
    call.workflow.actions[0].max_attempts = 100;
    assert!(!raised(&call));
    next(&call);
    for change in [
        |workflow: &mut Workflow| workflow.max_visits_per_node = 1001,
        |workflow: &mut Workflow| workflow.max_activations = 10_001,
        |workflow: &mut Workflow| workflow.actions[0].max_attempts = 101,
    ] {
        let mut call = call.clone();
        change(&mut call.workflow);
        assert!(raised(&call));
        next(&call);
        call.ceilings = start().ceilings;
        assert!(!raised(&call));
        assert!(matches!(refusal(&call), (6, NONE) | (7, 0)));
    }
}

#[test]
fn added_refusals_stand_at_their_place() {
    let mut call = start();
    call.mappings.count = 3;
    assert_eq!(refusal(&call), (21, NONE));
    call.event.sequence = 2;
    assert_eq!(refusal(&call), (21, NONE));
    call.workflow.start = 4;
    assert_eq!(refusal(&call), (5, NONE));
    call.workflow.nodes[63].kind = 1;
    assert_eq!(refusal(&call), (20, NONE));

    let mut call = then(&start(), result(1, 1));
    call.state.as_mut().expect("a record").visits[4] = 1;
    assert_eq!(refusal(&call), (25, NONE));
    call.event.sequence = 9;
    assert_eq!(refusal(&call), (25, NONE));
    call.event.kind = 1;
    assert_eq!(refusal(&call), (24, NONE));
    call.event.kind = 6;
    assert_eq!(refusal(&call), (21, NONE));
}

#[test]
fn a_delay_over_the_counters_matters_where_a_retry_is_reached() {
    let over = Event {
        delay: MOST + 1,
        ..result(1, 2)
    };
    assert_eq!(refusal(&then(&start(), over)), (27, NONE));
    let mut call = then(&start(), over);
    call.limits.commands = 0;
    assert_eq!(refusal(&call), (27, NONE));
    let unread = Event { status: 1, ..over };
    assert_eq!(next(&then(&start(), unread)).status, 2);
}

#[test]
fn stored_signals_end_in_the_order_of_their_takes() {
    let mut call = then(&start(), signal(6, 1));
    for outcome in [9, 4, 3, NONE] {
        call = then(&call, signal(5, outcome));
    }
    let call = then(&call, result(1, 1));
    let Answer::Next {
        state,
        orders,
        notes,
        endings,
        microsteps,
    } = answer(&call)
    else {
        panic!("accepted");
    };
    let ending = |sequence, ending| Ending { sequence, ending };
    assert_eq!(endings, [ending(3, 2), ending(4, 1)]);
    assert_eq!(microsteps, 4);
    assert_eq!(
        notes,
        [Note {
            code: 5,
            node: 1,
            a: 0,
            b: 9,
            c: 0
        }]
    );
    assert!(matches!(
        orders[..],
        [Order::Schedule {
            node: 0,
            visit: 2,
            ..
        }]
    ));
    assert_eq!(state.signal_count, 3);
}

/// Endings and microsteps of an accepted call.
fn endings(call: &Call) -> (Vec<Ending>, u32) {
    match answer(call) {
        Answer::Next {
            endings,
            microsteps,
            ..
        } => (endings, microsteps),
        other => panic!("{other:?}"),
    }
}

#[test]
fn the_call_that_ends_a_run_empties_its_store() {
    let mut call = start();
    for name in [6, 7, 6] {
        call = then(&call, signal(name, 1));
    }
    call = then(&call, result(1, 1));
    let waiting = next(&call);
    assert_eq!((waiting.status, waiting.signal_count), (2, 3));
    let last = then(&call, signal(5, 1));
    let ending = |sequence, ending| Ending { sequence, ending };
    let all = vec![ending(6, 1), ending(2, 5), ending(3, 5), ending(4, 5)];
    assert_eq!(endings(&last), (all, 2));
    let ended = next(&last);
    assert_eq!((ended.status, ended.signal_count), (4, 0));
    assert_eq!(ended.signals, State::fresh(0).signals);

    let mut wanted = last.clone();
    wanted.mappings.count = 0;
    assert!(matches!(answer(&wanted), Answer::Wants { state, .. } if state.signal_count == 3));
    assert_eq!(endings(&then(&last, signal(6, 1))), (vec![ending(7, 4)], 0));
}

/// The original has no such check: a call on a run that ended before leaves its store as it is.
#[test]
fn a_run_that_had_ended_is_left_alone() {
    let mut call = then(&then(&start(), result(1, 1)), signal(5, 1));
    call = then(&call, signal(6, 1));
    let stored = call.state.as_mut().expect("a record");
    stored.signal_count = 1;
    assert_eq!(next(&call).signal_count, 1);
}

#[test]
fn a_want_holds_the_record_of_its_moment() {
    let mut call = then(&start(), result(1, 1));
    call = then(&call, signal(5, 4));
    call.mappings.count = 0;
    let Answer::Wants {
        node,
        field,
        from,
        state,
    } = answer(&call)
    else {
        panic!("a want");
    };
    assert_eq!((node, field, from), (0, 0, 1));
    assert_eq!((state.status, state.position.node), (2, 1));
    assert_eq!((state.visits[0], state.streaks[1].count), (2, 1));
}

#[test]
fn both_ways_answer_alike() {
    let call = then(&start(), result(1, 3));
    assert_eq!(answer(&call), answer_fast(&call));
}
