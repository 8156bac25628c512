//! Joint A through the library, and what it says of numbers that it refuses.

use calls::{numbers, State};
use generator::joint;
use kuxhoveza::{
    layout, layout_matches, raw, transition, verdict, Answer, Call, Ceilings, Ending, Fault, Note,
    Order, Record, Refusal,
};

const CEILINGS: Ceilings = Ceilings {
    nodes: 64,
    visits: 64,
    activations: 64,
    attempts: 64,
};

fn call_numbers(call: &calls::Call) -> Call {
    numbers::call(call).try_into().unwrap()
}

fn record_numbers(state: &State) -> [u64; layout::RECORD] {
    numbers::record(state).try_into().unwrap()
}

fn order_of(order: &calls::Order) -> Order {
    match *order {
        calls::Order::Schedule {
            node,
            visit,
            action,
            attempt,
            not_before,
            input,
            params,
        } => Order::Schedule {
            node,
            visit,
            action,
            attempt,
            not_before,
            input,
            params,
        },
        calls::Order::Retry {
            node,
            visit,
            attempt,
            not_before,
        } => Order::Retry {
            node,
            visit,
            attempt,
            not_before,
        },
    }
}

/// Every part of an answer is the one that is expected.
fn is(answer: Answer, expected: &calls::Answer) {
    match (answer, expected) {
        (
            Answer::Next { record, report },
            calls::Answer::Next {
                state,
                orders,
                notes,
                endings,
                microsteps,
            },
        ) => {
            assert_eq!(record.numbers(), &record_numbers(state));
            assert_eq!(report.microsteps(), *microsteps);
            assert_eq!(report.order(), orders.first().map(order_of));
            let said: Vec<Note> = report.notes().collect();
            let expected = notes.iter().map(|note| Note {
                code: note.code,
                node: note.node,
                a: note.a,
                b: note.b,
                c: note.c,
            });
            assert_eq!(said, expected.collect::<Vec<_>>());
            let said: Vec<Ending> = report.endings().collect();
            let expected = endings.iter().map(|it| Ending {
                sequence: it.sequence,
                ending: it.ending,
            });
            assert_eq!(said, expected.collect::<Vec<_>>());
        }
        (
            Answer::Want {
                node,
                field,
                from,
                record,
            },
            calls::Answer::Wants {
                node: wanted,
                field: its_field,
                from: its_from,
                state,
            },
        ) => {
            assert_eq!((node, field, from), (*wanted, *its_field, *its_from));
            for (offset, number) in record_numbers(state).into_iter().enumerate() {
                assert_eq!(record.number(offset), number);
            }
        }
        (Answer::Refused(refusal), calls::Answer::Refused { number, item }) => {
            assert_eq!((refusal.number, refusal.item), (*number, *item));
        }
        (answer, expected) => panic!("{answer:?}, not {expected:?}"),
    }
}

#[test]
fn joint_a() {
    for case in joint::cases() {
        let sheet = numbers::sheet(&case.call.workflow);
        let call = call_numbers(&case.call);
        let record = case.call.state.as_ref().map(record_numbers);
        let mut answer = [7; layout::ANSWER];
        let lent = record.unwrap_or([0; layout::RECORD]);
        assert_eq!(raw::transition(&sheet[..], &call, &lent, &mut answer), 0);
        let expected = numbers::answer(&case.expected).unwrap();
        assert_eq!(answer[..], expected, "{}", case.name);
        let record = record.map(Record::from_numbers);
        is(
            transition(&sheet, &call, record.as_ref()).unwrap(),
            &case.expected,
        );
    }
}

/// A want is answered by the same call on the same record, with the value added.
#[test]
fn a_want() {
    let sheet = numbers::sheet(&joint::sheet());
    let mut start = joint::call(&joint::sheet(), None, joint::start());
    let values = start.mappings;
    start.mappings.count = 0;
    let wanted = transition(&sheet, &call_numbers(&start), None).unwrap();
    assert!(matches!(
        wanted,
        Answer::Want {
            node: 0,
            field: 0,
            ..
        }
    ));
    is(wanted, &plain::answer(&start));
    start.mappings = values;
    let next = transition(&sheet, &call_numbers(&start), None).unwrap();
    assert!(matches!(next, Answer::Next { .. }));
    is(next, &plain::answer(&start));
}

/// Whether a record is given decides, not the call's number.
#[test]
fn the_record_given_counts() {
    let sheet = numbers::sheet(&joint::sheet());
    let start = joint::call(&joint::sheet(), None, joint::start());
    let mut call = call_numbers(&start);
    for mark in [0, 1, 2] {
        call[layout::CALL_HAS_RECORD] = mark;
        let Ok(Answer::Next { record, .. }) = transition(&sheet, &call, None) else {
            panic!("a start is accepted");
        };
        let again = transition(&sheet, &call, Some(&record));
        let refused = Refusal {
            number: 24,
            item: 255,
        };
        assert_eq!(again, Ok(Answer::Refused(refused)));
    }
}

#[test]
fn refused_numbers() {
    let sheet = numbers::sheet(&joint::sheet());
    let start = joint::call(&joint::sheet(), None, joint::start());
    let call = call_numbers(&start);
    let record = [u64::MAX; layout::RECORD];
    let mut bad = call;
    bad[layout::CALL_SIGNAL] = 256;
    assert_eq!(transition(&sheet, &bad, None), Err(Fault::Call));
    let stored = Record::from_numbers(record);
    assert_eq!(transition(&sheet, &call, Some(&stored)), Err(Fault::Record));

    let mut buffer = vec![7; layout::ANSWER + 1];
    let said = |call: &Call, buffer: &mut [u64]| {
        raw::transition(&sheet[..], call, &record, buffer) as usize
    };
    let short = &mut buffer[..layout::ANSWER - 1];
    assert_eq!(said(&call, short), layout::SHORT_BUFFER);
    assert_eq!(said(&bad, &mut buffer), layout::BAD_CALL);
    bad = call;
    bad[layout::CALL_HAS_RECORD] = 1;
    assert_eq!(said(&bad, &mut buffer), layout::BAD_RECORD);
    assert!(buffer.iter().all(|number| *number == 7));
    assert_eq!(said(&call, &mut buffer), layout::WRITTEN);
    assert_eq!(buffer[layout::ANSWER], 7);
}

/// Each array shorter and longer than the layout says, and each buffer shorter. The first of the tests decides, whatever
/// else is wrong, and nothing is written.
#[test]
fn lengths() {
    let start = joint::call(&joint::sheet(), None, joint::start());
    let lent = numbers::sheet(&joint::sheet());
    let (mut sheet, mut call) = (lent.to_vec(), call_numbers(&start).to_vec());
    let mut record = vec![0; layout::RECORD];
    sheet.push(0);
    call.push(0);
    record.push(0);
    let right = [layout::SHEET, layout::CALL, layout::RECORD, layout::ANSWER];
    let of = |length: usize| [0, 1, length / 2, length - 1, length, length + 1];
    let [sheets, calls, records, buffers] = right.map(of);
    for mark in [0, 1, 2] {
        call[layout::CALL_HAS_RECORD] = mark;
        record[layout::RECORD_VISITS] = if mark == 1 { u64::MAX } else { 0 };
        for lengths in sheets.iter().flat_map(|s| {
            let with_call = calls.iter().map(move |c| (*s, *c));
            with_call.flat_map(|(s, c)| records.iter().map(move |r| [s, c, *r]))
        }) {
            let [s, c, r] = lengths;
            for b in buffers {
                let mut buffer = vec![7; b];
                let said = raw::transition(&sheet[..s], &call[..c], &record[..r], &mut buffer);
                let due = match () {
                    _ if s != layout::SHEET => layout::BAD_SHEET_LENGTH,
                    _ if c != layout::CALL => layout::BAD_CALL_LENGTH,
                    _ if r != layout::RECORD => layout::BAD_RECORD_LENGTH,
                    _ if b < layout::ANSWER => layout::SHORT_BUFFER,
                    _ if mark == 2 => layout::BAD_CALL,
                    _ if mark == 1 => layout::BAD_RECORD,
                    _ => layout::WRITTEN,
                };
                assert_eq!(said as usize, due, "lengths {lengths:?} and {b}");
                let kept = if due == layout::WRITTEN {
                    layout::ANSWER
                } else {
                    0
                };
                assert!(buffer[kept..].iter().all(|number| *number == 7));
            }
        }
    }
}

#[test]
fn one_layout() {
    assert_eq!(raw::layout_version() as usize, layout::LAYOUT_VERSION);
    assert!(layout_matches());
}

#[test]
fn verdicts() {
    let mut sheet = numbers::sheet(&joint::sheet());
    assert_eq!(verdict(&sheet, CEILINGS), Ok(None));
    let mut buffer = [7; layout::VERDICT + 1];
    assert_eq!(raw::verdict(&sheet[..], CEILINGS, &mut buffer), 0);
    assert_eq!(buffer, [0, 0, 7]);
    sheet[layout::SHEET_LIMIT_LIMIT] = 3;
    let refusal = Refusal {
        number: 12,
        item: 1,
    };
    assert_eq!(verdict(&sheet, CEILINGS), Ok(Some(refusal)));
    assert_eq!(raw::verdict(&sheet[..], CEILINGS, &mut buffer), 0);
    assert_eq!(buffer, [12, 1, 7]);

    let mut longer = sheet.to_vec();
    longer.push(0);
    for s in [0, 1, layout::SHEET - 1, layout::SHEET, layout::SHEET + 1] {
        for b in 0..=layout::VERDICT + 1 {
            let mut buffer = vec![7; b];
            let said = raw::verdict(&longer[..s], CEILINGS, &mut buffer) as usize;
            let due = match () {
                _ if s != layout::SHEET => layout::BAD_SHEET_LENGTH,
                _ if b < layout::VERDICT => layout::SHORT_BUFFER,
                _ => layout::WRITTEN,
            };
            assert_eq!(said, due, "lengths {s} and {b}");
            let kept = if due == layout::WRITTEN {
                layout::VERDICT
            } else {
                0
            };
            assert!(buffer[kept..].iter().all(|number| *number == 7));
        }
    }
}
