//! The forms against the text of docs/BYTES.md and the table of what fields hold.

use bytes::*;
use calls::layout::*;
use calls::{numbers, State};
use generator::fields::{Array, Field, FIELDS};
use generator::{full, joint};

/// An event of one number and zeros behind it, as bytes.
fn with_number(groups: &[u8]) -> Vec<u8> {
    [groups, &[0; EVENT - 1]].concat()
}

#[test]
fn one_number() {
    let most = [[0xff; 9].as_slice(), &[1]].concat();
    for (number, groups) in [
        (0, &[0x00][..]),
        (127, &[0x7f]),
        (128, &[0x80, 0x01]),
        (300, &[0xac, 0x02]),
        (u64::MAX, &most),
    ] {
        let event = read_event(&with_number(groups)).unwrap();
        assert_eq!(event[0], number);
        assert_eq!(write_event(&event).unwrap(), with_number(groups));
    }
    let above = [[0xff; 9].as_slice(), &[2]].concat();
    let eleven = [[0x80; 10].as_slice(), &[1]].concat();
    for groups in [
        &[0x80, 0x00][..],
        &[0xff, 0x00],
        &above,
        &eleven,
        &[0x80; 30],
    ] {
        assert_eq!(read_event(&with_number(groups)), None, "{groups:?}");
    }
}

#[test]
fn a_sheet_without_rows() {
    let mut sheet = [0; SHEET];
    sheet[SHEET_FORMAT] = 2;
    sheet[SHEET_MAX_ACTIVATIONS] = 300;
    let bytes = [2, 0, 0, 0xac, 2, 0, 0, 0, 0, 0];
    assert_eq!(write_sheet(&sheet).unwrap(), bytes);
    assert_eq!(*read_sheet(&bytes).unwrap(), sheet);
    for place in SHEET_NODE_KIND..SHEET {
        let mut other = sheet;
        other[place] = 1;
        assert_eq!(write_sheet(&other), None, "{place}");
    }
}

#[test]
fn a_full_sheet() {
    let sheet = numbers::sheet(&full::sheet(64));
    let bytes = write_sheet(&sheet).unwrap();
    assert_eq!(read_sheet(&bytes), Some(sheet.clone()));
    for (count, capacity) in [
        (SHEET_NODE_COUNT, NODES),
        (SHEET_ROUTE_COUNT, ROUTES),
        (SHEET_DECLARED_COUNT, DECLARED),
    ] {
        let mut more = sheet.clone();
        assert_eq!(more[count], capacity as u32);
        more[count] += 1;
        assert_eq!(write_sheet(&more), None);
    }
}

#[test]
fn a_run() {
    let mut run: [u64; RECORD] = numbers::record(&State::fresh(7)).try_into().unwrap();
    run[RECORD_STORED] = 1;
    run[RECORD_SIGNALS] = 1 << 63;
    run[RECORD_STREAKS..][..2].copy_from_slice(&[9, 2]);
    run[RECORD_RESULTS..][..6].copy_from_slice(&[3, 4, 2, 5, 6, 7]);
    let bytes = write_run(&run).unwrap();
    assert_eq!(read_run(&bytes), Some(run));
    // Two names of 255, ten groups of the signal's sequence; behind the visits the streak and the result.
    assert_eq!(bytes.len(), 22 + 2 + (9 + 5) + 64 + (1 + 64) + (5 + 64));
    assert_eq!(bytes[24 + 14 + 64..][..3], [2, 9, 0]);
    assert_eq!(bytes[24 + 14 + 64 + 65..][..7], [2, 3, 4, 5, 6, 7, 0]);
    for (place, number) in [
        (RECORD_STORED, 0),
        (RECORD_STORED, 65),
        (RECORD_SIGNALS + SIGNAL_WIDTH, 1),
        (RECORD_STREAKS + 1, 0),
        (RECORD_RESULTS + RESULT_WIDTH, 1),
        (RECORD_RESULTS + RESULT_WIDTH + 1, 1),
    ] {
        let mut other = run;
        other[place] = number;
        assert_eq!(write_run(&other), Err(Unwritten::Untidy), "{place}");
    }
}

/// A write is no run check: what an ended run stores is written and read back.
#[test]
fn an_ended_run_that_stores() {
    let mut run: [u64; RECORD] = numbers::record(&State::fresh(7)).try_into().unwrap();
    for status in [4, 5] {
        run[RECORD_STATUS] = status;
        run[RECORD_STORED] = 1;
        assert_eq!(read_run(&write_run(&run).unwrap()), Some(run));
    }
}

/// A call with every row used, all outputs errors.
fn used() -> Call {
    let start = joint::call(&joint::sheet(), None, joint::start());
    let mut call = Call {
        sheet: None,
        call: numbers::call(&start).try_into().unwrap(),
        record: [0; RECORD],
    };
    call.call[CALL_HAS_RECORD] = 1;
    call.call[CALL_ANSWERED] = 2;
    call.record[RECORD_STORED] = 64;
    for streak in call.record[RECORD_STREAKS..RECORD_RESULTS].chunks_mut(STREAK_WIDTH) {
        streak[1] = 1;
    }
    for result in call.record[RECORD_RESULTS..].chunks_mut(RESULT_WIDTH) {
        result[2] = 1;
    }
    call
}

/// Where bytes say less than the table: counts.
fn most(field: &Field) -> u64 {
    match (field.array, field.name) {
        (Array::Call, "number of mapping answers") => 2,
        (Array::Record, "number of stored signals") => 64,
        _ => field.most,
    }
}

/// Behind the tag of a node without an output no bytes stand.
fn is_left_out(field: &Field) -> bool {
    field.name.starts_with("node's output") && field.name.ends_with("behind nothing")
}

/// A number is read where its field holds it, at each place of each field.
#[test]
fn what_fields_hold() {
    for field in FIELDS.iter().filter(|field| !is_left_out(field)) {
        for place in field.places() {
            for number in [most(field), most(field) + 1] {
                let mut call = used();
                let numbers = match field.array {
                    Array::Call => &mut call.call[..],
                    Array::Record => &mut call.record[..],
                };
                field.set(numbers, place, number);
                let read = read_call(&write_call(&call), false);
                assert_eq!(
                    read.is_some(),
                    number <= most(field),
                    "{}, {number} at {place}",
                    field.key()
                );
            }
        }
    }
}

/// Of a run that is written every number is tested, those that no bytes have too.
#[test]
fn unfit_runs() {
    for field in FIELDS.iter().filter(|field| field.array == Array::Record) {
        for place in field.places() {
            let mut run = [0; RECORD];
            field.set(&mut run, place, field.most + 1);
            assert_eq!(write_run(&run), Err(Unwritten::Unfit), "{place}");
        }
    }
}

/// A count above its capacity is bad, also where all its rows are there.
#[test]
fn counted_rows() {
    let mut call = used();
    let whole = write_call(&call).len();
    call.call[CALL_ANSWERED] = 3;
    assert_eq!(write_call(&call).len(), whole + MAPPING_WIDTH);
    assert!(read_call(&write_call(&call), false).is_none());
}

#[test]
fn calls_and_answers() {
    for case in joint::cases() {
        let state = case.call.state.as_ref().map(numbers::record);
        let call = Call {
            sheet: Some(numbers::sheet(&case.call.workflow)),
            call: numbers::call(&case.call).try_into().unwrap(),
            record: state.map_or([0; RECORD], |state| state.try_into().unwrap()),
        };
        let bytes = write_call(&call);
        assert!(read_call(&bytes, true) == Some(call), "{}", case.name);
        assert!(read_call(&bytes[..bytes.len() - 1], true).is_none());
        let answer = numbers::answer(&case.expected).unwrap();
        let answer: [u64; ANSWER] = answer.try_into().unwrap();
        match answer[ANSWER_KIND] as usize {
            REFUSAL => assert_eq!(write_answer(&answer), None),
            _ => {
                let bytes = write_answer(&answer).unwrap();
                assert_eq!(*read_answer(&bytes).unwrap(), answer);
            }
        }
    }
}
