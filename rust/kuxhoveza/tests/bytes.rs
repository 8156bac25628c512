//! Bytes through the library: Joint A written, read back and called, and what is said of bytes and numbers that are
//! refused.

use calls::numbers;
use generator::joint;
use kuxhoveza::bytes::{self, Event, Fault};
use kuxhoveza::{layout, raw, transition, Answer, Call, Record, Refusal, Sheet};

const BEFORE: u8 = 0xee;

fn refused(number: usize, item: u32) -> Fault {
    Fault::Refused(Refusal {
        number: number as u32,
        item,
    })
}

fn put(bytes: &mut Vec<u8>, mut number: u64) {
    while number >= 128 {
        bytes.push((number % 128 + 128) as u8);
        number /= 128;
    }
    bytes.push(number as u8);
}

/// The bytes are written where they have room, and nothing where they haven't. Gives them.
fn written(write: impl Fn(&mut [u8]) -> Result<usize, Fault>) -> Vec<u8> {
    let mut all = vec![BEFORE; layout::CALL_BYTES];
    let size = write(&mut all).unwrap();
    assert!(all[size..].iter().all(|byte| *byte == BEFORE));
    all.truncate(size);
    for length in 0..size {
        let mut buffer = vec![BEFORE; length];
        let short = refused(layout::SHORT_BYTES, 255);
        assert_eq!(write(&mut buffer), Err(short));
        assert!(buffer.iter().all(|byte| *byte == BEFORE));
    }
    let mut buffer = vec![BEFORE; size];
    assert_eq!(write(&mut buffer), Ok(size));
    assert_eq!(buffer, all);
    all
}

/// Every cut is bad, and a byte more, and the first number in a longer form.
fn damaged<T: std::fmt::Debug + PartialEq>(bytes: &[u8], read: impl Fn(&[u8]) -> Result<T, Fault>) {
    let bad = Err(refused(layout::BAD_BYTES, 255));
    for length in 0..bytes.len() {
        assert_eq!(read(&bytes[..length]), bad);
    }
    assert_eq!(read(&[bytes, &[0]].concat()), bad);
    let end = bytes.iter().position(|byte| *byte < 128).unwrap();
    let longer = [&bytes[..end], &[bytes[end] + 128, 0], &bytes[end + 1..]];
    assert_eq!(read(&longer.concat()), bad);
}

/// A call's numbers.
struct Made {
    sheet: Sheet,
    call: Call,
    record: Option<Record>,
}

impl Made {
    fn of(call: &calls::Call) -> Made {
        let record = call.state.as_ref().map(numbers::record);
        Made {
            sheet: *numbers::sheet(&call.workflow),
            call: numbers::call(call).try_into().unwrap(),
            record: record.map(|record| Record::from_numbers(record.try_into().unwrap())),
        }
    }

    fn event(&self) -> Event {
        let event = &self.call[layout::CALL_SEQUENCE..][..layout::EVENT];
        event.try_into().unwrap()
    }

    /// The call's bytes, with its sheet or without.
    fn bytes(&self, with_sheet: bool) -> Vec<u8> {
        let mut all = Vec::new();
        for number in &self.call[..layout::CALL_HAS_RECORD] {
            put(&mut all, *number);
        }
        if with_sheet {
            all.extend(written(|bytes| bytes::write_sheet(&self.sheet, bytes)));
        }
        put(&mut all, self.record.is_some().into());
        if let Some(record) = &self.record {
            all.extend(written(|bytes| bytes::write_run(record, bytes)));
        }
        all.extend(written(|bytes| bytes::write_event(&self.event(), bytes)));
        let answered = self.call[layout::CALL_ANSWERED];
        put(&mut all, answered);
        let numbers = answered as usize * layout::MAPPING_WIDTH;
        for number in &self.call[layout::CALL_MAPPINGS..][..numbers] {
            put(&mut all, *number);
        }
        all
    }
}

/// The answer's bytes, from its numbers.
fn answer_bytes(answer: &calls::Answer) -> Vec<u8> {
    let numbers = numbers::answer(answer).unwrap();
    let rows =
        |count: usize, first: usize, width: usize| first..first + width * numbers[count] as usize;
    let (notes, endings) = match answer {
        calls::Answer::Next { .. } => (
            rows(
                layout::ANSWER_NOTED,
                layout::ANSWER_NOTES,
                layout::NOTE_WIDTH,
            ),
            rows(
                layout::ANSWER_ENDED,
                layout::ANSWER_ENDINGS,
                layout::ENDING_WIDTH,
            ),
        ),
        _ => (4..4, 0..0),
    };
    let mut all = Vec::new();
    for number in &numbers[..notes.start] {
        put(&mut all, *number);
    }
    for number in numbers[notes].iter().chain(&numbers[endings]) {
        put(&mut all, *number);
    }
    let run = numbers[layout::ANSWER_RECORD..].try_into().unwrap();
    let run = Record::from_numbers(run);
    all.extend(written(|bytes| bytes::write_run(&run, bytes)));
    all
}

#[test]
fn joint_a() {
    for case in joint::cases() {
        let made = Made::of(&case.call);
        let (whole, rest) = (made.bytes(true), made.bytes(false));
        let call = |buffer: &mut [u8]| bytes::call(&whole, buffer);
        let call_on = |buffer: &mut [u8]| bytes::call_on(&made.sheet, &rest, buffer);
        if let calls::Answer::Refused { number, item } = case.expected {
            let refusal = refused(number as usize, item);
            let mut buffer = [BEFORE; 9];
            for length in [0, 9] {
                assert_eq!(call(&mut buffer[..length]), Err(refusal), "{}", case.name);
                assert_eq!(call_on(&mut buffer[..length]), Err(refusal));
            }
            assert_eq!(buffer, [BEFORE; 9]);
            continue;
        }
        let expected = answer_bytes(&case.expected);
        assert_eq!(written(call), expected, "{}", case.name);
        assert_eq!(written(call_on), expected, "{}", case.name);
        damaged(&whole, |bytes| {
            bytes::call(bytes, &mut [0; layout::ANSWER_BYTES])
        });
        damaged(&rest, |bytes| {
            bytes::call_on(&made.sheet, bytes, &mut [0; layout::ANSWER_BYTES])
        });
    }
}

/// What is stored comes back, and a run goes from an answer into the next call as it is.
#[test]
fn stored() {
    let start = Made::of(&joint::call(&joint::sheet(), None, joint::start()));
    let sheet = written(|bytes| bytes::write_sheet(&start.sheet, bytes));
    assert_eq!(bytes::read_sheet(&sheet), Ok(start.sheet));
    damaged(&sheet, bytes::read_sheet);
    let event = written(|bytes| bytes::write_event(&start.event(), bytes));
    assert_eq!(bytes::read_event(&event), Ok(start.event()));
    damaged(&event, bytes::read_event);

    let Ok(Answer::Next { record, .. }) = transition(&start.sheet, &start.call, None) else {
        panic!("a start is accepted");
    };
    let run = written(|bytes| bytes::write_run(&record, bytes));
    let answer = written(|buffer| bytes::call(&start.bytes(true), buffer));
    assert_eq!(bytes::run_to_keep(&answer), Some(&run[..]));
    assert_eq!(bytes::read_run(&run), Ok(record));
    damaged(&run, bytes::read_run);
}

#[test]
fn a_want_has_no_run_to_keep() {
    let mut start = joint::call(&joint::sheet(), None, joint::start());
    start.mappings.count = 0;
    let answer = written(|buffer| bytes::call(&Made::of(&start).bytes(true), buffer));
    assert_eq!(answer[0], layout::WANT as u8);
    assert_eq!(bytes::run_to_keep(&answer), None);
    for cut in 0..13 {
        assert_eq!(bytes::run_to_keep(&[1; 13][..cut]), None);
    }
}

/// The run behind notes and endings.
#[test]
fn a_run_behind_rows() {
    for case in joint::cases() {
        let calls::Answer::Next { state, .. } = &case.expected else {
            continue;
        };
        let record = Record::from_numbers(numbers::record(state).try_into().unwrap());
        let run = written(|bytes| bytes::write_run(&record, bytes));
        let answer = answer_bytes(&case.expected);
        assert_eq!(bytes::run_to_keep(&answer), Some(&run[..]), "{}", case.name);
    }
}

#[test]
fn not_written() {
    let start = Made::of(&joint::call(&joint::sheet(), None, joint::start()));
    let mut buffer = vec![BEFORE; layout::SHEET_BYTES];
    for (offset, number) in [
        (layout::SHEET_NODE_COUNT, 65),
        (layout::SHEET_NODE_COUNT, u32::MAX),
        (layout::SHEET_ROUTE_COUNT, 513),
        (layout::SHEET_NODE_KIND + 4, 1),
        (layout::SHEET - 1, 1),
    ] {
        let mut sheet = start.sheet;
        sheet[offset] = number;
        let said = bytes::write_sheet(&sheet, &mut buffer);
        assert_eq!(said, Err(refused(20, 255)), "{number} at {offset}");
        assert_eq!(bytes::write_sheet(&sheet, &mut []), said);
    }
    for (offset, number, fault) in [
        (layout::RECORD_STORED, 65, refused(25, 255)),
        (layout::RECORD_SIGNALS, 1, refused(25, 255)),
        (layout::RECORD_STREAKS, 1, refused(25, 255)),
        (layout::RECORD_RESULTS + 1, 1, refused(25, 255)),
        (layout::RECORD_STORED, 1 << 32, Fault::Number),
        (layout::RECORD_RESULTS + 2, 3, Fault::Number),
        (layout::RECORD_RESULTS + 3, 1, Fault::Number),
    ] {
        let mut numbers = [0; layout::RECORD];
        numbers[offset] = number;
        let record = Record::from_numbers(numbers);
        let said = bytes::write_run(&record, &mut buffer);
        assert_eq!(said, Err(fault), "{number} at {offset}");
        assert_eq!(bytes::write_run(&record, &mut []), said);
    }
    let mut event = start.event();
    event[layout::CALL_SIGNAL - layout::CALL_SEQUENCE] = 256;
    let said = bytes::write_event(&event, &mut buffer);
    assert_eq!(said, Err(Fault::Number));
    assert!(buffer.iter().all(|byte| *byte == BEFORE));
}

/// Arrays of other lengths than the layout's, whatever else is wrong.
#[test]
fn lengths() {
    let of = |length: usize| [0, 1, length / 2, length - 1, length + 1];
    let mut bytes = [BEFORE; 3];
    for length in of(layout::SHEET) {
        let mut sheet = vec![7; length];
        let due = (layout::BAD_SHEET_LENGTH as u32, 0);
        assert_eq!(raw::parts(raw::write_sheet(&sheet, &mut bytes)), due);
        assert_eq!(raw::parts(raw::read_sheet(&bytes, &mut sheet)), due);
        assert_eq!(raw::parts(raw::call_on(&sheet, &[], &mut bytes)), due);
        assert!(sheet.iter().all(|number| *number == 7));
    }
    for length in of(layout::RECORD) {
        let mut record = vec![7; length];
        let due = (layout::BAD_RECORD_LENGTH as u32, 0);
        assert_eq!(raw::parts(raw::write_run(&record, &mut bytes)), due);
        assert_eq!(raw::parts(raw::read_run(&bytes, &mut record)), due);
        assert!(record.iter().all(|number| *number == 7));
    }
    for length in of(layout::EVENT) {
        let mut event = vec![7; length];
        let due = (layout::BAD_CALL_LENGTH as u32, 0);
        assert_eq!(raw::parts(raw::write_event(&event, &mut bytes)), due);
        assert_eq!(raw::parts(raw::read_event(&bytes, &mut event)), due);
        assert!(event.iter().all(|number| *number == 7));
    }
    assert_eq!(bytes, [BEFORE; 3]);
}
