//! Sheets, runs and events as bytes, for storing them, and calls in bytes: docs/BYTES.md has the format.
//!
//! `layout::SHEET_BYTES` and its like are buffers that are never too short.
//!
//! ```no_run
//! use kuxhoveza::{bytes, layout, Sheet};
//!
//! /// Makes a call without its sheet, and stores the run of an answer that has one to keep.
//! fn step(sheet: &Sheet, call: &[u8], store: &mut dyn FnMut(&[u8])) -> Result<(), bytes::Fault> {
//!     let mut buffer = [0; layout::ANSWER_BYTES];
//!     let size = bytes::call_on(sheet, call, &mut buffer)?;
//!     if let Some(run) = bytes::run_to_keep(&buffer[..size]) {
//!         store(run);
//!     }
//!     Ok(())
//! }
//! ```

use crate::{layout, layout_matches, raw, Record, Refusal, Sheet};

/// An event's numbers: those of a call from `layout::CALL_SEQUENCE` on.
pub type Event = [u64; layout::EVENT];

/// Why nothing was written.
#[derive(Debug, Clone, Copy, PartialEq, Eq)]
pub enum Fault {
    /// A number of the run or the event that its field can't hold.
    Number,
    /// Of a write, 20 or 25 with item 255; of a call, its refusals; `layout::BAD_BYTES` and `layout::SHORT_BYTES`.
    Refused(Refusal),
    /// The library that is linked has another layout than this crate (`layout_matches`).
    Layout,
}

/// The size that a function of bytes tells. The number `unfit`, where there is one, is that of a number that its field
/// can't hold, and `length` that of an array of another length, which can't be but where the layout is another.
fn told(said: u64, unfit: Option<usize>, length: Option<usize>) -> Result<usize, Fault> {
    let (number, rest) = raw::parts(said);
    match number as usize {
        0 => Ok(rest as usize),
        number if Some(number) == unfit => Err(Fault::Number),
        number if Some(number) == length => Err(Fault::Layout),
        _ => Err(Fault::Refused(Refusal { number, item: rest })),
    }
}

fn one_layout() -> Result<(), Fault> {
    layout_matches().then_some(()).ok_or(Fault::Layout)
}

/// How many bytes it wrote: the buffer's first.
pub fn write_sheet(sheet: &Sheet, bytes: &mut [u8]) -> Result<usize, Fault> {
    one_layout()?;
    let said = raw::write_sheet(sheet, bytes);
    told(said, None, Some(layout::BAD_SHEET_LENGTH))
}

pub fn read_sheet(bytes: &[u8]) -> Result<Sheet, Fault> {
    one_layout()?;
    let mut sheet = [0; layout::SHEET];
    let said = raw::read_sheet(bytes, &mut sheet);
    told(said, None, Some(layout::BAD_SHEET_LENGTH))?;
    Ok(sheet)
}

/// How many bytes it wrote: the buffer's first.
pub fn write_run(record: &Record, bytes: &mut [u8]) -> Result<usize, Fault> {
    one_layout()?;
    let said = raw::write_run(record.numbers(), bytes);
    let (unfit, length) = (layout::BAD_RECORD, layout::BAD_RECORD_LENGTH);
    told(said, Some(unfit), Some(length))
}

/// For a host that loads what it stored: a run that was written, or that an accepted answer in bytes ended with.
pub fn read_run(bytes: &[u8]) -> Result<Record, Fault> {
    one_layout()?;
    let mut record = [0; layout::RECORD];
    let said = raw::read_run(bytes, &mut record);
    told(said, None, Some(layout::BAD_RECORD_LENGTH))?;
    Ok(Record::from_numbers(record))
}

/// How many bytes it wrote: the buffer's first.
pub fn write_event(event: &Event, bytes: &mut [u8]) -> Result<usize, Fault> {
    one_layout()?;
    let said = raw::write_event(event, bytes);
    let (unfit, length) = (layout::BAD_CALL, layout::BAD_CALL_LENGTH);
    told(said, Some(unfit), Some(length))
}

pub fn read_event(bytes: &[u8]) -> Result<Event, Fault> {
    one_layout()?;
    let mut event = [0; layout::EVENT];
    let said = raw::read_event(bytes, &mut event);
    told(said, None, Some(layout::BAD_CALL_LENGTH))?;
    Ok(event)
}

/// One call: how many bytes the answer has, the buffer's first. A refusal has none.
pub fn call(bytes: &[u8], answer: &mut [u8]) -> Result<usize, Fault> {
    one_layout()?;
    told(raw::call(bytes, answer), None, None)
}

/// The same on a sheet in numbers, with the bytes of a call without its sheet.
pub fn call_on(sheet: &Sheet, bytes: &[u8], answer: &mut [u8]) -> Result<usize, Fault> {
    one_layout()?;
    let said = raw::call_on(sheet, bytes, answer);
    told(said, None, Some(layout::BAD_SHEET_LENGTH))
}

/// The run that ends an accepted answer's bytes, for the next call. A want has none to keep.
pub fn run_to_keep(answer: &[u8]) -> Option<&[u8]> {
    let mut before = answer;
    let mut counts = [0; 2];
    for offset in 0..layout::ANSWER_NOTES {
        let (number, rest) = number(before)?;
        match offset {
            layout::ANSWER_KIND if number != layout::NEXT as u64 => return None,
            layout::ANSWER_NOTED => counts[0] = number,
            layout::ANSWER_ENDED => counts[1] = number,
            _ => {}
        }
        before = rest;
    }
    let [notes, endings] = counts;
    let rows = layout::NOTE_WIDTH as u64 * notes + layout::ENDING_WIDTH as u64 * endings;
    for _ in 0..rows {
        before = number(before)?.1;
    }
    Some(before)
}

/// The number that begins the bytes of an answer, and the bytes behind it.
fn number(bytes: &[u8]) -> Option<(u64, &[u8])> {
    let last = bytes.iter().position(|byte| *byte < 128)?;
    let (groups, rest) = bytes.split_at(last + 1);
    let number = groups
        .iter()
        .rev()
        .fold(0, |number, group| number << 7 | u64::from(group % 128));
    Some((number, rest))
}

#[cfg(test)]
mod tests {
    use super::*;

    #[test]
    fn what_is_told() {
        let refusal = |number, item| Err(Fault::Refused(Refusal { number, item }));
        assert_eq!(told(9 << 32, Some(3), Some(6)), Ok(9));
        assert_eq!(told(3, Some(3), Some(6)), Err(Fault::Number));
        assert_eq!(told(6, Some(3), Some(6)), Err(Fault::Layout));
        assert_eq!(told(255 << 32 | 25, Some(3), Some(6)), refusal(25, 255));
        // A call's refusals, whose numbers others use for lengths.
        assert_eq!(told(255 << 32 | 3, None, None), refusal(3, 255));
        assert_eq!(told(1 << 32 | 12, None, Some(4)), refusal(12, 1));
    }
}
