//! Sheets, runs, events, calls and answers as bytes: docs/BYTES.md read a second time, over the arrays of docs/NUMBERS.md.
//!
//! What stands where, and what each field holds, is said once (`form`); a reader and a writer go along it.

mod form;
pub mod functions;

use calls::layout::{ANSWER, CALL, CALL_SEQUENCE, EVENT, RECORD, SHEET};
use calls::numbers;

/// What goes along a form, one field after the other, and holds each to the most that it can be.
trait Pass {
    /// None where there is no such number.
    fn field(&mut self, number: &mut u64, most: u64) -> Option<()>;

    /// So many numbers that a count says and that have no place.
    fn beyond(&mut self, _: u64) {}
}

/// Stands on bytes and moves along them.
struct Reader<'a> {
    bytes: &'a [u8],
}

impl Reader<'_> {
    fn byte(&mut self) -> Option<u8> {
        let (first, rest) = self.bytes.split_first()?;
        self.bytes = rest;
        Some(*first)
    }

    /// Ten groups of seven bits at most, the lowest first, in the shortest form.
    fn number(&mut self) -> Option<u64> {
        let mut number: u128 = 0;
        for place in 0..10 {
            let byte = self.byte()?;
            number |= u128::from(byte & 0x7f) << (7 * place);
            if byte & 0x80 == 0 {
                let shortest = byte != 0 || place == 0;
                return u64::try_from(number).ok().filter(|_| shortest);
            }
        }
        None
    }
}

impl Pass for Reader<'_> {
    fn field(&mut self, number: &mut u64, most: u64) -> Option<()> {
        *number = self.number().filter(|number| *number <= most)?;
        Some(())
    }
}

/// Writes what a field holds; unheld, it writes other numbers too, and zeros for rows that have no place.
#[derive(Default)]
struct Writer {
    bytes: Vec<u8>,
    unheld: bool,
}

impl Pass for Writer {
    fn field(&mut self, number: &mut u64, most: u64) -> Option<()> {
        if *number > most && !self.unheld {
            return None;
        }
        write_number(&mut self.bytes, *number);
        Some(())
    }

    fn beyond(&mut self, numbers: u64) {
        if self.unheld {
            let zeros = numbers.min(MOST_BEYOND) as usize;
            self.bytes.resize(self.bytes.len() + zeros, 0);
        }
    }
}

/// Zeros that are written at most for one count.
const MOST_BEYOND: u64 = 100;

pub fn write_number(bytes: &mut Vec<u8>, number: u64) {
    let mut left = number;
    while left >> 7 != 0 {
        bytes.push(left as u8 | 0x80);
        left >>= 7;
    }
    bytes.push(left as u8);
}

/// What is read ends where the bytes end.
fn whole<T>(bytes: &[u8], read: impl FnOnce(&mut Reader) -> Option<T>) -> Option<T> {
    let mut reader = Reader { bytes };
    let read = read(&mut reader)?;
    reader.bytes.is_empty().then_some(read)
}

/// The bytes of what a form says.
fn written(go: impl FnOnce(&mut Writer) -> Option<()>) -> Option<Vec<u8>> {
    let mut writer = Writer::default();
    go(&mut writer)?;
    Some(writer.bytes)
}

/// None for bad bytes.
pub fn read_sheet(bytes: &[u8]) -> Option<Box<[u32; SHEET]>> {
    let mut sheet = Box::new([0; SHEET]);
    whole(bytes, |reader| form::sheet(reader, &mut sheet))?;
    Some(sheet)
}

/// None where a count is above its capacity or an unused slot isn't zero: the bytes would be another sheet's.
pub fn write_sheet(sheet: &[u32; SHEET]) -> Option<Vec<u8>> {
    let bytes = written(|writer| form::sheet(writer, &mut sheet.clone()))?;
    (*read_sheet(&bytes)? == *sheet).then_some(bytes)
}

/// None for bad bytes.
pub fn read_run(bytes: &[u8]) -> Option<[u64; RECORD]> {
    let mut run = [0; RECORD];
    whole(bytes, |reader| form::run(reader, &mut run))?;
    Some(run)
}

/// Why a run is not written.
#[derive(Debug, Clone, Copy, PartialEq, Eq)]
pub enum Unwritten {
    /// A number that its field can't hold, in a slot that is used or not.
    Unfit,
    /// Over 64 stored signals, or an unused slot that isn't zero.
    Untidy,
}

pub fn write_run(run: &[u64; RECORD]) -> Result<Vec<u8>, Unwritten> {
    if numbers::state_of(run).is_none() {
        return Err(Unwritten::Unfit);
    }
    let bytes = written(|writer| form::run(writer, &mut run.clone()));
    let read_back = |bytes: &Vec<u8>| read_run(bytes) == Some(*run);
    bytes.filter(read_back).ok_or(Unwritten::Untidy)
}

/// None for bad bytes.
pub fn read_event(bytes: &[u8]) -> Option<[u64; EVENT]> {
    let mut call = [0; CALL];
    whole(bytes, |reader| form::event(reader, &mut call))?;
    Some(call[CALL_SEQUENCE..][..EVENT].try_into().expect("an event"))
}

/// None where there is a number that its field can't hold.
pub fn write_event(event: &[u64; EVENT]) -> Option<Vec<u8>> {
    let mut call = [0; CALL];
    call[CALL_SEQUENCE..][..EVENT].copy_from_slice(event);
    written(|writer| form::event(writer, &mut call))
}

/// A call's numbers; the record is zero where it has none.
#[derive(Clone, PartialEq, Eq)]
pub struct Call {
    /// None where it goes on a sheet that is lent.
    pub sheet: Option<Box<[u32; SHEET]>>,
    pub call: [u64; CALL],
    pub record: [u64; RECORD],
}

/// None for bad bytes.
pub fn read_call(bytes: &[u8], with_sheet: bool) -> Option<Call> {
    let mut call = Call {
        sheet: with_sheet.then(|| Box::new([0; SHEET])),
        call: [0; CALL],
        record: [0; RECORD],
    };
    whole(bytes, |reader| form::call(reader, &mut call))?;
    Some(call)
}

/// A call's bytes. Where a number is above what its field holds it is written all the same, and where it is a count its rows
/// too.
pub fn write_call(call: &Call) -> Vec<u8> {
    any(|writer| form::call(writer, &mut call.clone()))
}

/// The same of a sheet, and of a run.
pub fn write_any_sheet(sheet: &[u32; SHEET]) -> Vec<u8> {
    any(|writer| form::sheet(writer, &mut sheet.clone()))
}

pub fn write_any_run(run: &[u64; RECORD]) -> Vec<u8> {
    any(|writer| form::run(writer, &mut run.clone()))
}

fn any(go: impl FnOnce(&mut Writer) -> Option<()>) -> Vec<u8> {
    let mut writer = Writer {
        unheld: true,
        ..Writer::default()
    };
    go(&mut writer).expect("any number is written");
    writer.bytes
}

/// The bytes of an answer that is no refusal. None where the numbers are none that a call answers with.
pub fn write_answer(answer: &[u64; ANSWER]) -> Option<Vec<u8>> {
    written(|writer| form::answer(writer, &mut answer.clone()))
}

/// Back to an answer's numbers. None for bytes that are none of one.
pub fn read_answer(bytes: &[u8]) -> Option<Box<[u64; ANSWER]>> {
    let mut answer = Box::new([0; ANSWER]);
    whole(bytes, |reader| form::answer(reader, &mut answer))?;
    Some(answer)
}
