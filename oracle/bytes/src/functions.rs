//! The functions of bytes as include/kuxhoveza.h has them.

use calls::layout::*;

use crate::{Call, Unwritten};

/// A call in numbers, as the header has it.
pub type Transition = fn(&[u32], &[u64], &[u64], &mut [u64]) -> u32;

const BAD_FORM: usize = 20;
const BAD_RUN: usize = 25;

/// What a function returns.
pub fn said(number: usize, rest: u64) -> u64 {
    number as u64 | rest << 32
}

fn refused(number: usize) -> u64 {
    said(number, NONE as u64)
}

/// Into the buffer's first bytes, if they have room.
fn put(bytes: &[u8], buffer: &mut [u8]) -> u64 {
    match buffer.get_mut(..bytes.len()) {
        None => refused(SHORT_BYTES),
        Some(first) => {
            first.copy_from_slice(bytes);
            said(0, bytes.len() as u64)
        }
    }
}

/// Into a buffer of the same length, if there is something.
fn take<T: Copy>(numbers: Option<&[T]>, buffer: &mut [T]) -> u64 {
    match numbers {
        None => refused(BAD_BYTES),
        Some(numbers) => {
            buffer.copy_from_slice(numbers);
            0
        }
    }
}

pub fn write_sheet(sheet: &[u32], buffer: &mut [u8]) -> u64 {
    let Ok(sheet) = sheet.try_into() else {
        return said(BAD_SHEET_LENGTH, 0);
    };
    match crate::write_sheet(sheet) {
        None => refused(BAD_FORM),
        Some(bytes) => put(&bytes, buffer),
    }
}

pub fn read_sheet(bytes: &[u8], sheet: &mut [u32]) -> u64 {
    if sheet.len() != SHEET {
        return said(BAD_SHEET_LENGTH, 0);
    }
    take(crate::read_sheet(bytes).as_ref().map(|it| &it[..]), sheet)
}

pub fn write_run(run: &[u64], buffer: &mut [u8]) -> u64 {
    let Ok(run) = run.try_into() else {
        return said(BAD_RECORD_LENGTH, 0);
    };
    match crate::write_run(run) {
        Err(Unwritten::Unfit) => said(BAD_RECORD, 0),
        Err(Unwritten::Untidy) => refused(BAD_RUN),
        Ok(bytes) => put(&bytes, buffer),
    }
}

pub fn read_run(bytes: &[u8], run: &mut [u64]) -> u64 {
    if run.len() != RECORD {
        return said(BAD_RECORD_LENGTH, 0);
    }
    take(crate::read_run(bytes).as_ref().map(|it| &it[..]), run)
}

pub fn write_event(event: &[u64], buffer: &mut [u8]) -> u64 {
    let Ok(event) = event.try_into() else {
        return said(BAD_CALL_LENGTH, 0);
    };
    match crate::write_event(event) {
        None => said(BAD_CALL, 0),
        Some(bytes) => put(&bytes, buffer),
    }
}

pub fn read_event(bytes: &[u8], event: &mut [u64]) -> u64 {
    if event.len() != EVENT {
        return said(BAD_CALL_LENGTH, 0);
    }
    take(crate::read_event(bytes).as_ref().map(|it| &it[..]), event)
}

/// On a call in numbers that is given.
pub fn call(transition: Transition, bytes: &[u8], buffer: &mut [u8]) -> u64 {
    match crate::read_call(bytes, true) {
        None => refused(BAD_BYTES),
        Some(call) => {
            let sheet = call.sheet.as_ref().expect("it was read");
            answered(transition, &sheet[..], &call, buffer)
        }
    }
}

pub fn call_on(transition: Transition, sheet: &[u32], bytes: &[u8], buffer: &mut [u8]) -> u64 {
    if sheet.len() != SHEET {
        return said(BAD_SHEET_LENGTH, 0);
    }
    match crate::read_call(bytes, false) {
        None => refused(BAD_BYTES),
        Some(call) => answered(transition, sheet, &call, buffer),
    }
}

/// The answer's numbers to a call that was read, on its sheet.
pub fn answer(transition: Transition, sheet: &[u32], call: &Call) -> [u64; ANSWER] {
    let mut answer = [0; ANSWER];
    let receipt = transition(sheet, &call.call, &call.record, &mut answer);
    assert_eq!(receipt as usize, WRITTEN, "every number fits its field");
    answer
}

fn answered(transition: Transition, sheet: &[u32], call: &Call, buffer: &mut [u8]) -> u64 {
    let answer = answer(transition, sheet, call);
    if answer[ANSWER_KIND] == REFUSAL as u64 {
        let number = answer[ANSWER_REFUSAL_NUMBER] as usize;
        return said(number, answer[ANSWER_REFUSAL_ITEM]);
    }
    put(&crate::write_answer(&answer).expect("an answer"), buffer)
}
