//! The plain reading behind the library's boundary: numbers in, numbers out (include/kuxhoveza.h).

pub mod bytes;

use calls::layout::{self, ANSWER, CALL, RECORD, SHEET, VERDICT};
use calls::numbers::{self, Carried};
use calls::{Ceilings, State};
use plain::{Decision, Kind, Lent, Sheet};

// The lists of a decision have their room in an answer.
const _: () = assert!(plain::LIST == layout::NOTES && plain::LIST == layout::ENDINGS);

pub fn layout_version() -> u32 {
    layout::LAYOUT_VERSION as u32
}

/// `WRITTEN` and the answer's numbers in the buffer; or, with the buffer as it was, why not: an array of another length
/// than the layout's, too short a buffer, a number of the call or of the record that its field can't hold. The sheet is
/// read into structs.
pub fn transition(sheet: &[u32], call: &[u64], record: &[u64], answer: &mut [u64]) -> u32 {
    let structs = |sheet: &_, state: Option<&_>, carried: &_, out: &mut _| {
        decide(&numbers::workflow_of(sheet), state, carried, out)
    };
    receipt(written(sheet, call, record, answer, structs))
}

/// The same, with the sheet read in place.
pub fn transition_in_place(sheet: &[u32], call: &[u64], record: &[u64], answer: &mut [u64]) -> u32 {
    let in_place = |sheet: &_, state: Option<&_>, carried: &_, out: &mut _| {
        decide(Lent(sheet), state, carried, out)
    };
    receipt(written(sheet, call, record, answer, in_place))
}

fn receipt(written: Result<(), usize>) -> u32 {
    match written {
        Ok(()) => layout::WRITTEN as u32,
        Err(why) => why as u32,
    }
}

#[inline(always)]
fn written(
    sheet: &[u32],
    call: &[u64],
    record: &[u64],
    answer: &mut [u64],
    decide: impl FnOnce(&[u32; SHEET], Option<&State>, &Carried, &mut Decision),
) -> Result<(), usize> {
    let sheet: &[u32; SHEET] = sheet.try_into().or(Err(layout::BAD_SHEET_LENGTH))?;
    let call: &[u64; CALL] = call.try_into().or(Err(layout::BAD_CALL_LENGTH))?;
    let record: &[u64; RECORD] = record.try_into().or(Err(layout::BAD_RECORD_LENGTH))?;
    let answer = answer.get_mut(..ANSWER).ok_or(layout::SHORT_BUFFER)?;
    let carried = numbers::carried_of(call).ok_or(layout::BAD_CALL)?;
    let state = match call[layout::CALL_HAS_RECORD] {
        0 => None,
        _ => Some(numbers::state_of(record).ok_or(layout::BAD_RECORD)?),
    };
    let mut out = Decision::new();
    decide(sheet, state.as_ref(), &carried, &mut out);
    write(answer, &out);
    Ok(())
}

fn decide(sheet: impl Sheet, state: Option<&State>, carried: &Carried, out: &mut Decision) {
    let (ceilings, limits, event, mappings) = carried;
    plain::transition(sheet, state, event, mappings, ceilings, limits, out);
}

fn write(answer: &mut [u64], out: &Decision) {
    answer.fill(0);
    match out.kind {
        Kind::Next => numbers::write_next(
            answer,
            &out.state,
            out.order.as_ref(),
            &out.notes[..out.note_count],
            &out.endings[..out.ending_count],
            out.microsteps,
        ),
        Kind::Wants { node, field, from } => {
            numbers::write_want(answer, node, field, from, &out.state)
        }
        Kind::Refused { number, item } => numbers::write_refusal(answer, number, item),
    }
}

/// `WRITTEN` and the refusal's number and item in the buffer, or 0 and 0; or, with the buffer as it was, why not: a sheet
/// of another length than the layout's, or too short a buffer. The sheet is read into structs.
pub fn verdict(sheet: &[u32], ceilings: &Ceilings, verdict: &mut [u32]) -> u32 {
    let structs = |sheet: &_| plain::verdict(&numbers::workflow_of(sheet), ceilings);
    receipt(judged(sheet, verdict, structs))
}

/// The same, with the sheet read in place.
pub fn verdict_in_place(sheet: &[u32], ceilings: &Ceilings, verdict: &mut [u32]) -> u32 {
    let in_place = |sheet: &_| plain::verdict(Lent(sheet), ceilings);
    receipt(judged(sheet, verdict, in_place))
}

fn judged(
    sheet: &[u32],
    verdict: &mut [u32],
    judge: impl FnOnce(&[u32; SHEET]) -> Option<(u32, u32)>,
) -> Result<(), usize> {
    let sheet: &[u32; SHEET] = sheet.try_into().or(Err(layout::BAD_SHEET_LENGTH))?;
    let verdict = verdict.get_mut(..VERDICT).ok_or(layout::SHORT_BUFFER)?;
    let (number, item) = judge(sheet).unwrap_or((0, 0));
    verdict[layout::VERDICT_NUMBER] = number;
    verdict[layout::VERDICT_ITEM] = item;
    Ok(())
}
