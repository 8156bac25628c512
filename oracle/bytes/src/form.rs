//! In which order the numbers stand, which are left out, and what each field holds.

use calls::layout::*;

use crate::{Call, Pass};

const LONG: u64 = u64::MAX;
const SMALL: u64 = u32::MAX as u64;
const NAME: u64 = 255;
const CODE: u64 = 65535;
const MARK: u64 = 1;
const TAG: u64 = 2;

/// Numbers that stand side by side, with the most that each holds.
fn fields(pass: &mut impl Pass, numbers: &mut [u64], most: &[u64]) -> Option<()> {
    for (number, most) in numbers.iter_mut().zip(most) {
        pass.field(number, *most)?;
    }
    Some(())
}

/// As many rows as a count says.
fn rows<const WIDTH: usize>(
    pass: &mut impl Pass,
    numbers: &mut [u64],
    count: u64,
    most: [u64; WIDTH],
) -> Option<()> {
    let capacity = (numbers.len() / WIDTH) as u64;
    for (_, row) in (0..count).zip(numbers.chunks_exact_mut(WIDTH)) {
        fields(pass, row, &most)?;
    }
    pass.beyond(count.saturating_sub(capacity).saturating_mul(WIDTH as u64));
    Some(())
}

fn number_32(pass: &mut impl Pass, number: &mut u32, most: u64) -> Option<()> {
    let mut wide = u64::from(*number);
    pass.field(&mut wide, most)?;
    *number = u32::try_from(wide).ok()?;
    Some(())
}

pub fn sheet(pass: &mut impl Pass, sheet: &mut [u32; SHEET]) -> Option<()> {
    for place in [
        SHEET_FORMAT,
        SHEET_START,
        SHEET_MAX_VISITS_PER_NODE,
        SHEET_MAX_ACTIVATIONS,
    ] {
        number_32(pass, &mut sheet[place], SMALL)?;
    }
    for (place, capacity) in [
        (SHEET_NODE_COUNT, NODES),
        (SHEET_ROUTE_COUNT, ROUTES),
        (SHEET_LIMIT_COUNT, LIMITS),
        (SHEET_ACTION_COUNT, ACTIONS),
        (SHEET_DECLARED_COUNT, DECLARED),
    ] {
        number_32(pass, &mut sheet[place], capacity as u64)?;
    }
    for (first, count, capacity) in [
        (SHEET_NODE_KIND, SHEET_NODE_COUNT, NODES),
        (SHEET_NODE_ACTION, SHEET_NODE_COUNT, NODES),
        (SHEET_NODE_HAS_PARAMS, SHEET_NODE_COUNT, NODES),
        (SHEET_NODE_SIGNAL, SHEET_NODE_COUNT, NODES),
        (SHEET_NODE_CODE, SHEET_NODE_COUNT, NODES),
        (SHEET_NODE_DETAIL, SHEET_NODE_COUNT, NODES),
        (SHEET_NODE_HAS_LIMITS, SHEET_NODE_COUNT, NODES),
        (SHEET_ROUTE_NODE, SHEET_ROUTE_COUNT, ROUTES),
        (SHEET_ROUTE_OUTCOME, SHEET_ROUTE_COUNT, ROUTES),
        (SHEET_ROUTE_TARGET, SHEET_ROUTE_COUNT, ROUTES),
        (SHEET_LIMIT_NODE, SHEET_LIMIT_COUNT, LIMITS),
        (SHEET_LIMIT_OUTCOME, SHEET_LIMIT_COUNT, LIMITS),
        (SHEET_LIMIT_LIMIT, SHEET_LIMIT_COUNT, LIMITS),
        (SHEET_ACTION_EFFECT, SHEET_ACTION_COUNT, ACTIONS),
        (SHEET_ACTION_MAX_ATTEMPTS, SHEET_ACTION_COUNT, ACTIONS),
        (SHEET_DECLARED_ACTION, SHEET_DECLARED_COUNT, DECLARED),
        (SHEET_DECLARED_OUTCOME, SHEET_DECLARED_COUNT, DECLARED),
    ] {
        let count = sheet[count] as usize;
        for number in &mut sheet[first..][..capacity.min(count)] {
            number_32(pass, number, SMALL)?;
        }
        pass.beyond(count.saturating_sub(capacity) as u64);
    }
    Some(())
}

/// What an error's code, node and detail hold, behind its mark or tag.
const ERROR: [u64; 3] = [CODE, NAME, SMALL];
const NOTHING: [u64; 3] = [0, 0, 0];
const HANDLE: [u64; 3] = [SMALL, 0, 0];

fn kept_error(pass: &mut impl Pass, row: &mut [u64]) -> Option<()> {
    pass.field(&mut row[0], MARK)?;
    let behind = match row[0] {
        0 => NOTHING,
        _ => ERROR,
    };
    fields(pass, &mut row[1..], &behind)
}

/// The three numbers behind an output's tag.
fn behind_tag(pass: &mut impl Pass, tag: u64, row: &mut [u64]) -> Option<()> {
    let most = match tag {
        0 => NOTHING,
        1 => HANDLE,
        _ => ERROR,
    };
    fields(pass, row, &most)
}

pub fn run(pass: &mut impl Pass, run: &mut [u64; RECORD]) -> Option<()> {
    for (place, most) in [
        (RECORD_STATUS, SMALL),
        (RECORD_INPUT, SMALL),
        (RECORD_ACTIVATIONS, SMALL),
        (RECORD_LAST_SEQUENCE, LONG),
        (RECORD_LAST_ACCEPTED_AT, LONG),
        (RECORD_POSITION_NODE, NAME),
        (RECORD_POSITION_VISIT, SMALL),
        (RECORD_PHASE, SMALL),
        (RECORD_INVOCATION_NODE, NAME),
        (RECORD_INVOCATION_VISIT, SMALL),
        (RECORD_INVOCATION_ACTION, NAME),
        (RECORD_INVOCATION_ATTEMPT, SMALL),
        (RECORD_INVOCATION_INPUT, SMALL),
    ] {
        pass.field(&mut run[place], most)?;
    }
    kept_error(pass, &mut run[RECORD_ERROR..][..ERROR_WIDTH])?;
    pass.field(&mut run[RECORD_RESULT], TAG)?;
    let (tag, behind) = run[RECORD_RESULT..][..OUTPUT_WIDTH].split_at_mut(1);
    behind_tag(pass, tag[0], behind)?;
    pass.field(&mut run[RECORD_STORED], STORE as u64)?;
    let stored = run[RECORD_STORED];
    let signals = &mut run[RECORD_SIGNALS..RECORD_VISITS];
    rows(pass, signals, stored, [LONG, SMALL, NAME, NAME, SMALL])?;
    for visits in &mut run[RECORD_VISITS..][..NODES] {
        pass.field(visits, SMALL)?;
    }
    for node in 0..NODES {
        let streak = &mut run[RECORD_STREAKS + STREAK_WIDTH * node..][..STREAK_WIDTH];
        pass.field(&mut streak[1], SMALL)?;
        if streak[1] != 0 {
            pass.field(&mut streak[0], NAME)?;
        }
    }
    for node in 0..NODES {
        let result = &mut run[RECORD_RESULTS + RESULT_WIDTH * node..][..RESULT_WIDTH];
        pass.field(&mut result[2], TAG)?;
        if result[2] != 0 {
            pass.field(&mut result[0], SMALL)?;
            pass.field(&mut result[1], NAME)?;
            let tag = result[2];
            behind_tag(pass, tag, &mut result[3..])?;
        }
    }
    Some(())
}

/// The event among a call's numbers.
pub fn event(pass: &mut impl Pass, call: &mut [u64; CALL]) -> Option<()> {
    for (place, most) in [
        (CALL_SEQUENCE, LONG),
        (CALL_ACCEPTED_AT, LONG),
        (CALL_EVENT_ID, SMALL),
        (CALL_KIND, SMALL),
        (CALL_INPUT, SMALL),
        (CALL_SIGNAL, NAME),
        (CALL_OUTCOME, NAME),
        (CALL_DATA, SMALL),
        (CALL_NODE, NAME),
        (CALL_VISIT, SMALL),
        (CALL_ATTEMPT, SMALL),
        (CALL_STATUS, SMALL),
        (CALL_OUTPUT, SMALL),
        (CALL_HAS_ERROR, MARK),
        (CALL_ERROR_CODE, CODE),
        (CALL_ERROR_DETAIL, SMALL),
        (CALL_RETRYABLE, MARK),
        (CALL_DELAY, LONG),
        (CALL_RESOLUTION, SMALL),
    ] {
        pass.field(&mut call[place], most)?;
    }
    Some(())
}

pub fn call(pass: &mut impl Pass, it: &mut Call) -> Option<()> {
    for place in [
        CALL_CEILING_NODES,
        CALL_CEILING_VISITS,
        CALL_CEILING_ACTIVATIONS,
        CALL_CEILING_ATTEMPTS,
        CALL_LIMIT_MICROSTEPS,
        CALL_LIMIT_COMMANDS,
        CALL_LIMIT_OPERATIONS,
    ] {
        pass.field(&mut it.call[place], SMALL)?;
    }
    if let Some(numbers) = &mut it.sheet {
        sheet(pass, numbers)?;
    }
    pass.field(&mut it.call[CALL_HAS_RECORD], MARK)?;
    if it.call[CALL_HAS_RECORD] != 0 {
        run(pass, &mut it.record)?;
    }
    event(pass, &mut it.call)?;
    pass.field(&mut it.call[CALL_ANSWERED], MAPPINGS as u64)?;
    let answered = it.call[CALL_ANSWERED];
    let most = [SMALL, SMALL, CODE, SMALL, SMALL];
    rows(pass, &mut it.call[CALL_MAPPINGS..], answered, most)
}

/// A next record or a want.
pub fn answer(pass: &mut impl Pass, answer: &mut [u64; ANSWER]) -> Option<()> {
    pass.field(&mut answer[ANSWER_KIND], WANT as u64)?;
    match answer[ANSWER_KIND] as usize {
        NEXT => next(pass, answer)?,
        WANT => {
            for place in [ANSWER_WANT_NODE, ANSWER_WANT_FIELD, ANSWER_WANT_FROM] {
                pass.field(&mut answer[place], NAME)?;
            }
        }
        _ => return None,
    }
    let record = &mut answer[ANSWER_RECORD..];
    run(pass, record.try_into().expect("the record ends an answer"))
}

fn next(pass: &mut impl Pass, answer: &mut [u64; ANSWER]) -> Option<()> {
    for (place, most) in [
        (ANSWER_MICROSTEPS, SMALL),
        (ANSWER_ORDER, 2),
        (ANSWER_ORDER_NODE, NAME),
        (ANSWER_ORDER_VISIT, SMALL),
        (ANSWER_ORDER_ACTION, NAME),
        (ANSWER_ORDER_ATTEMPT, SMALL),
        (ANSWER_ORDER_NOT_BEFORE, LONG),
        (ANSWER_ORDER_INPUT, SMALL),
        (ANSWER_ORDER_HAS_PARAMS, MARK),
        (ANSWER_ORDER_PARAMS, SMALL),
        (ANSWER_NOTED, NOTES as u64),
        (ANSWER_ENDED, ENDINGS as u64),
    ] {
        pass.field(&mut answer[place], most)?;
    }
    let [noted, ended] = [ANSWER_NOTED, ANSWER_ENDED].map(|place| answer[place]);
    let notes = &mut answer[ANSWER_NOTES..ANSWER_ENDINGS];
    rows(pass, notes, noted, [SMALL; NOTE_WIDTH])?;
    let endings = &mut answer[ANSWER_ENDINGS..ANSWER_RECORD];
    rows(pass, endings, ended, [LONG, SMALL])
}
