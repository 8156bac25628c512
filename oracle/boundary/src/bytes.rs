//! The functions of bytes in plain Rust (include/kuxhoveza.h, docs/BYTES.md), to be measured: sizes first, then the write; a
//! read goes into a local array and is copied where all of it is good. A call is the plain reading's, behind the boundary
//! of numbers.

use calls::layout::*;

const LONG: u64 = u64::MAX;
const SMALL: u64 = u32::MAX as u64;
const NAME: u64 = 255;
const CODE: u64 = 65535;
const MARK: u64 = 1;
const TAG: u64 = 2;

/// What the single numbers of a run hold, its kept error and its result as if they were there.
const RUN_HOLDS: [u64; RECORD_SIGNALS] = [
    SMALL, SMALL, SMALL, LONG, LONG, NAME, SMALL, SMALL, NAME, SMALL, NAME, SMALL, SMALL, MARK,
    CODE, NAME, SMALL, TAG, SMALL, SMALL, SMALL, SMALL,
];
const SIGNAL_HOLDS: [u64; SIGNAL_WIDTH] = [LONG, SMALL, NAME, NAME, SMALL];
const EVENT_HOLDS: [u64; EVENT] = [
    LONG, LONG, SMALL, SMALL, SMALL, NAME, NAME, SMALL, NAME, SMALL, SMALL, SMALL, SMALL, MARK,
    CODE, SMALL, MARK, LONG, SMALL,
];
const MAPPING_HOLDS: [u64; MAPPING_WIDTH] = [SMALL, SMALL, CODE, SMALL, SMALL];

/// The columns of a sheet: where each begins and what counts its rows.
const COLUMNS: [(usize, usize); 17] = [
    (SHEET_NODE_KIND, SHEET_NODE_COUNT),
    (SHEET_NODE_ACTION, SHEET_NODE_COUNT),
    (SHEET_NODE_HAS_PARAMS, SHEET_NODE_COUNT),
    (SHEET_NODE_SIGNAL, SHEET_NODE_COUNT),
    (SHEET_NODE_CODE, SHEET_NODE_COUNT),
    (SHEET_NODE_DETAIL, SHEET_NODE_COUNT),
    (SHEET_NODE_HAS_LIMITS, SHEET_NODE_COUNT),
    (SHEET_ROUTE_NODE, SHEET_ROUTE_COUNT),
    (SHEET_ROUTE_OUTCOME, SHEET_ROUTE_COUNT),
    (SHEET_ROUTE_TARGET, SHEET_ROUTE_COUNT),
    (SHEET_LIMIT_NODE, SHEET_LIMIT_COUNT),
    (SHEET_LIMIT_OUTCOME, SHEET_LIMIT_COUNT),
    (SHEET_LIMIT_LIMIT, SHEET_LIMIT_COUNT),
    (SHEET_ACTION_EFFECT, SHEET_ACTION_COUNT),
    (SHEET_ACTION_MAX_ATTEMPTS, SHEET_ACTION_COUNT),
    (SHEET_DECLARED_ACTION, SHEET_DECLARED_COUNT),
    (SHEET_DECLARED_OUTCOME, SHEET_DECLARED_COUNT),
];

fn said(number: usize, rest: usize) -> u64 {
    number as u64 | (rest as u64) << 32
}

fn refused(number: usize) -> u64 {
    said(number, NONE)
}

// A NUMBER.

fn size(number: u64) -> usize {
    let mut size = 1;
    let mut left = number >> 7;
    while left != 0 {
        size += 1;
        left >>= 7;
    }
    size
}

fn sizes(numbers: &[u64]) -> usize {
    numbers.iter().map(|number| size(*number)).sum()
}

/// Writes where there is room.
struct Writer<'a> {
    bytes: &'a mut [u8],
    at: usize,
}

impl Writer<'_> {
    fn number(&mut self, number: u64) {
        let mut left = number;
        while left >= 128 {
            self.bytes[self.at] = left as u8 | 128;
            self.at += 1;
            left >>= 7;
        }
        self.bytes[self.at] = left as u8;
        self.at += 1;
    }

    fn numbers(&mut self, numbers: &[u64]) {
        for number in numbers {
            self.number(*number);
        }
    }
}

struct Reader<'a> {
    bytes: &'a [u8],
    at: usize,
}

/// What stands behind a first group that isn't the last: the number, and the place behind it. Out of line and on values, so that a
/// number of one byte takes no call and the place stays in a register.
#[inline(never)]
fn following(bytes: &[u8], first: u8, start: usize) -> Option<(u64, usize)> {
    let mut number = u64::from(first & 127);
    let mut at = start;
    for shift in (7..63).step_by(7) {
        let byte = *bytes.get(at)?;
        at += 1;
        if byte == 0 {
            return None;
        }
        number |= u64::from(byte & 127) << shift;
        if byte < 128 {
            return Some((number, at));
        }
    }
    (*bytes.get(at)? == 1).then_some((number | 1 << 63, at + 1))
}

impl Reader<'_> {
    fn number(&mut self) -> Option<u64> {
        let first = *self.bytes.get(self.at)?;
        if first < 128 {
            self.at += 1;
            return Some(first.into());
        }
        let (number, at) = following(self.bytes, first, self.at + 1)?;
        self.at = at;
        Some(number)
    }

    fn within(&mut self, most: u64) -> Option<u64> {
        self.number().filter(|number| *number <= most)
    }

    fn numbers(&mut self, numbers: &mut [u64], most: &[u64]) -> Option<()> {
        for (number, most) in numbers.iter_mut().zip(most) {
            *number = self.within(*most)?;
        }
        Some(())
    }

    fn is_at_end(&self) -> bool {
        self.at == self.bytes.len()
    }
}

// A SHEET.

fn capacity(count: usize) -> usize {
    [NODES, ROUTES, LIMITS, ACTIONS, DECLARED][count - SHEET_NODE_COUNT]
}

fn sheet_is_tidy(sheet: &[u32; SHEET]) -> bool {
    COLUMNS.iter().all(|&(first, count)| {
        let column = &sheet[first..][..capacity(count)];
        let unused = column.get(sheet[count] as usize..);
        unused.is_some_and(|unused| unused.iter().fold(0, |all, number| all | number) == 0)
    })
}

/// The used slots of a column.
fn used(sheet: &[u32; SHEET], (first, count): (usize, usize)) -> &[u32] {
    &sheet[first..][..sheet[count] as usize]
}

fn small_sizes(numbers: &[u32]) -> usize {
    numbers.iter().map(|number| size((*number).into())).sum()
}

fn put_small(writer: &mut Writer, numbers: &[u32]) {
    for number in numbers {
        writer.number((*number).into());
    }
}

pub fn write_sheet(sheet: &[u32], buffer: &mut [u8]) -> u64 {
    let Ok(sheet) = <&[u32; SHEET]>::try_from(sheet) else {
        return said(BAD_SHEET_LENGTH, 0);
    };
    if !sheet_is_tidy(sheet) {
        return refused(20);
    }
    let head = &sheet[..SHEET_NODE_KIND];
    let mut all = small_sizes(head);
    for column in COLUMNS {
        all += small_sizes(used(sheet, column));
    }
    let Some(bytes) = buffer.get_mut(..all) else {
        return refused(SHORT_BYTES);
    };
    let mut writer = Writer { bytes, at: 0 };
    put_small(&mut writer, head);
    for column in COLUMNS {
        put_small(&mut writer, used(sheet, column));
    }
    said(0, all)
}

fn take_numbers(reader: &mut Reader, numbers: &mut [u32]) -> Option<()> {
    for number in numbers {
        *number = u32::try_from(reader.number()?).ok()?;
    }
    Some(())
}

fn take_sheet(reader: &mut Reader, sheet: &mut [u32; SHEET]) -> Option<()> {
    take_numbers(reader, &mut sheet[..SHEET_NODE_KIND])?;
    for (first, count) in COLUMNS {
        let used = sheet[count] as usize;
        if used > capacity(count) {
            return None;
        }
        take_numbers(reader, &mut sheet[first..][..used])?;
    }
    Some(())
}

pub fn read_sheet(bytes: &[u8], sheet: &mut [u32]) -> u64 {
    if sheet.len() != SHEET {
        return said(BAD_SHEET_LENGTH, 0);
    }
    let mut read = [0; SHEET];
    let mut reader = Reader { bytes, at: 0 };
    if take_sheet(&mut reader, &mut read).is_none() || !reader.is_at_end() {
        return refused(BAD_BYTES);
    }
    sheet.copy_from_slice(&read);
    0
}

// A RUN.

fn fit(numbers: &[u64], most: &[u64]) -> bool {
    numbers
        .iter()
        .zip(most)
        .all(|(number, most)| number <= most)
}

fn output_fits(output: &[u64]) -> bool {
    match output[0] {
        0 => output[1..].iter().all(|number| *number == 0),
        1 => fit(&output[1..], &[SMALL, 0, 0]),
        2 => fit(&output[1..], &[CODE, NAME, SMALL]),
        _ => false,
    }
}

fn error_fits(error: &[u64]) -> bool {
    error[0] == 1 || error[1..].iter().all(|number| *number == 0)
}

fn run_fits(run: &[u64; RECORD]) -> bool {
    let signals = run[RECORD_SIGNALS..RECORD_VISITS].chunks_exact(SIGNAL_WIDTH);
    let streaks = run[RECORD_STREAKS..RECORD_RESULTS].chunks_exact(STREAK_WIDTH);
    let results = run[RECORD_RESULTS..].chunks_exact(RESULT_WIDTH);
    fit(run, &RUN_HOLDS)
        && error_fits(&run[RECORD_ERROR..][..ERROR_WIDTH])
        && output_fits(&run[RECORD_RESULT..][..OUTPUT_WIDTH])
        && signals.into_iter().all(|row| fit(row, &SIGNAL_HOLDS))
        && run[RECORD_VISITS..RECORD_STREAKS]
            .iter()
            .all(|visits| *visits <= SMALL)
        && streaks.into_iter().all(|row| fit(row, &[NAME, SMALL]))
        && results
            .into_iter()
            .all(|row| fit(row, &[SMALL, NAME]) && output_fits(&row[2..]))
}

fn run_is_tidy(run: &[u64; RECORD]) -> bool {
    let stored = run[RECORD_STORED] as usize;
    if stored > STORE {
        return false;
    }
    let unused = &run[RECORD_SIGNALS + SIGNAL_WIDTH * stored..RECORD_VISITS];
    let streaks = run[RECORD_STREAKS..RECORD_RESULTS].chunks_exact(STREAK_WIDTH);
    let results = run[RECORD_RESULTS..].chunks_exact(RESULT_WIDTH);
    unused.iter().fold(0, |all, number| all | number) == 0
        && streaks.into_iter().all(|row| row[1] != 0 || row[0] == 0)
        && results
            .into_iter()
            .all(|row| row[2] != 0 || row[0] | row[1] == 0)
}

fn run_size(run: &[u64; RECORD]) -> usize {
    let stored = run[RECORD_STORED] as usize;
    let mut all = sizes(&run[..RECORD_SIGNALS + SIGNAL_WIDTH * stored]);
    all += sizes(&run[RECORD_VISITS..RECORD_STREAKS]);
    for row in run[RECORD_STREAKS..RECORD_RESULTS].chunks_exact(STREAK_WIDTH) {
        all += if row[1] == 0 { 1 } else { sizes(row) };
    }
    for row in run[RECORD_RESULTS..].chunks_exact(RESULT_WIDTH) {
        all += if row[2] == 0 { 1 } else { sizes(row) };
    }
    all
}

fn put_run(writer: &mut Writer, run: &[u64; RECORD]) {
    let stored = run[RECORD_STORED] as usize;
    writer.numbers(&run[..RECORD_SIGNALS + SIGNAL_WIDTH * stored]);
    writer.numbers(&run[RECORD_VISITS..RECORD_STREAKS]);
    for row in run[RECORD_STREAKS..RECORD_RESULTS].chunks_exact(STREAK_WIDTH) {
        writer.number(row[1]);
        if row[1] != 0 {
            writer.number(row[0]);
        }
    }
    for row in run[RECORD_RESULTS..].chunks_exact(RESULT_WIDTH) {
        writer.number(row[2]);
        if row[2] != 0 {
            writer.numbers(&row[..2]);
            writer.numbers(&row[3..]);
        }
    }
}

pub fn write_run(run: &[u64], buffer: &mut [u8]) -> u64 {
    let Ok(run) = <&[u64; RECORD]>::try_from(run) else {
        return said(BAD_RECORD_LENGTH, 0);
    };
    if !run_fits(run) {
        return said(BAD_RECORD, 0);
    }
    if !run_is_tidy(run) {
        return refused(25);
    }
    let all = run_size(run);
    let Some(bytes) = buffer.get_mut(..all) else {
        return refused(SHORT_BYTES);
    };
    put_run(&mut Writer { bytes, at: 0 }, run);
    said(0, all)
}

fn take_run(reader: &mut Reader, run: &mut [u64; RECORD]) -> Option<()> {
    reader.numbers(run, &RUN_HOLDS)?;
    let stored = run[RECORD_STORED] as usize;
    if stored > STORE
        || !error_fits(&run[RECORD_ERROR..][..ERROR_WIDTH])
        || !output_fits(&run[RECORD_RESULT..][..OUTPUT_WIDTH])
    {
        return None;
    }
    for row in run[RECORD_SIGNALS..]
        .chunks_exact_mut(SIGNAL_WIDTH)
        .take(stored)
    {
        reader.numbers(row, &SIGNAL_HOLDS)?;
    }
    for visits in &mut run[RECORD_VISITS..RECORD_STREAKS] {
        *visits = reader.within(SMALL)?;
    }
    for row in run[RECORD_STREAKS..RECORD_RESULTS].chunks_exact_mut(STREAK_WIDTH) {
        row[1] = reader.within(SMALL)?;
        if row[1] != 0 {
            row[0] = reader.within(NAME)?;
        }
    }
    for row in run[RECORD_RESULTS..].chunks_exact_mut(RESULT_WIDTH) {
        row[2] = reader.within(TAG)?;
        if row[2] != 0 {
            reader.numbers(&mut row[..2], &[SMALL, NAME])?;
            reader.numbers(&mut row[3..], &[SMALL; 3])?;
            if !output_fits(&row[2..]) {
                return None;
            }
        }
    }
    Some(())
}

pub fn read_run(bytes: &[u8], run: &mut [u64]) -> u64 {
    if run.len() != RECORD {
        return said(BAD_RECORD_LENGTH, 0);
    }
    let mut read = [0; RECORD];
    let mut reader = Reader { bytes, at: 0 };
    if take_run(&mut reader, &mut read).is_none() || !reader.is_at_end() {
        return refused(BAD_BYTES);
    }
    run.copy_from_slice(&read);
    0
}

// AN EVENT.

pub fn write_event(event: &[u64], buffer: &mut [u8]) -> u64 {
    if event.len() != EVENT {
        return said(BAD_CALL_LENGTH, 0);
    }
    if !fit(event, &EVENT_HOLDS) {
        return said(BAD_CALL, 0);
    }
    let all = sizes(event);
    let Some(bytes) = buffer.get_mut(..all) else {
        return refused(SHORT_BYTES);
    };
    Writer { bytes, at: 0 }.numbers(event);
    said(0, all)
}

pub fn read_event(bytes: &[u8], event: &mut [u64]) -> u64 {
    if event.len() != EVENT {
        return said(BAD_CALL_LENGTH, 0);
    }
    let mut read = [0; EVENT];
    let mut reader = Reader { bytes, at: 0 };
    if reader.numbers(&mut read, &EVENT_HOLDS).is_none() || !reader.is_at_end() {
        return refused(BAD_BYTES);
    }
    event.copy_from_slice(&read);
    0
}

// A CALL.

fn take_head(reader: &mut Reader, call: &mut [u64; CALL]) -> Option<()> {
    reader.numbers(&mut call[..CALL_HAS_RECORD], &[SMALL; CALL_HAS_RECORD])
}

/// What stands behind the sheet.
fn take_rest(reader: &mut Reader, call: &mut [u64; CALL], run: &mut [u64; RECORD]) -> Option<()> {
    call[CALL_HAS_RECORD] = reader.within(MARK)?;
    if call[CALL_HAS_RECORD] == 1 {
        take_run(reader, run)?;
    }
    reader.numbers(&mut call[CALL_SEQUENCE..], &EVENT_HOLDS)?;
    call[CALL_ANSWERED] = reader.within(MAPPINGS as u64)?;
    let answered = call[CALL_ANSWERED] as usize;
    for row in call[CALL_MAPPINGS..]
        .chunks_exact_mut(MAPPING_WIDTH)
        .take(answered)
    {
        reader.numbers(row, &MAPPING_HOLDS)?;
    }
    reader.is_at_end().then_some(())
}

/// The call behind the boundary of numbers.
pub trait Transition: Fn(&[u32], &[u64], &[u64], &mut [u64]) -> u32 {}

impl<T: Fn(&[u32], &[u64], &[u64], &mut [u64]) -> u32> Transition for T {}

pub fn call_through(transition: impl Transition, bytes: &[u8], buffer: &mut [u8]) -> u64 {
    let mut sheet = [0; SHEET];
    let (mut call, mut run) = ([0; CALL], [0; RECORD]);
    let reader = &mut Reader { bytes, at: 0 };
    let read = take_head(reader, &mut call)
        .and_then(|()| take_sheet(reader, &mut sheet))
        .and_then(|()| take_rest(reader, &mut call, &mut run));
    match read {
        None => refused(BAD_BYTES),
        Some(()) => answered(transition, &sheet, &call, &run, buffer),
    }
}

pub fn call_on_through(
    transition: impl Transition,
    sheet: &[u32],
    bytes: &[u8],
    buffer: &mut [u8],
) -> u64 {
    if sheet.len() != SHEET {
        return said(BAD_SHEET_LENGTH, 0);
    }
    let (mut call, mut run) = ([0; CALL], [0; RECORD]);
    let reader = &mut Reader { bytes, at: 0 };
    let read = take_head(reader, &mut call).and_then(|()| take_rest(reader, &mut call, &mut run));
    match read {
        None => refused(BAD_BYTES),
        Some(()) => answered(transition, sheet, &call, &run, buffer),
    }
}

pub fn call(bytes: &[u8], buffer: &mut [u8]) -> u64 {
    call_through(crate::transition_in_place, bytes, buffer)
}

pub fn call_on(sheet: &[u32], bytes: &[u8], buffer: &mut [u8]) -> u64 {
    call_on_through(crate::transition_in_place, sheet, bytes, buffer)
}

fn answered(
    transition: impl Transition,
    sheet: &[u32],
    call: &[u64],
    run: &[u64],
    buffer: &mut [u8],
) -> u64 {
    let mut answer = [0; ANSWER];
    if transition(sheet, call, run, &mut answer) as usize != WRITTEN {
        return refused(BAD_BYTES);
    }
    let (head, run) = answer.split_at(ANSWER_RECORD);
    let run: &[u64; RECORD] = run.try_into().expect("the record ends an answer");
    let (first, endings) = match head[ANSWER_KIND] as usize {
        NEXT => {
            let notes = NOTE_WIDTH * head[ANSWER_NOTED] as usize;
            let endings = ENDING_WIDTH * head[ANSWER_ENDED] as usize;
            let first = &head[..ANSWER_NOTES + notes];
            (first, &head[ANSWER_ENDINGS..][..endings])
        }
        WANT => (&head[..=ANSWER_WANT_FROM], &[][..]),
        _ => {
            let number = head[ANSWER_REFUSAL_NUMBER] as usize;
            return said(number, head[ANSWER_REFUSAL_ITEM] as usize);
        }
    };
    let all = sizes(first) + sizes(endings) + run_size(run);
    let Some(bytes) = buffer.get_mut(..all) else {
        return refused(SHORT_BYTES);
    };
    let mut writer = Writer { bytes, at: 0 };
    writer.numbers(first);
    writer.numbers(endings);
    put_run(&mut writer, run);
    said(0, all)
}
