//! A call as numbers, at the boundary for hosts (include/kuxhoveza.h).

use std::borrow::Cow;

use calls::layout::{self, ANSWER, CALL, RECORD, SHEET, VERDICT};
use calls::{numbers, Answer, Call, Ceilings};
use generator::fields::{self, Array, Field, FIELDS};
use generator::rng::{Rng, EDGES, LONG_EDGES};

use crate::shrink::each_number;

/// What stands in a buffer before a call.
pub const BEFORE: u64 = 0xdead_beef_dead_beef;
const BEFORE_VERDICT: u32 = 0xdead_beef;

/// The exported functions, as include/kuxhoveza.h has them.
type Transition = fn(&[u32], &[u64], &[u64], &mut [u64]) -> u32;
type Verdict = fn(&[u32], &Ceilings, &mut [u32]) -> u32;

/// Something behind the boundary.
#[derive(Clone, Copy)]
pub struct Boundary {
    pub name: &'static str,
    pub transition: Transition,
    pub verdict: Verdict,
}

pub const PLAIN: Boundary = Boundary {
    name: "plain",
    transition: boundary::transition,
    verdict: boundary::verdict,
};

/// The plain reading with the lent sheet read in place.
pub const IN_PLACE: Boundary = Boundary {
    name: "in place",
    transition: boundary::transition_in_place,
    verdict: boundary::verdict_in_place,
};

/// What a boundary returns and leaves in the buffer.
type Said<T = u64> = (u32, Vec<T>);

/// How many numbers are lent.
#[derive(Debug, Clone)]
struct Lengths {
    sheet: usize,
    call: usize,
    record: usize,
    answer: usize,
    verdict: usize,
}

/// A call's numbers; a record of zeros where it has none.
#[derive(Clone)]
pub struct Asked {
    pub sheet: Box<[u32; SHEET]>,
    pub call: [u64; CALL],
    pub record: [u64; RECORD],
    lengths: Lengths,
}

/// So many of the numbers; zeros behind them where it is more.
fn lent<T: Copy + Default>(numbers: &[T], length: usize) -> Cow<'_, [T]> {
    match numbers.get(..length) {
        Some(numbers) => Cow::Borrowed(numbers),
        None => {
            let mut longer = numbers.to_vec();
            longer.resize(length, T::default());
            Cow::Owned(longer)
        }
    }
}

impl Asked {
    pub fn of(call: &Call) -> Asked {
        let record = call.state.as_ref().map(numbers::record);
        Asked {
            sheet: numbers::sheet(&call.workflow),
            call: numbers::call(call).try_into().expect("a call"),
            record: record.map_or([0; RECORD], |record| record.try_into().expect("a record")),
            lengths: Lengths {
                sheet: SHEET,
                call: CALL,
                record: RECORD,
                answer: ANSWER,
                verdict: VERDICT,
            },
        }
    }

    /// Whether the record counts.
    fn has_record(&self) -> bool {
        self.call[layout::CALL_HAS_RECORD] == 1
    }

    pub fn said(&self, boundary: &Boundary) -> Said {
        let mut buffer = vec![BEFORE; self.lengths.answer];
        let sheet = lent(&self.sheet[..], self.lengths.sheet);
        let call = lent(&self.call, self.lengths.call);
        let record = lent(&self.record, self.lengths.record);
        let said = (boundary.transition)(&sheet, &call, &record, &mut buffer);
        (said, buffer)
    }

    /// The answer, of which every number is one that the number form has; and the verdict on the sheet alone is the same.
    pub fn answer(&self, boundary: &Boundary) -> Result<Answer, String> {
        let (said, buffer) = self.said(boundary);
        if said != layout::WRITTEN as u32 {
            return Err(format!("says {said}"));
        }
        let answer = numbers::answer_of(&buffer)
            .filter(|answer| numbers::answer(answer).is_some_and(|numbers| numbers == buffer))
            .ok_or_else(|| format!("is no answer: {buffer:?}"))?;
        let verdict = self.verdict(boundary);
        let expected = match answer {
            Answer::Refused { number, item } if number <= 20 => vec![number, item],
            _ => vec![0, 0],
        };
        match verdict == (layout::WRITTEN as u32, expected) {
            true => Ok(answer),
            false => Err(format!("{answer:?}, but the verdict alone is {verdict:?}")),
        }
    }

    /// The verdict on the sheet alone, under the lowest bits of the call's ceilings.
    fn verdict(&self, boundary: &Boundary) -> Said<u32> {
        let mut buffer = vec![BEFORE_VERDICT; self.lengths.verdict];
        let ceilings = Ceilings {
            nodes: self.call[layout::CALL_CEILING_NODES] as u32,
            visits: self.call[layout::CALL_CEILING_VISITS] as u32,
            activations: self.call[layout::CALL_CEILING_ACTIVATIONS] as u32,
            attempts: self.call[layout::CALL_CEILING_ATTEMPTS] as u32,
        };
        let sheet = lent(&self.sheet[..], self.lengths.sheet);
        let said = (boundary.verdict)(&sheet, &ceilings, &mut buffer);
        (said, buffer)
    }

    /// The fields that hold too large a number, with it.
    pub fn above(&self) -> impl Iterator<Item = (&'static Field, u64)> + '_ {
        fields::above(&self.call, self.has_record().then_some(&self.record))
    }

    /// What the lengths and the table of fields say that the boundary must return; none where there is an answer.
    fn due(&self) -> Option<u32> {
        let lengths = &self.lengths;
        let by_length = [
            (lengths.sheet != SHEET, layout::BAD_SHEET_LENGTH),
            (lengths.call != CALL, layout::BAD_CALL_LENGTH),
            (lengths.record != RECORD, layout::BAD_RECORD_LENGTH),
            (lengths.answer < ANSWER, layout::SHORT_BUFFER),
        ];
        if let Some((_, said)) = by_length.iter().find(|(holds, _)| *holds) {
            return Some(*said as u32);
        }
        let said = |(field, _): (&Field, u64)| match field.array {
            Array::Call => layout::BAD_CALL as u32,
            Array::Record => layout::BAD_RECORD as u32,
        };
        self.above().map(said).min()
    }

    /// The same of the verdict.
    fn due_verdict(&self) -> Option<u32> {
        if self.lengths.sheet != SHEET {
            return Some(layout::BAD_SHEET_LENGTH as u32);
        }
        (self.lengths.verdict < VERDICT).then_some(layout::SHORT_BUFFER as u32)
    }

    /// Some numbers changed to what their fields may or may not hold, and buffers of any length. At times every output
    /// is an error first, so that all its numbers have a meaning.
    pub fn damage(&mut self, rng: &mut Rng) {
        if rng.one_in(4) {
            self.record[layout::RECORD_ERROR] = 1;
            self.record[layout::RECORD_RESULT] = 2;
            for result in self.record[layout::RECORD_RESULTS..].chunks_mut(layout::RESULT_WIDTH) {
                result[2] = 2;
            }
        }
        let place = |rng: &mut Rng, length| match rng.one_in(8) {
            true => length - 1,
            false => rng.below(length),
        };
        for _ in 0..rng.below(3) {
            let number = match rng.below(3) {
                0 => u64::from(rng.pick(&EDGES)),
                1 => rng.pick(&LONG_EDGES),
                _ => rng.next() >> rng.below(64),
            };
            match rng.below(2) {
                0 => self.call[place(rng, CALL)] = number,
                _ => self.record[place(rng, RECORD)] = number,
            }
        }
        if rng.percent(30) {
            self.lengths.answer = rng.below(2 * ANSWER);
            self.lengths.verdict = rng.below(2 * VERDICT);
        }
        if rng.percent(10) {
            self.lengths.answer = ANSWER - 1 + rng.below(3);
        }
    }

    /// Arrays of other lengths, and at times damage too.
    pub fn stretch(&mut self, rng: &mut Rng) {
        let other = |rng: &mut Rng, length| match rng.below(4) {
            0 => 0,
            1 => length - 1,
            2 => length + 1,
            _ => rng.below(2 * length),
        };
        let lengths = &mut self.lengths;
        if rng.one_in(3) {
            lengths.sheet = other(rng, SHEET);
        }
        if rng.one_in(3) {
            lengths.call = other(rng, CALL);
        }
        if rng.one_in(3) {
            lengths.record = other(rng, RECORD);
        }
        if rng.one_in(2) {
            self.damage(rng);
        }
    }

    /// One field raised above what it holds: one of the record where there is a record, mostly.
    pub fn raise(&mut self, rng: &mut Rng) {
        let mut field = rng.pick(&FIELDS);
        while field.array == Array::Record && !self.has_record() && !rng.one_in(8) {
            field = rng.pick(&FIELDS);
        }
        match field.array {
            Array::Call => field.raise(rng, &mut self.call),
            Array::Record => field.raise(rng, &mut self.record),
        };
    }

    /// What all say alike and the table of fields too, with the buffers as they were where nothing is due in them; or how
    /// they part.
    pub fn compare(&self, boundaries: &[Boundary]) -> Result<u32, String> {
        match self.parted(boundaries) {
            None => Ok(self.said(&boundaries[0]).0),
            Some(_) => Err(self.told(boundaries)),
        }
    }

    fn parted(&self, boundaries: &[Boundary]) -> Option<String> {
        let said: Vec<Said> = boundaries.iter().map(|it| self.said(it)).collect();
        let verdicts: Vec<Said<u32>> = boundaries.iter().map(|it| self.verdict(it)).collect();
        let parted = [
            parting(boundaries, &said, self.due(), BEFORE, ANSWER),
            parting(
                boundaries,
                &verdicts,
                self.due_verdict(),
                BEFORE_VERDICT,
                VERDICT,
            )
            .map(|how| format!("verdict: {how}")),
        ];
        parted.into_iter().flatten().next()
    }

    /// The difference, with every number that may be smaller smaller.
    fn told(&self, boundaries: &[Boundary]) -> String {
        let mut small = self.clone();
        let mut call = small.call;
        each_number(&mut call, |words| {
            small.call.copy_from_slice(words);
            small.parted(boundaries).is_some()
        });
        small.call = call;
        let mut record = small.record;
        each_number(&mut record, |words| {
            small.record.copy_from_slice(words);
            small.parted(boundaries).is_some()
        });
        small.record = record;
        let mut lines = String::new();
        numbers::write_array(&mut lines, numbers::KIND_SHEET, &small.sheet.map(u64::from));
        numbers::write_array(&mut lines, numbers::KIND_CALL, &small.call);
        numbers::write_array(&mut lines, numbers::KIND_RECORD, &small.record);
        let said = small.parted(boundaries).unwrap_or_default();
        format!("{:?}: {said}\n{lines}", small.lengths)
    }
}

/// How boundaries part from each other or from what is due: a number to return with the buffer as it was before, or else
/// so many numbers written and those behind them as before.
fn parting<T: Copy + PartialEq>(
    boundaries: &[Boundary],
    said: &[Said<T>],
    due: Option<u32>,
    before: T,
    written: usize,
) -> Option<String> {
    let (due_said, kept) = match due {
        None => (layout::WRITTEN as u32, written),
        Some(due) => (due, 0),
    };
    let right = |(said, buffer): &Said<T>| {
        *said == due_said && buffer.iter().skip(kept).all(|number| *number == before)
    };
    if said.iter().all(|it| right(it) && *it == said[0]) {
        return None;
    }
    let names = boundaries.iter().zip(said);
    let said: Vec<String> = names
        .map(|(boundary, (said, _))| format!("{} says {said}", boundary.name))
        .collect();
    Some(format!("{}; due: {due:?}", said.join(", ")))
}
