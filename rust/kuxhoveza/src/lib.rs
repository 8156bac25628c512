//! Kuxhoveza for hosts in Rust: safe calls of the library's functions, without heap. docs/NUMBERS.md says what the
//! numbers mean; `bytes` stores them and makes calls in bytes (docs/BYTES.md).
//!
//! A run is a list of calls on one sheet, each on the record of the last accepted one:
//!
//! ```no_run
//! use kuxhoveza::{layout, transition, Answer, Call, Record, Sheet};
//!
//! fn step(sheet: &Sheet, call: &Call, kept: &mut Option<Record>) {
//!     match transition(sheet, call, kept.as_ref()) {
//!         Ok(Answer::Next { record, report }) => {
//!             *kept = Some(record);
//!             println!("order: {:?}", report.order());
//!         }
//!         Ok(Answer::Want { node, field, record, .. }) => {
//!             // The value is worked out from this record and added to the call, which is made again: with the same
//!             // sequence, on the record that was kept before.
//!             println!("field {field} of node {node}, input {}", record.number(layout::RECORD_INPUT));
//!         }
//!         Ok(Answer::Refused(refusal)) => println!("{refusal:?}"),
//!         Err(fault) => println!("{fault:?}"),
//!     }
//! }
//! ```
#![no_std]
#![deny(unsafe_op_in_unsafe_fn)]

pub mod bytes;
pub mod raw;

/// Lengths, capacities and offsets, as in include/kuxhoveza.h.
pub mod layout {
    include!(concat!(env!("OUT_DIR"), "/layout.rs"));
}

pub type Sheet = [u32; layout::SHEET];

/// A call's numbers. The one at `layout::CALL_HAS_RECORD` is not read: whether a record is given decides.
pub type Call = [u64; layout::CALL];

/// A run record: what an accepted call answers with, to keep and to give to the run's next call.
#[derive(Debug, Clone, PartialEq, Eq)]
pub struct Record([u64; layout::RECORD]);

impl Record {
    /// For a host that loads what it stored: the numbers of an accepted answer's record, never those of a want's.
    pub fn from_numbers(numbers: [u64; layout::RECORD]) -> Record {
        Record(numbers)
    }

    pub fn numbers(&self) -> &[u64; layout::RECORD] {
        &self.0
    }
}

/// The record at the moment of a want, to work the wanted value out from and for nothing else. Given to a later call it
/// would pass for a run record, and a signal would be lost or an entry counted twice; so it is none:
///
/// ```compile_fail,E0308
/// # use kuxhoveza::{transition, Call, Evaluation, Sheet};
/// fn kept_by_mistake(sheet: &Sheet, call: &Call, evaluation: &Evaluation) {
///     let _ = transition(sheet, call, Some(evaluation));
/// }
/// ```
///
/// where a `Record` is taken:
///
/// ```
/// # use kuxhoveza::{transition, Call, Record, Sheet};
/// fn kept(sheet: &Sheet, call: &Call, record: &Record) {
///     let _ = transition(sheet, call, Some(record));
/// }
/// ```
#[derive(Debug, Clone, PartialEq, Eq)]
pub struct Evaluation([u64; layout::RECORD]);

impl Evaluation {
    /// The number at an offset of a record: `layout::RECORD_INPUT`, and so on.
    pub fn number(&self, offset: usize) -> u64 {
        self.0[offset]
    }
}

#[derive(Debug, Clone, PartialEq, Eq)]
// An answer is returned once, and a box would need a heap.
#[allow(clippy::large_enum_variant)]
pub enum Answer {
    /// The call is accepted: the record to keep, and what is to be done and shown.
    Next { record: Record, report: Report },
    /// A mapping value is wanted: field 0 input, 1 params, 2 output of the node, come from a node or 255. The call is made
    /// again with the same sequence, on the same record as before, with the value added to its mapping answers.
    Want {
        node: u32,
        field: u32,
        from: u32,
        record: Evaluation,
    },
    /// The record given stays the run's.
    Refused(Refusal),
}

/// What an accepted call says beside its record.
#[derive(Debug, Clone, PartialEq, Eq)]
pub struct Report([u64; layout::ANSWER_RECORD]);

#[derive(Debug, Clone, Copy, PartialEq, Eq)]
pub enum Order {
    Schedule {
        node: u32,
        visit: u32,
        action: u32,
        attempt: u32,
        not_before: u64,
        input: u32,
        params: Option<u32>,
    },
    Retry {
        node: u32,
        visit: u32,
        attempt: u32,
        not_before: u64,
    },
}

#[derive(Debug, Clone, Copy, PartialEq, Eq)]
pub struct Note {
    pub code: u32,
    pub node: u32,
    pub a: u32,
    pub b: u32,
    pub c: u32,
}

/// How a signal ended, which is named by its sequence.
#[derive(Debug, Clone, Copy, PartialEq, Eq)]
pub struct Ending {
    pub sequence: u64,
    pub ending: u32,
}

impl Report {
    /// A field of 32 bits: the library writes no more into it.
    fn small(&self, offset: usize) -> u32 {
        self.0[offset] as u32
    }

    pub fn microsteps(&self) -> u32 {
        self.small(layout::ANSWER_MICROSTEPS)
    }

    pub fn order(&self) -> Option<Order> {
        let node = self.small(layout::ANSWER_ORDER_NODE);
        let visit = self.small(layout::ANSWER_ORDER_VISIT);
        let attempt = self.small(layout::ANSWER_ORDER_ATTEMPT);
        let not_before = self.0[layout::ANSWER_ORDER_NOT_BEFORE];
        let has_params = self.0[layout::ANSWER_ORDER_HAS_PARAMS] == 1;
        match self.0[layout::ANSWER_ORDER] {
            0 => None,
            1 => Some(Order::Schedule {
                node,
                visit,
                action: self.small(layout::ANSWER_ORDER_ACTION),
                attempt,
                not_before,
                input: self.small(layout::ANSWER_ORDER_INPUT),
                params: has_params.then(|| self.small(layout::ANSWER_ORDER_PARAMS)),
            }),
            _ => Some(Order::Retry {
                node,
                visit,
                attempt,
                not_before,
            }),
        }
    }

    /// In the order in which they arose.
    pub fn notes(&self) -> impl Iterator<Item = Note> + '_ {
        let count = self.small(layout::ANSWER_NOTED) as usize;
        (0..count).map(|i| {
            let row = layout::ANSWER_NOTES + layout::NOTE_WIDTH * i;
            let [code, node, a, b, c] = [0, 1, 2, 3, 4].map(|place| self.small(row + place));
            Note {
                code,
                node,
                a,
                b,
                c,
            }
        })
    }

    /// In the order in which they arose.
    pub fn endings(&self) -> impl Iterator<Item = Ending> + '_ {
        let count = self.small(layout::ANSWER_ENDED) as usize;
        (0..count).map(|i| {
            let row = layout::ANSWER_ENDINGS + layout::ENDING_WIDTH * i;
            Ending {
                sequence: self.0[row],
                ending: self.small(row + 1),
            }
        })
    }
}

/// Why a call has no answer.
#[derive(Debug, Clone, Copy, PartialEq, Eq)]
pub enum Fault {
    /// A number of the call that its field can't hold.
    Call,
    /// A number of the record that its field can't hold.
    Record,
    /// The library that is linked has another layout than this crate (`layout_matches`): no call of it means anything.
    Layout,
}

/// Why a sheet or a call is refused: the number and the item of document 01.
#[derive(Debug, Clone, Copy, PartialEq, Eq)]
pub struct Refusal {
    pub number: u32,
    pub item: u32,
}

/// The four ceilings of a call.
#[derive(Debug, Clone, Copy, PartialEq, Eq)]
pub struct Ceilings {
    pub nodes: u32,
    pub visits: u32,
    pub activations: u32,
    pub attempts: u32,
}

/// What is lent where there is no record.
static NO_RECORD: [u64; layout::RECORD] = [0; layout::RECORD];

/// Whether the library that is linked has the layout that this crate was built with. Where it hasn't, every function
/// answers with `Fault::Layout`.
pub fn layout_matches() -> bool {
    raw::layout_version() as usize == layout::LAYOUT_VERSION
}

/// One call, on a record or on none.
pub fn transition(sheet: &Sheet, call: &Call, record: Option<&Record>) -> Result<Answer, Fault> {
    if !layout_matches() {
        return Err(Fault::Layout);
    }
    let mut call = *call;
    call[layout::CALL_HAS_RECORD] = record.is_some().into();
    let lent = record.map_or(&NO_RECORD, Record::numbers);
    let mut answer = [0; layout::ANSWER];
    written(raw::transition(sheet, &call, lent, &mut answer))?;
    Ok(read(&answer))
}

/// What the library returned. It can't be a length but where the layout is another.
fn written(said: u32) -> Result<(), Fault> {
    match said as usize {
        layout::WRITTEN => Ok(()),
        layout::BAD_CALL => Err(Fault::Call),
        layout::BAD_RECORD => Err(Fault::Record),
        _ => Err(Fault::Layout),
    }
}

fn read(answer: &[u64; layout::ANSWER]) -> Answer {
    let small = |offset: usize| answer[offset] as u32;
    let (report, record) = answer.split_at(layout::ANSWER_RECORD);
    let record = || record.try_into().expect("the record ends an answer");
    match answer[layout::ANSWER_KIND] as usize {
        layout::NEXT => Answer::Next {
            record: Record(record()),
            report: Report(report.try_into().expect("all but the record")),
        },
        layout::WANT => Answer::Want {
            node: small(layout::ANSWER_WANT_NODE),
            field: small(layout::ANSWER_WANT_FIELD),
            from: small(layout::ANSWER_WANT_FROM),
            record: Evaluation(record()),
        },
        layout::REFUSAL => Answer::Refused(Refusal {
            number: small(layout::ANSWER_REFUSAL_NUMBER),
            item: small(layout::ANSWER_REFUSAL_ITEM),
        }),
        other => unreachable!("the library answered with kind {other}"),
    }
}

/// The verdict on a sheet alone: none where it is accepted. The only fault is `Fault::Layout`.
pub fn verdict(sheet: &Sheet, ceilings: Ceilings) -> Result<Option<Refusal>, Fault> {
    if !layout_matches() {
        return Err(Fault::Layout);
    }
    let mut verdict = [0; layout::VERDICT];
    written(raw::verdict(sheet, ceilings, &mut verdict))?;
    let refusal = Refusal {
        number: verdict[layout::VERDICT_NUMBER],
        item: verdict[layout::VERDICT_ITEM],
    };
    Ok((refusal.number != 0).then_some(refusal))
}

#[cfg(test)]
mod tests {
    use super::*;

    #[test]
    fn a_length_is_a_fault_of_the_layout() {
        use layout::*;
        assert_eq!(written(WRITTEN as u32), Ok(()));
        assert_eq!(written(BAD_CALL as u32), Err(Fault::Call));
        assert_eq!(written(BAD_RECORD as u32), Err(Fault::Record));
        for said in [
            SHORT_BUFFER,
            BAD_SHEET_LENGTH,
            BAD_CALL_LENGTH,
            BAD_RECORD_LENGTH,
            99,
        ] {
            assert_eq!(written(said as u32), Err(Fault::Layout));
        }
    }
}
