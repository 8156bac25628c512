//! A whole call in bytes.

use calls::layout::{
    ACTIONS, ANSWER, CALL_MAPPINGS, DECLARED, LIMITS, MAPPINGS, MAPPING_WIDTH, NODES, ROUTES,
    SHEET_NODE_COUNT,
};
use calls::{numbers, Answer, Call};
use generator::rng::Rng;

use crate::asked::Asked;

/// What a sheet's counts hold, from that of its nodes on.
pub const CAPACITIES: [usize; 5] = [NODES, ROUTES, LIMITS, ACTIONS, DECLARED];

/// A call's numbers, with its sheet, and their bytes.
pub struct Whole {
    pub numbers: bytes::Call,
    pub bytes: Vec<u8>,
    /// Whether the bytes have all the call's numbers but mapping answers behind their count, which nothing reads.
    pub exact: bool,
}

impl Whole {
    pub fn of(call: &Call) -> Whole {
        let asked = Asked::of(call);
        let mut numbers = bytes::Call {
            sheet: Some(asked.sheet),
            call: asked.call,
            record: asked.record,
        };
        // Mapping answers behind their count are no part of a call in bytes.
        let answered = MAPPING_WIDTH * call.mappings.count.min(MAPPINGS as u32) as usize;
        numbers.call[CALL_MAPPINGS + answered..].fill(0);
        let bytes = bytes::write_call(&numbers);
        let exact = bytes::read_call(&bytes, true).is_some_and(|read| read == numbers);
        Whole {
            numbers,
            bytes,
            exact,
        }
    }

    /// The call with each count of its sheet above its capacity, one in each.
    pub fn overcounted(&self, rng: &mut Rng) -> [bytes::Call; CAPACITIES.len()] {
        let mut place = SHEET_NODE_COUNT;
        CAPACITIES.map(|capacity| {
            let mut more = self.numbers.clone();
            let sheet = more.sheet.as_mut().expect("a whole call");
            sheet[place] = capacity as u32 + 1 + rng.small(3);
            place += 1;
            more
        })
    }
}

/// An answer's numbers.
pub fn numbers_of(answer: &Answer) -> [u64; ANSWER] {
    let numbers = numbers::answer(answer).expect("an answer");
    numbers.try_into().expect("an answer")
}
