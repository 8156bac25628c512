//! What each field of a call and of a record holds at most, and numbers above it. Sequences, times and delays hold any
//! number and are not here.

use calls::layout::{self as at, MAPPINGS, NODES, STORE};
use calls::numbers::{CALL, RECORD};

use crate::rng::Rng;

const NONE: u64 = 0;
const MARK: u64 = 1;
const TAG: u64 = 2;
const NAME: u64 = 255;
const CODE: u64 = 65535;
const SMALL: u64 = u32::MAX as u64;

#[derive(Debug, Clone, Copy, PartialEq, Eq)]
pub enum Array {
    Call,
    Record,
}

/// A field, or one of each row.
#[derive(Debug, Clone, Copy)]
pub struct Field {
    pub name: &'static str,
    pub array: Array,
    /// Its first offset, how far apart the others are, and how many there are.
    first: usize,
    step: usize,
    count: usize,
    /// The largest number that it holds.
    pub most: u64,
    /// It has this meaning where the number so many places before is this.
    under: Option<(usize, u64)>,
}

const fn one(name: &'static str, array: Array, first: usize, most: u64) -> Field {
    rows(name, array, first, 1, 1, most)
}

const fn rows(
    name: &'static str,
    array: Array,
    first: usize,
    step: usize,
    count: usize,
    most: u64,
) -> Field {
    Field {
        name,
        array,
        first,
        step,
        count,
        most,
        under: None,
    }
}

const fn call(name: &'static str, first: usize, most: u64) -> Field {
    one(name, Array::Call, first, most)
}

const fn mapping(name: &'static str, place: usize, most: u64) -> Field {
    let first = at::CALL_MAPPINGS + place;
    rows(name, Array::Call, first, at::MAPPING_WIDTH, MAPPINGS, most)
}

const fn record(name: &'static str, first: usize, most: u64) -> Field {
    one(name, Array::Record, first, most)
}

const fn stored(name: &'static str, place: usize, most: u64) -> Field {
    let first = at::RECORD_SIGNALS + place;
    rows(name, Array::Record, first, at::SIGNAL_WIDTH, STORE, most)
}

const fn streak(name: &'static str, place: usize, most: u64) -> Field {
    let first = at::RECORD_STREAKS + place;
    rows(name, Array::Record, first, at::STREAK_WIDTH, NODES, most)
}

const fn result(name: &'static str, place: usize, most: u64) -> Field {
    let first = at::RECORD_RESULTS + place;
    rows(name, Array::Record, first, at::RESULT_WIDTH, NODES, most)
}

/// The numbers of an error or an output that stands where the tag does: those behind a tag have their meaning from it.
const fn tagged(tag: Field, name: &'static str, place: usize, value: u64, most: u64) -> Field {
    Field {
        name,
        first: tag.first + place,
        most,
        under: Some((place, value)),
        ..tag
    }
}

const KEPT: Field = record("kept error's mark", at::RECORD_ERROR, MARK);
const RUN: Field = record("run's result, its tag", at::RECORD_RESULT, TAG);
const OUTPUT: Field = result("node's output, its tag", 2, TAG);

pub const FIELDS: [Field; 78] = [
    call("ceiling of nodes", at::CALL_CEILING_NODES, SMALL),
    call("ceiling of visits", at::CALL_CEILING_VISITS, SMALL),
    call(
        "ceiling of activations",
        at::CALL_CEILING_ACTIVATIONS,
        SMALL,
    ),
    call("ceiling of attempts", at::CALL_CEILING_ATTEMPTS, SMALL),
    call("limit of microsteps", at::CALL_LIMIT_MICROSTEPS, SMALL),
    call("limit of commands", at::CALL_LIMIT_COMMANDS, SMALL),
    call("limit of operations", at::CALL_LIMIT_OPERATIONS, SMALL),
    call("has a record", at::CALL_HAS_RECORD, MARK),
    call("event id", at::CALL_EVENT_ID, SMALL),
    call("kind", at::CALL_KIND, SMALL),
    call("input", at::CALL_INPUT, SMALL),
    call("signal", at::CALL_SIGNAL, NAME),
    call("outcome", at::CALL_OUTCOME, NAME),
    call("data", at::CALL_DATA, SMALL),
    call("node", at::CALL_NODE, NAME),
    call("visit", at::CALL_VISIT, SMALL),
    call("attempt", at::CALL_ATTEMPT, SMALL),
    call("status", at::CALL_STATUS, SMALL),
    call("output", at::CALL_OUTPUT, SMALL),
    call("has an error", at::CALL_HAS_ERROR, MARK),
    call("error's code", at::CALL_ERROR_CODE, CODE),
    call("error's detail", at::CALL_ERROR_DETAIL, SMALL),
    call("retryable", at::CALL_RETRYABLE, MARK),
    call("resolution", at::CALL_RESOLUTION, SMALL),
    call("number of mapping answers", at::CALL_ANSWERED, SMALL),
    mapping("mapping answer's kind", 0, SMALL),
    mapping("mapping answer's value", 1, SMALL),
    mapping("mapping answer's code", 2, CODE),
    mapping("mapping answer's detail", 3, SMALL),
    mapping("mapping answer's operations", 4, SMALL),
    record("status", at::RECORD_STATUS, SMALL),
    record("input", at::RECORD_INPUT, SMALL),
    record("activations", at::RECORD_ACTIVATIONS, SMALL),
    record("position's node", at::RECORD_POSITION_NODE, NAME),
    record("position's visit", at::RECORD_POSITION_VISIT, SMALL),
    record("phase", at::RECORD_PHASE, SMALL),
    record("invocation's node", at::RECORD_INVOCATION_NODE, NAME),
    record("invocation's visit", at::RECORD_INVOCATION_VISIT, SMALL),
    record("invocation's action", at::RECORD_INVOCATION_ACTION, NAME),
    record("invocation's attempt", at::RECORD_INVOCATION_ATTEMPT, SMALL),
    record("invocation's input", at::RECORD_INVOCATION_INPUT, SMALL),
    KEPT,
    tagged(KEPT, "kept error's code", 1, 1, CODE),
    tagged(KEPT, "kept error's node", 2, 1, NAME),
    tagged(KEPT, "kept error's detail", 3, 1, SMALL),
    tagged(KEPT, "no kept error, its code", 1, 0, NONE),
    tagged(KEPT, "no kept error, its node", 2, 0, NONE),
    tagged(KEPT, "no kept error, its detail", 3, 0, NONE),
    RUN,
    tagged(RUN, "run's result, handle", 1, 1, SMALL),
    tagged(RUN, "run's result, error's code", 1, 2, CODE),
    tagged(RUN, "run's result, error's node", 2, 2, NAME),
    tagged(RUN, "run's result, error's detail", 3, 2, SMALL),
    tagged(RUN, "run's result, first behind nothing", 1, 0, NONE),
    tagged(RUN, "run's result, second behind nothing", 2, 0, NONE),
    tagged(RUN, "run's result, third behind nothing", 3, 0, NONE),
    tagged(RUN, "run's result, second behind a handle", 2, 1, NONE),
    tagged(RUN, "run's result, third behind a handle", 3, 1, NONE),
    record("number of stored signals", at::RECORD_STORED, SMALL),
    stored("stored signal's event id", 1, SMALL),
    stored("stored signal's signal", 2, NAME),
    stored("stored signal's outcome", 3, NAME),
    stored("stored signal's data", 4, SMALL),
    rows("visits", Array::Record, at::RECORD_VISITS, 1, NODES, SMALL),
    streak("streak's outcome", 0, NAME),
    streak("streak's count", 1, SMALL),
    result("result's visit", 0, SMALL),
    result("result's outcome", 1, NAME),
    OUTPUT,
    tagged(OUTPUT, "node's output, handle", 1, 1, SMALL),
    tagged(OUTPUT, "node's output, error's code", 1, 2, CODE),
    tagged(OUTPUT, "node's output, error's node", 2, 2, NAME),
    tagged(OUTPUT, "node's output, error's detail", 3, 2, SMALL),
    tagged(OUTPUT, "node's output, first behind nothing", 1, 0, NONE),
    tagged(OUTPUT, "node's output, second behind nothing", 2, 0, NONE),
    tagged(OUTPUT, "node's output, third behind nothing", 3, 0, NONE),
    tagged(OUTPUT, "node's output, second behind a handle", 2, 1, NONE),
    tagged(OUTPUT, "node's output, third behind a handle", 3, 1, NONE),
];

impl Field {
    /// What counts call it.
    pub fn key(&self) -> String {
        let array = match self.array {
            Array::Call => "call",
            Array::Record => "record",
        };
        format!("above its field: {array}, {}", self.name)
    }

    /// Its offsets.
    pub fn places(&self) -> impl Iterator<Item = usize> {
        let field = *self;
        (0..field.count).map(move |i| field.first + field.step * i)
    }

    /// Sets the field at one of its places, so that it has its meaning there.
    pub fn set(&self, numbers: &mut [u64], place: usize, number: u64) {
        if let Some((back, tag)) = self.under {
            let row = &mut numbers[place - back..][..at::OUTPUT_WIDTH];
            if row[0] != tag {
                row.fill(0);
                row[0] = tag;
            }
        }
        numbers[place] = number;
    }

    /// Whether the number at that place is this field: the tag before it says so.
    pub fn is_meant(&self, numbers: &[u64], place: usize) -> bool {
        self.under
            .is_none_or(|(back, tag)| numbers[place - back] == tag)
    }

    fn is_above(&self, numbers: &[u64], place: usize) -> bool {
        self.is_meant(numbers, place) && numbers[place] > self.most
    }

    /// A number that the field can't hold: the next one, a round one, or one whose lower bits it can.
    fn above(&self, rng: &mut Rng, before: u64) -> u64 {
        let low = before.min(self.most);
        let number = match rng.below(8) {
            0 | 1 => self.most + 1,
            2 => (self.most + 1).next_power_of_two() + low,
            3 => SMALL,
            4 => 1 << 32,
            5 => (1 << 32) + low,
            6 => rng.pick(&[256, 65536, 1 << 63, u64::MAX]),
            _ => rng.next() >> rng.below(64),
        };
        match number > self.most {
            true => number,
            false => self.most + 1,
        }
    }

    /// Sets the field, at any of its places, to a number that it can't hold.
    pub fn raise(&self, rng: &mut Rng, numbers: &mut [u64]) -> u64 {
        let place = self.first + self.step * rng.below(self.count);
        let number = self.above(rng, numbers[place]);
        self.set(numbers, place, number);
        number
    }
}

/// The fields that hold too large a number, with the first such; those of the record only where one goes with the call.
pub fn above<'a>(
    call: &'a [u64; CALL],
    record: Option<&'a [u64; RECORD]>,
) -> impl Iterator<Item = (&'static Field, u64)> + 'a {
    FIELDS.iter().filter_map(move |field| {
        let numbers = match field.array {
            Array::Call => &call[..],
            Array::Record => &record?[..],
        };
        let place = field
            .places()
            .find(|place| field.is_above(numbers, *place))?;
        Some((field, numbers[place]))
    })
}

#[cfg(test)]
mod tests {
    use super::*;
    use crate::joint;
    use calls::{numbers, State};

    fn fits(field: &Field, call: &[u64; CALL], record: &[u64; RECORD]) -> bool {
        match field.array {
            Array::Call => numbers::carried_of(call).is_some(),
            Array::Record => numbers::state_of(record).is_some(),
        }
    }

    /// The plain reading takes what a field holds and refuses what is above, at each of its places.
    #[test]
    fn each_field_holds_its_most() {
        let start = joint::call(&joint::sheet(), None, joint::start());
        let call: [u64; CALL] = numbers::call(&start).try_into().unwrap();
        let record: [u64; RECORD] = numbers::record(&State::fresh(7)).try_into().unwrap();
        let mut tried = [vec![false; CALL], vec![false; RECORD]];
        for field in &FIELDS {
            for place in field.places() {
                let edges = [0, field.most, field.most + 1, SMALL, SMALL + 1, u64::MAX];
                for number in edges {
                    let (mut call, mut record) = (call, record);
                    let numbers = match field.array {
                        Array::Call => &mut call[..],
                        Array::Record => &mut record[..],
                    };
                    field.set(numbers, place, number);
                    assert_eq!(
                        fits(field, &call, &record),
                        number <= field.most,
                        "{}, {number} at {place}",
                        field.key()
                    );
                    let found = above(&call, Some(&record)).count();
                    assert_eq!(found, usize::from(number > field.most), "{}", field.key());
                }
                tried[usize::from(field.array == Array::Record)][place] = true;
            }
        }
        // All others are sequences, times and delays.
        let [of_call, of_record] = tried.map(|tried| tried.iter().filter(|tried| !**tried).count());
        assert_eq!((of_call, of_record), (3, 2 + STORE));
    }

    #[test]
    fn a_raised_field_is_above() {
        let mut rng = Rng::new(3);
        for field in &FIELDS {
            for _ in 0..200 {
                let mut record = [0; RECORD];
                let mut call = [0; CALL];
                let number = match field.array {
                    Array::Call => field.raise(&mut rng, &mut call),
                    Array::Record => field.raise(&mut rng, &mut record),
                };
                assert!(number > field.most);
                assert!(!fits(field, &call, &record), "{}", field.key());
            }
        }
    }
}
