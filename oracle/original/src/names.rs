//! Names for numbers and back. Three digits make byte order the order of numbers.

use std::fmt::{self, Display, Formatter};

use calls::NONE;
use runspore_types::model::{
    code, OUTCOME_EXHAUSTED, OUTCOME_FAILED, OUTCOME_OK, OUTCOME_RECEIVED,
};

pub(crate) struct Node(pub u32);
pub(crate) struct Action(pub u32);
pub(crate) struct Signal(pub u32);
pub(crate) struct Outcome(pub u32);
pub(crate) struct Activation(pub u32, pub u32);
pub(crate) struct Code(pub u32);

impl Display for Node {
    fn fmt(&self, f: &mut Formatter<'_>) -> fmt::Result {
        write!(f, "n{:03}", self.0)
    }
}

impl Display for Action {
    fn fmt(&self, f: &mut Formatter<'_>) -> fmt::Result {
        write!(f, "a{:03}", self.0)
    }
}

impl Display for Signal {
    fn fmt(&self, f: &mut Formatter<'_>) -> fmt::Result {
        write!(f, "s{:03}", self.0)
    }
}

const OUTCOMES: [&str; 4] = [
    OUTCOME_OK,
    OUTCOME_RECEIVED,
    OUTCOME_FAILED,
    OUTCOME_EXHAUSTED,
];

impl Display for Outcome {
    fn fmt(&self, f: &mut Formatter<'_>) -> fmt::Result {
        match OUTCOMES.get(self.0 as usize) {
            Some(name) => f.write_str(name),
            None => write!(f, "o{:03}", self.0),
        }
    }
}

/// An activation id: node and visit. An invocation id is the same.
impl Display for Activation {
    fn fmt(&self, f: &mut Formatter<'_>) -> fmt::Result {
        write!(f, "{}/{}", Node(self.0), self.1)
    }
}

impl Display for Code {
    fn fmt(&self, f: &mut Formatter<'_>) -> fmt::Result {
        write!(f, "c{}", self.0)
    }
}

/// The kernel's codes of errors, 1 to 5.
const CODES: [&str; 5] = [
    code::LIMIT_VISITS_EXCEEDED,
    code::LIMIT_ACTIVATIONS_EXCEEDED,
    code::ACTIVITY_UNDECLARED_OUTCOME,
    code::ACTIVITY_ATTEMPTS_EXHAUSTED,
    code::ACTIVITY_FAILED,
];

fn digits(text: &str) -> u32 {
    text.parse()
        .unwrap_or_else(|_| panic!("{text:?} is not a number"))
}

/// The number in a name of a letter and digits.
pub(crate) fn number(name: &str) -> u32 {
    digits(name.get(1..).unwrap_or_default())
}

/// A node that may be missing.
pub(crate) fn node_number(name: Option<&str>) -> u32 {
    name.map_or(NONE, number)
}

pub(crate) fn outcome_number(name: &str) -> u32 {
    match OUTCOMES.iter().position(|known| *known == name) {
        Some(index) => index as u32,
        None => number(name),
    }
}

/// Node and visit of an activation or invocation id.
pub(crate) fn activation_numbers(id: &str) -> (u32, u32) {
    let (node, visit) = id.split_once('/').expect("an id of node and visit");
    (number(node), digits(visit))
}

pub(crate) fn code_number(name: &str) -> u32 {
    match CODES.iter().position(|known| *known == name) {
        Some(index) => index as u32 + 1,
        None => number(name),
    }
}

/// An event id with the slot of its signal.
pub(crate) struct EventId(pub u32, pub usize);

impl Display for EventId {
    fn fmt(&self, f: &mut Formatter<'_>) -> fmt::Result {
        write!(f, "{}/{}", self.0, self.1)
    }
}

pub(crate) fn event_id_numbers(id: &str) -> (u32, usize) {
    let (event_id, slot) = id.split_once('/').expect("an event id with its slot");
    (digits(event_id), digits(slot) as usize)
}
