//! A plain reading of documents 01 and 02 on structs behind references: no JSON, no heap. The sheet may also be read in
//! place, in the numbers that a host lends.
//!
//! It is the second reading beside the original and the baseline for speed. It is total: whatever numbers the structs
//! hold, there is an answer.

mod boxed;
mod event;
mod graph;
mod machine;
mod sheet;
mod snapshot;

use calls::{Ceilings, Ending, Event, Limits, Mappings, Note, Order, State, NONE, STORE};

pub use boxed::answer;
use graph::Graph;
use machine::Machine;
pub use sheet::{Lent, Sheet};

/// Notes and endings of one call at most: one for the arrival and one for each stored signal.
pub const LIST: usize = STORE + 1;

#[derive(Debug, Clone, Copy, PartialEq, Eq)]
pub enum Kind {
    Next,
    Wants { node: u32, field: u32, from: u32 },
    Refused { number: u32, item: u32 },
}

/// The answer. State, order, notes, endings and microsteps mean something only under `Next`, the state also under
/// `Wants`.
#[derive(Debug, Clone, PartialEq, Eq)]
pub struct Decision {
    pub kind: Kind,
    pub state: State,
    pub order: Option<Order>,
    pub note_count: usize,
    pub notes: [Note; LIST],
    pub ending_count: usize,
    pub endings: [Ending; LIST],
    pub microsteps: u32,
}

impl Decision {
    pub fn new() -> Decision {
        Decision {
            kind: Kind::Refused {
                number: 0,
                item: NONE,
            },
            state: State::fresh(0),
            order: None,
            note_count: 0,
            notes: [Note::default(); LIST],
            ending_count: 0,
            endings: [Ending::default(); LIST],
            microsteps: 0,
        }
    }

    fn clear(&mut self) {
        self.order = None;
        self.note_count = 0;
        self.ending_count = 0;
        self.microsteps = 0;
    }
}

impl Default for Decision {
    fn default() -> Decision {
        Decision::new()
    }
}

/// What ends a call before its next record: `Kind::Wants` or `Kind::Refused`.
type Step<T> = Result<T, Kind>;

fn refused(number: u32) -> Kind {
    refused_at(number, NONE)
}

fn refused_at(number: u32, item: u32) -> Kind {
    Kind::Refused { number, item }
}

/// The verdict on a sheet alone: the broken rule and its item, or nothing.
pub fn verdict(sheet: impl Sheet, ceilings: &Ceilings) -> Option<(u32, u32)> {
    match Graph::load(sheet, ceilings) {
        Err(Kind::Refused { number, item }) => Some((number, item)),
        _ => None,
    }
}

/// Applies one event. The checks run in the order of 01's table; the first that fails is the answer.
pub fn transition(
    sheet: impl Sheet,
    state: Option<&State>,
    event: &Event,
    mappings: &Mappings,
    ceilings: &Ceilings,
    limits: &Limits,
    out: &mut Decision,
) {
    out.clear();
    out.kind = match decide(sheet, state, event, mappings, ceilings, limits, out) {
        Ok(()) => Kind::Next,
        Err(kind) => kind,
    };
}

fn decide(
    sheet: impl Sheet,
    state: Option<&State>,
    event: &Event,
    mappings: &Mappings,
    ceilings: &Ceilings,
    limits: &Limits,
    out: &mut Decision,
) -> Step<()> {
    let graph = Graph::load(sheet, ceilings)?;
    event::check(event, mappings)?;
    match state {
        None if event.kind == event::START => {
            if event.sequence != 1 {
                return Err(refused(22));
            }
            out.state = State::fresh(event.input);
        }
        None => return Err(refused(23)),
        Some(_) if event.kind == event::START => return Err(refused(24)),
        Some(state) => {
            if !snapshot::consistent(state, &graph) {
                return Err(refused(25));
            }
            if event.sequence != state.last_sequence + 1 {
                return Err(refused(22));
            }
            out.state.clone_from(state);
        }
    }
    let mut machine = Machine::new(&graph, limits, mappings, out);
    machine.apply(event)?;
    machine.finish()
}
