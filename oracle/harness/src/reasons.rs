//! Why a call is not compared with the original.
//!
//! A rule that the original lacks is named here: a refusal's number in `ADDED`, or, where its number is one that the original has
//! (a record that only the port refuses), a reason more, which tells the calls that it concerns by what they hold and what
//! the original answers. Such a call is counted under its reason and compared between the other sides alone, and the
//! history goes on with the answer that is due. All other calls are compared with the original.

use calls::{layout, numbers, Answer, Call, State, NONE};

#[derive(Debug, Clone, Copy, PartialEq, Eq, PartialOrd, Ord)]
pub enum Reason {
    CallNumber,
    RecordNumber,
    AddedRefusal,
    StoredAtEnd,
}

/// Numbers of refusals that the original doesn't have.
const ADDED: [u32; 0] = [];

impl Reason {
    pub const ALL: [Reason; 4] = [
        Reason::CallNumber,
        Reason::RecordNumber,
        Reason::AddedRefusal,
        Reason::StoredAtEnd,
    ];

    pub fn text(self) -> &'static str {
        match self {
            Reason::CallNumber => "a number of the call that its field can't hold",
            Reason::RecordNumber => "a number of the record that its field can't hold",
            Reason::AddedRefusal => "refused with a number that the original doesn't have",
            Reason::StoredAtEnd => "an ended run with something stored, which the original takes",
        }
    }

    /// Whether a comparison must reach it.
    pub fn is_due(self) -> bool {
        self != Reason::AddedRefusal || !ADDED.is_empty()
    }

    /// The reason of a call that the plain reading answers so; none where it is compared.
    pub fn of(call: &Call, plain: &Answer) -> Option<Reason> {
        let reason = Reason::of_numbers(call);
        if reason.is_some() {
            return reason;
        }
        match plain {
            Answer::Refused { number, .. } if ADDED.contains(number) => Some(Reason::AddedRefusal),
            _ => only_stores(call).then_some(Reason::StoredAtEnd),
        }
    }

    /// The reason of a call that has no answer.
    pub fn of_numbers(call: &Call) -> Option<Reason> {
        let words = numbers::call(call).try_into().expect("a call");
        if numbers::carried_of(&words).is_none() {
            return Some(Reason::CallNumber);
        }
        let state = call.state.as_ref();
        state
            .is_some_and(|state| numbers::state_of(&numbers::record(state)).is_none())
            .then_some(Reason::RecordNumber)
    }

    /// What the boundary returns instead of an answer.
    pub fn said(self) -> Option<u32> {
        match self {
            Reason::CallNumber => Some(layout::BAD_CALL as u32),
            Reason::RecordNumber => Some(layout::BAD_RECORD as u32),
            Reason::AddedRefusal | Reason::StoredAtEnd => None,
        }
    }

    /// The answer that is due where there is one.
    pub fn answer(self, plain: Answer) -> Answer {
        match self {
            Reason::StoredAtEnd => Answer::Refused {
                number: 25,
                item: NONE,
            },
            _ => plain,
        }
    }
}

/// Whether nothing is wrong with the call's record but that its run has ended and stores something: the original, which
/// has all other parts of the run check, takes it. What it says of a record that it takes is a next record or 22.
fn only_stores(call: &Call) -> bool {
    call.state.as_ref().is_some_and(stores)
        && matches!(
            original::answer_fast(call),
            Answer::Next { .. } | Answer::Refused { number: 22, .. }
        )
}

/// Whether the run has ended and stores something.
fn stores(state: &State) -> bool {
    matches!(state.status, 4 | 5) && state.signal_count > 0
}

#[cfg(test)]
mod tests {
    use calls::{BufferedSignal, ErrorInfo, Event, Output, MOST, STORE};
    use generator::{joint, Generator};

    use super::*;

    fn record(call: &mut Call) -> &mut State {
        call.state.as_mut().expect("a record")
    }

    /// A noted event at a run of Joint A that has ended and stores so many.
    fn ended(status: u32, stored: usize) -> Call {
        let mut state = State::fresh(42);
        state.status = status;
        state.last_sequence = 9;
        state.result = match status {
            4 => Output::Handle(1),
            _ => Output::Error(ErrorInfo::default()),
        };
        state.signal_count = stored as u32;
        for signal in &mut state.signals[..stored] {
            signal.sequence = 7;
        }
        let noted = Event {
            kind: 5,
            ..Event::default()
        };
        joint::call(&joint::sheet(), Some(&state), noted)
    }

    fn reason(call: &Call) -> Option<Reason> {
        Reason::of(call, &plain::answer(call))
    }

    #[test]
    fn an_ended_run_that_stores_leaves() {
        for status in [4, 5] {
            for stored in [1, 2, STORE] {
                let mut call = ended(status, stored);
                for kind in 2..=5 {
                    call.event.kind = kind;
                    (call.event.status, call.event.resolution) = (1, 1);
                    assert_eq!(reason(&call), Some(Reason::StoredAtEnd));
                }
                // The run check comes before 22.
                call.event.sequence = 12;
                assert_eq!(reason(&call), Some(Reason::StoredAtEnd));
            }
            assert_eq!(reason(&ended(status, 0)), None);
        }
    }

    /// Where another refusal comes first, or another part of the run check refuses too, the call is compared.
    #[test]
    fn another_refusal_is_compared() {
        let changes: [(u32, fn(&mut Call)); 22] = [
            (20, |call| call.workflow.nodes[63].kind = 1),
            (1, |call| call.workflow.format = 3),
            (3, |call| call.ceilings.nodes = 1),
            (5, |call| call.workflow.start = 4),
            (12, |call| call.workflow.limits[0].limit = 3),
            (14, |call| call.workflow.routes[2].target = 2),
            (21, |call| call.event.kind = 6),
            (21, |call| call.event.sequence = MOST + 1),
            (21, |call| call.mappings.count = 3),
            (24, |call| call.event.kind = 1),
            (25, |call| record(call).last_sequence = MOST + 1),
            (25, |call| record(call).last_accepted_at = MOST + 1),
            (25, |call| record(call).signal_count = STORE as u32 + 1),
            (25, |call| record(call).signals[0].sequence = MOST + 1),
            (25, |call| record(call).signals[STORE - 1].data = 1),
            (25, |call| record(call).visits[4] = 1),
            (25, |call| record(call).streaks[0].count = 1),
            (25, |call| record(call).streaks[1].outcome = 4),
            (25, |call| record(call).results[0].visit = 1),
            (25, |call| record(call).position.node = 1),
            (25, |call| record(call).invocation.phase = 1),
            (25, |call| record(call).result = Output::Nothing),
        ];
        for status in [4, 5] {
            for (i, (number, change)) in changes.iter().enumerate() {
                let mut call = ended(status, 1);
                change(&mut call);
                let refused = Answer::Refused {
                    number: *number,
                    item: match number {
                        12 => 1,
                        14 => 3,
                        _ => NONE,
                    },
                };
                assert_eq!(plain::answer(&call), refused, "change {i}");
                assert_eq!(original::answer(&call), refused, "change {i}");
                assert_eq!(reason(&call), None, "change {i}");
            }
        }
    }

    /// Told without the original: the store is right in itself, and the plain reading takes the record without it.
    #[test]
    fn told_another_way() {
        let mut generator = Generator::new(1);
        let mut told = 0;
        for _ in 0..20_000 {
            let call = generator.call();
            if Reason::of_numbers(&call).is_some() {
                continue;
            }
            let mut emptied = call.clone();
            if let Some(state) = emptied.state.as_mut().filter(|state| stores(state)) {
                let count = state.signal_count as usize;
                let used = |signal: &BufferedSignal| signal.sequence <= MOST;
                let fits = count <= STORE
                    && state.signals[..count].iter().all(used)
                    && state.signals[count..] == State::fresh(0).signals[count..];
                state.signal_count = 0;
                state.signals = State::fresh(0).signals;
                let taken = matches!(
                    plain::answer(&emptied),
                    Answer::Next { .. } | Answer::Refused { number: 22, .. }
                );
                let only = reason(&call) == Some(Reason::StoredAtEnd);
                assert_eq!(only, fits && taken);
                told += u32::from(only);
            }
            generator.answered(&call, &plain::answer(&call));
        }
        assert!(told > 20);
    }

    #[test]
    fn a_live_run_that_stores_is_compared() {
        for case in joint::cases() {
            let is_live = |state: &State| state.status <= 3 && state.signal_count > 0;
            if case.call.state.as_ref().is_some_and(is_live) {
                assert_eq!(reason(&case.call), None, "{}", case.name);
            }
        }
    }
}
