//! Calls and answers of `calls`, for comparisons. Only this uses the heap.

use calls::{Answer, Call};

use super::{transition, Decision, Kind};

/// The answer to a call.
pub fn answer(call: &Call) -> Answer {
    let mut out = Decision::new();
    out.decide(call);
    out.answer()
}

impl Decision {
    /// Becomes the decision on a call.
    pub fn decide(&mut self, call: &Call) {
        transition(
            &call.workflow,
            call.state.as_ref(),
            &call.event,
            &call.mappings,
            &call.ceilings,
            &call.limits,
            self,
        );
    }

    pub fn answer(&self) -> Answer {
        match self.kind {
            Kind::Next => Answer::Next {
                state: Box::new(self.state.clone()),
                orders: self.order.into_iter().collect(),
                notes: self.notes[..self.note_count].to_vec(),
                endings: self.endings[..self.ending_count].to_vec(),
                microsteps: self.microsteps,
            },
            Kind::Wants { node, field, from } => Answer::Wants {
                node,
                field,
                from,
                state: Box::new(self.state.clone()),
            },
            Kind::Refused { number, item } => Answer::Refused { number, item },
        }
    }
}
