//! The linked library, called through the crate `kuxhoveza`.

use calls::{Answer, Call};
use kuxhoveza::{raw, Ceilings};

use crate::asked::{Asked, Boundary};

pub const LIBRARY: Boundary = Boundary {
    name: "library",
    transition: raw::transition,
    verdict: |sheet, ceilings, verdict| {
        let ceilings = Ceilings {
            nodes: ceilings.nodes,
            visits: ceilings.visits,
            activations: ceilings.activations,
            attempts: ceilings.attempts,
        };
        raw::verdict(sheet, ceilings, verdict)
    },
};

pub fn answer(call: &Call) -> Result<Answer, String> {
    Asked::of(call).answer(&LIBRARY)
}
