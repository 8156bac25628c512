//! The event's check: refusal 21.

use calls::{Event, Mappings, MOST};

use super::{refused, Step};

pub(super) const START: u32 = 1;
pub(super) const SIGNAL: u32 = 2;
pub(super) const RESULT: u32 = 3;
pub(super) const RESOLVED: u32 = 4;
pub(super) const NOTED: u32 = 5;

pub(super) const SUCCESS: u32 = 1;
pub(super) const FAILURE: u32 = 2;
pub(super) const EXPIRED: u32 = 4;

pub(super) const COMPLETE: u32 = 1;
pub(super) const RETRY: u32 = 2;
pub(super) const FAIL: u32 = 3;

pub(super) const VALUE: u32 = 1;
pub(super) const FAULT: u32 = 2;
pub(super) const UNENCODABLE: u32 = 3;

pub(super) fn check(event: &Event, mappings: &Mappings) -> Step<()> {
    if event.sequence > MOST || event.accepted_at > MOST {
        return Err(refused(21));
    }
    let known = match event.kind {
        START | SIGNAL | NOTED => true,
        RESULT => (SUCCESS..=EXPIRED).contains(&event.status),
        RESOLVED => (COMPLETE..=FAIL).contains(&event.resolution),
        _ => false,
    };
    if !known || mappings.count > 2 {
        return Err(refused(21));
    }
    let given = &mappings.answers[..mappings.count as usize];
    if given
        .iter()
        .any(|answer| !(VALUE..=UNENCODABLE).contains(&answer.kind))
    {
        return Err(refused(21));
    }
    Ok(())
}
