//! Wrong readings of documents 01 and 02: the plain reading with one error planted in each, to test the generator.

use calls::{Answer, Call};

pub struct Reading {
    pub about: &'static str,
    pub answer: fn(&Call) -> Answer,
}

include!(concat!(env!("OUT_DIR"), "/readings.rs"));
