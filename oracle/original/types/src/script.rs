//! What the stand-ins are told before a call and what they saw in it.

use std::cell::RefCell;

use crate::model::State;

/// The answer to one evaluation of a mapping.
#[derive(Debug, Clone)]
pub enum Mapped {
    Value {
        value: u32,
        operations: u32,
    },
    Fault {
        code: String,
        detail: u32,
        operations: u32,
    },
    Unencodable,
}

/// An evaluation without an answer: its node and field as the mapping names them, the node come from, and the state
/// at that moment.
#[derive(Debug, Clone)]
pub struct Wanted {
    pub node: u32,
    pub field: u32,
    pub from: Option<String>,
    pub state: State,
}

#[derive(Debug, Clone, PartialEq, Eq)]
pub enum Trace {
    /// An activation id was made.
    Activation(String),
    /// Details or an input were encoded: once for each diagnostic, and at last once for a scheduled input.
    Details,
    /// A command was numbered with the attempt it authorizes.
    Command(u32),
}

#[derive(Debug, Default)]
pub struct Script {
    /// Read from the end.
    pub answers: Vec<Mapped>,
    pub wanted: Option<Wanted>,
    pub trace: Vec<Trace>,
}

thread_local! {
    static SCRIPT: RefCell<Script> = RefCell::default();
}

/// Puts a script in place and hands back the one before.
pub fn replace(script: Script) -> Script {
    SCRIPT.with_borrow_mut(|current| std::mem::replace(current, script))
}

pub fn trace(seen: Trace) {
    SCRIPT.with_borrow_mut(|script| script.trace.push(seen));
}

pub fn next_answer() -> Option<Mapped> {
    SCRIPT.with_borrow_mut(|script| script.answers.pop())
}

pub fn want(wanted: Wanted) {
    SCRIPT.with_borrow_mut(|script| script.wanted = Some(wanted));
}
