//! Stands in for mappings: each evaluation takes the next scripted answer. A mapping is the pair of its node and field.

use std::collections::BTreeMap;
use std::mem::offset_of;

use runspore_types::model::{NodeResult, State};
use runspore_types::script::{self, Mapped, Wanted};
use serde_json::Value;

#[derive(Debug, Clone, Copy, PartialEq, Eq)]
pub enum Dialect {
    V0_1,
    V0_2,
}

pub fn check_dialect(_mapping: &Value, _dialect: Dialect) -> Result<(), String> {
    Ok(())
}

pub struct Context<'a> {
    pub input: &'a Value,
    pub nodes: &'a BTreeMap<String, NodeResult>,
    pub run_id: &'a str,
    pub tenant: &'a str,
    pub from: Option<(&'a str, &'a NodeResult)>,
}

impl Context<'_> {
    /// The state whose input this is: the machine lends no other way to see it.
    fn state(&self) -> State {
        let input: *const Value = self.input;
        // SAFETY: the machine builds every context from one state that lives longer than the context and that
        // nobody changes while it does; `input` is a field of that state, and `nodes` is checked to be one too.
        unsafe {
            let state = &*input.byte_sub(offset_of!(State, input)).cast::<State>();
            assert!(std::ptr::eq(&state.nodes, self.nodes));
            state.clone()
        }
    }
}

#[derive(Debug, Clone)]
pub enum Error {
    MissingPath(Fault),
    InvalidOperand(Fault),
    Unencodable(String),
}

/// A fault as the caller supplied it.
#[derive(Debug, Clone)]
pub struct Fault {
    code: String,
    detail: u32,
}

impl Error {
    pub fn code(&self) -> &str {
        match self {
            Error::MissingPath(fault) | Error::InvalidOperand(fault) => &fault.code,
            Error::Unencodable(_) => crate::code::BUDGET_VALUE_DEPTH,
        }
    }

    pub fn details(&self, _path: &[Value]) -> Value {
        match self {
            Error::MissingPath(fault) | Error::InvalidOperand(fault) => Value::from(fault.detail),
            Error::Unencodable(_) => Value::Null,
        }
    }
}

/// Without an answer the call is broken off as unencodable, and the want says why.
pub fn evaluate(
    mapping: &Value,
    context: &Context<'_>,
    operations: &mut u64,
) -> Result<Value, Error> {
    let mut count = |added: u32| *operations += u64::from(added);
    match script::next_answer() {
        Some(Mapped::Value {
            value,
            operations: added,
        }) => {
            count(added);
            Ok(Value::from(value))
        }
        Some(Mapped::Fault {
            code,
            detail,
            operations: added,
        }) => {
            count(added);
            let fault = Fault { code, detail };
            match detail % 2 {
                0 => Err(Error::MissingPath(fault)),
                _ => Err(Error::InvalidOperand(fault)),
            }
        }
        Some(Mapped::Unencodable) => Err(Error::Unencodable("too deep".to_string())),
        None => {
            script::want(wanted(mapping, context));
            Err(Error::Unencodable("no answer".to_string()))
        }
    }
}

fn wanted(mapping: &Value, context: &Context<'_>) -> Wanted {
    let number = |index: usize| {
        let value = mapping.get(index).and_then(Value::as_u64);
        u32::try_from(value.expect("a mapping is a pair of numbers")).expect("32 bits")
    };
    Wanted {
        node: number(0),
        field: number(1),
        from: context.from.map(|(node_id, _)| node_id.to_string()),
        state: context.state(),
    }
}
