//! Stands in for the original's failures and encodings.

use runspore_types::reducer::Failure;
use runspore_types::script::{self, Trace};
use serde::Serialize;
use serde_json::{Map, Value};

fn failure(code: &str, message: impl Into<String>) -> Failure {
    Failure {
        code: code.to_string(),
        message: message.into(),
    }
}

pub(crate) fn invalid(code: &str, message: impl Into<String>) -> Failure {
    failure(code, message)
}

pub(crate) fn incompatible(code: &str, message: impl Into<String>) -> Failure {
    failure(code, message)
}

pub(crate) fn resource(code: &str, message: impl Into<String>) -> Failure {
    failure(code, message)
}

pub(crate) fn invariant(message: impl Into<String>) -> Failure {
    failure(crate::code::KERNEL_INVARIANT, message)
}

pub(crate) fn unencodable(message: String) -> Failure {
    failure(crate::code::BUDGET_VALUE_DEPTH, message)
}

pub(crate) fn encode<T: Serialize>(value: &T) -> Result<Vec<u8>, Failure> {
    serde_json::to_vec(value).map_err(|error| invariant(error.to_string()))
}

pub(crate) fn to_vec(value: &Value) -> Result<Vec<u8>, Failure> {
    script::trace(Trace::Details);
    encode(value)
}

pub(crate) fn object<const N: usize>(fields: [(&str, Value); N]) -> Value {
    let fields = fields
        .into_iter()
        .map(|(key, value)| (key.to_string(), value));
    Value::Object(fields.collect::<Map<_, _>>())
}
