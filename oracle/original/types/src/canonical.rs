//! Stands in for canonical JSON: plain JSON.

use serde::de::DeserializeOwned;
use serde_json::{Error, Value};

pub fn decode<T: DeserializeOwned>(bytes: &[u8]) -> Result<T, Error> {
    serde_json::from_slice(bytes)
}

pub fn parse_canonical(bytes: &[u8]) -> Result<Value, Error> {
    serde_json::from_slice(bytes)
}
