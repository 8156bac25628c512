//! Stands in for digests and derived ids.

/// The bytes as text, so that the digest of a handle is the handle.
pub fn body(bytes: &[u8]) -> String {
    String::from_utf8_lossy(bytes).into_owned()
}

/// Nobody reads it here.
pub fn state(_snapshot: &[u8]) -> String {
    String::new()
}

pub mod ids {
    use crate::script::{self, Trace};

    /// `<nodeId>/<visit>`, as the original's own message states it. The machine asks once for each admitted entry.
    pub fn activation(node_id: &str, visit: u32) -> String {
        let id = format!("{node_id}/{visit}");
        script::trace(Trace::Activation(id.clone()));
        id
    }

    /// There is one run, so the activation id names the invocation.
    pub fn invocation(_tenant: &str, _run_id: &str, activation_id: &str) -> String {
        activation_id.to_string()
    }

    pub fn effect_key(invocation_id: &str) -> String {
        invocation_id.to_string()
    }

    pub fn attempt(invocation_id: &str, attempt: u32) -> String {
        format!("{invocation_id}/{attempt}")
    }

    /// The machine asks once for each command.
    pub fn command(_tenant: &str, _run_id: &str, activation_id: &str, ordinal: u32) -> String {
        script::trace(Trace::Command(ordinal));
        attempt(activation_id, ordinal)
    }
}
