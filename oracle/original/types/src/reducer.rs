//! Stands in for the request and the decision: plain structs, with the fields that the six files use.

#[derive(Debug, Clone)]
pub struct Descriptor {
    pub abi_version: String,
    pub semantics_version: String,
    pub graph_format_version: String,
    pub codec_version: String,
}

#[derive(Debug, Clone)]
pub struct Identity {
    pub semantics_version: String,
    pub codec_version: String,
}

#[derive(Debug, Clone, Copy)]
pub struct Limits {
    pub microsteps: u32,
    pub max_command_count: u32,
    pub max_state_bytes: u32,
    pub expression_operations: u32,
}

#[derive(Debug, Clone)]
pub struct Envelope {
    pub event_id: String,
    pub kind: String,
    pub sequence: u64,
    pub accepted_at_ms: u64,
    pub payload: Vec<u8>,
}

#[derive(Debug, Clone)]
pub struct TransitionRequest {
    pub identity: Identity,
    pub graph: Vec<u8>,
    pub snapshot: Option<Vec<u8>>,
    pub input_event: Envelope,
    pub frozen_limits: Limits,
}

#[derive(Debug, Clone)]
pub struct Command {
    pub command_id: String,
    pub activation_id: String,
    pub kind: String,
    pub payload: Vec<u8>,
}

#[derive(Debug, Clone)]
pub struct Diagnostic {
    pub code: String,
    pub node_id: Option<String>,
    pub details: Vec<u8>,
}

#[derive(Debug, Clone)]
pub struct Decision {
    pub snapshot: Vec<u8>,
    pub snapshot_digest: String,
    pub commands: Vec<Command>,
    pub diagnostics: Vec<Diagnostic>,
}

#[derive(Debug, Clone)]
pub struct Failure {
    pub code: String,
    pub message: String,
}

pub trait Reducer {
    fn describe(&self) -> Descriptor;
    fn kernel_digest(&self) -> String;
    fn transition(&self, request: &TransitionRequest) -> Result<Decision, Failure>;
}
