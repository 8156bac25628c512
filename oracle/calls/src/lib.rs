//! The calls and answers of document 01 as plain Rust data, with every number as wide as the port holds it.
//!
//! Numbers stand for names: 255 is no node and an absent outcome. A count may exceed its capacity and a slot past its
//! count may be anything, because refusals 20 and 25 speak of both.

pub mod numbers;
pub mod text;

/// Lengths, capacities and offsets, as in include/kuxhoveza.h.
pub mod layout {
    include!(concat!(env!("OUT_DIR"), "/layout.rs"));
}

pub use layout::{ACTIONS, DECLARED, LIMITS, MAPPINGS, NODES, ROUTES, STORE};

pub const NONE: u32 = layout::NONE as u32;
/// 2^63 - 1, the largest counter or time.
pub const MOST: u64 = i64::MAX as u64;

#[derive(Debug, Clone, Copy, PartialEq, Eq, Default)]
pub struct Node {
    /// 1 activity, 2 await-signal, 3 complete, 4 fail.
    pub kind: u32,
    pub action: u32,
    /// 0 or 1.
    pub has_params: u32,
    pub signal: u32,
    pub code: u32,
    pub detail: u32,
    /// 0 or 1: the "has loopLimits" mark.
    pub has_limits: u32,
}

#[derive(Debug, Clone, Copy, PartialEq, Eq, Default)]
pub struct Route {
    pub node: u32,
    pub outcome: u32,
    pub target: u32,
}

#[derive(Debug, Clone, Copy, PartialEq, Eq, Default)]
pub struct Limit {
    pub node: u32,
    pub outcome: u32,
    pub limit: u32,
}

#[derive(Debug, Clone, Copy, PartialEq, Eq, Default)]
pub struct Action {
    /// 0 repeatable, 1 not, 2 reconcilable.
    pub effect: u32,
    pub max_attempts: u32,
}

#[derive(Debug, Clone, Copy, PartialEq, Eq, Default)]
pub struct Declared {
    pub action: u32,
    pub outcome: u32,
}

/// A sheet.
#[derive(Debug, Clone, PartialEq, Eq)]
pub struct Workflow {
    pub format: u32,
    pub start: u32,
    pub max_visits_per_node: u32,
    pub max_activations: u32,
    pub node_count: u32,
    pub route_count: u32,
    pub limit_count: u32,
    pub action_count: u32,
    pub declared_count: u32,
    pub nodes: [Node; NODES],
    pub routes: [Route; ROUTES],
    pub limits: [Limit; LIMITS],
    pub actions: [Action; ACTIONS],
    pub declared: [Declared; DECLARED],
}

#[derive(Debug, Clone, Copy, PartialEq, Eq, Default)]
pub struct ErrorInfo {
    /// 16 bits.
    pub code: u32,
    /// 255 for none.
    pub node: u32,
    pub detail: u32,
}

/// What a node or a run yielded.
#[derive(Debug, Clone, Copy, PartialEq, Eq, Default)]
pub enum Output {
    #[default]
    Nothing,
    Handle(u32),
    Error(ErrorInfo),
}

#[derive(Debug, Clone, Copy, PartialEq, Eq, Default)]
pub struct BufferedSignal {
    pub sequence: u64,
    pub event_id: u32,
    pub signal: u32,
    pub outcome: u32,
    pub data: u32,
}

#[derive(Debug, Clone, Copy, PartialEq, Eq, Default)]
pub struct Streak {
    pub outcome: u32,
    pub count: u32,
}

/// The latest result of a node; `Output::Nothing` where it has none.
#[derive(Debug, Clone, Copy, PartialEq, Eq, Default)]
pub struct NodeResult {
    pub visit: u32,
    pub outcome: u32,
    pub output: Output,
}

/// Node 255 and visit 0 for none.
#[derive(Debug, Clone, Copy, PartialEq, Eq)]
pub struct Position {
    pub node: u32,
    pub visit: u32,
}

/// Phase 0, node 255 and the rest 0 for none.
#[derive(Debug, Clone, Copy, PartialEq, Eq)]
pub struct InvocationState {
    /// 0 none, 1 scheduled, 2 unknown, 3 stuck.
    pub phase: u32,
    pub node: u32,
    pub visit: u32,
    pub action: u32,
    pub attempt: u32,
    /// The digest of the input: its handle.
    pub input: u32,
    pub error: Option<ErrorInfo>,
}

/// The run record.
#[derive(Debug, Clone, PartialEq, Eq)]
pub struct State {
    /// 1 running, 2 waiting, 3 needs intervention, 4 completed, 5 failed.
    pub status: u32,
    pub input: u32,
    pub activations: u32,
    pub last_sequence: u64,
    pub last_accepted_at: u64,
    pub position: Position,
    pub invocation: InvocationState,
    pub result: Output,
    pub signal_count: u32,
    /// Oldest first.
    pub signals: [BufferedSignal; STORE],
    pub visits: [u32; NODES],
    pub streaks: [Streak; NODES],
    pub results: [NodeResult; NODES],
}

/// Fields that its kind doesn't read are ignored.
#[derive(Debug, Clone, Copy, PartialEq, Eq, Default)]
pub struct Event {
    pub sequence: u64,
    pub accepted_at: u64,
    pub event_id: u32,
    /// 1 start, 2 signal, 3 result, 4 resolved, 5 noted.
    pub kind: u32,
    pub input: u32,
    pub signal: u32,
    pub outcome: u32,
    pub data: u32,
    pub node: u32,
    pub visit: u32,
    pub attempt: u32,
    /// 1 success, 2 failure, 3 unknown, 4 expired.
    pub status: u32,
    pub output: u32,
    pub has_error: bool,
    pub code: u32,
    pub detail: u32,
    pub retryable: bool,
    pub delay: u64,
    /// 1 complete, 2 retry, 3 fail.
    pub resolution: u32,
}

#[derive(Debug, Clone, Copy, PartialEq, Eq, Default)]
pub struct Mapping {
    /// 1 value, 2 fault, 3 unencodable.
    pub kind: u32,
    pub value: u32,
    pub code: u32,
    pub detail: u32,
    pub operations: u32,
}

#[derive(Debug, Clone, Copy, PartialEq, Eq, Default)]
pub struct Mappings {
    pub count: u32,
    pub answers: [Mapping; MAPPINGS],
}

#[derive(Debug, Clone, Copy, PartialEq, Eq)]
pub struct Ceilings {
    pub nodes: u32,
    pub visits: u32,
    pub activations: u32,
    pub attempts: u32,
}

#[derive(Debug, Clone, Copy, PartialEq, Eq)]
pub struct Limits {
    pub microsteps: u32,
    pub commands: u32,
    pub operations: u32,
}

#[derive(Debug, Clone, PartialEq, Eq)]
pub struct Call {
    pub ceilings: Ceilings,
    pub limits: Limits,
    pub workflow: Workflow,
    pub state: Option<State>,
    pub event: Event,
    pub mappings: Mappings,
}

#[derive(Debug, Clone, Copy, PartialEq, Eq)]
pub enum Order {
    Schedule {
        node: u32,
        visit: u32,
        action: u32,
        attempt: u32,
        not_before: u64,
        input: u32,
        params: Option<u32>,
    },
    Retry {
        node: u32,
        visit: u32,
        attempt: u32,
        not_before: u64,
    },
}

#[derive(Debug, Clone, Copy, PartialEq, Eq, Default)]
pub struct Note {
    pub code: u32,
    pub node: u32,
    pub a: u32,
    pub b: u32,
    pub c: u32,
}

#[derive(Debug, Clone, Copy, PartialEq, Eq, Default)]
pub struct Ending {
    pub sequence: u64,
    /// 1 routed, 2 unrouted, 3 overflow, 4 ignored.
    pub ending: u32,
}

#[derive(Debug, Clone, PartialEq, Eq)]
pub enum Answer {
    Next {
        state: Box<State>,
        orders: Vec<Order>,
        notes: Vec<Note>,
        endings: Vec<Ending>,
        microsteps: u32,
    },
    Wants {
        node: u32,
        /// 0 input, 1 params, 2 output.
        field: u32,
        from: u32,
        state: Box<State>,
    },
    Refused {
        number: u32,
        item: u32,
    },
}

impl Position {
    pub const NONE: Position = Position {
        node: NONE,
        visit: 0,
    };
}

impl InvocationState {
    pub const NONE: InvocationState = InvocationState {
        phase: 0,
        node: NONE,
        visit: 0,
        action: 0,
        attempt: 0,
        input: 0,
        error: None,
    };
}

impl State {
    /// The record that a start makes, before its start node is entered.
    pub fn fresh(input: u32) -> State {
        State {
            status: 1,
            input,
            activations: 0,
            last_sequence: 0,
            last_accepted_at: 0,
            position: Position::NONE,
            invocation: InvocationState::NONE,
            result: Output::Nothing,
            signal_count: 0,
            signals: [BufferedSignal::default(); STORE],
            visits: [0; NODES],
            streaks: [Streak::default(); NODES],
            results: [NodeResult::default(); NODES],
        }
    }
}

/// The rows of a sheet, as they are written down in tests and cases.
#[derive(Default)]
pub struct Rows<'a> {
    pub nodes: &'a [Node],
    /// Node, outcome, target.
    pub routes: &'a [(u32, u32, u32)],
    /// Node, outcome, limit.
    pub limits: &'a [(u32, u32, u32)],
    /// Effect, maxAttempts.
    pub actions: &'a [(u32, u32)],
    /// Action, outcome.
    pub declared: &'a [(u32, u32)],
}

impl Workflow {
    /// A sheet of format 2 that starts at node 0.
    pub fn of(max_visits_per_node: u32, max_activations: u32, rows: &Rows) -> Workflow {
        let mut workflow = Workflow {
            format: 2,
            max_visits_per_node,
            max_activations,
            node_count: rows.nodes.len() as u32,
            route_count: rows.routes.len() as u32,
            limit_count: rows.limits.len() as u32,
            action_count: rows.actions.len() as u32,
            declared_count: rows.declared.len() as u32,
            ..Workflow::empty()
        };
        workflow.nodes[..rows.nodes.len()].copy_from_slice(rows.nodes);
        for (row, &(node, outcome, target)) in workflow.routes.iter_mut().zip(rows.routes) {
            *row = Route {
                node,
                outcome,
                target,
            };
        }
        for (row, &(node, outcome, limit)) in workflow.limits.iter_mut().zip(rows.limits) {
            *row = Limit {
                node,
                outcome,
                limit,
            };
        }
        for (row, &(effect, max_attempts)) in workflow.actions.iter_mut().zip(rows.actions) {
            *row = Action {
                effect,
                max_attempts,
            };
        }
        for (row, &(action, outcome)) in workflow.declared.iter_mut().zip(rows.declared) {
            *row = Declared { action, outcome };
        }
        workflow
    }

    pub fn empty() -> Workflow {
        Workflow {
            format: 0,
            start: 0,
            max_visits_per_node: 0,
            max_activations: 0,
            node_count: 0,
            route_count: 0,
            limit_count: 0,
            action_count: 0,
            declared_count: 0,
            nodes: [Node::default(); NODES],
            routes: [Route::default(); ROUTES],
            limits: [Limit::default(); LIMITS],
            actions: [Action::default(); ACTIONS],
            declared: [Declared::default(); DECLARED],
        }
    }
}
