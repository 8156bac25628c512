//! Counts of what the calls reached.

use std::collections::BTreeMap;

use calls::layout::{ENDINGS, NOTES};
use calls::{Answer, Call, Note, Order, Output, State, NONE};
use generator::fields::{Field, FIELDS};

use crate::asked::Asked;
use crate::reasons::Reason;

/// Numbers above a field that are counted each.
const ABOVE: [(u64, &str); 6] = [
    (1 << 8, "256"),
    (1 << 16, "65536"),
    (u32::MAX as u64, "2^32 - 1"),
    (1 << 32, "2^32"),
    (1 << 63, "2^63"),
    (u64::MAX, "2^64 - 1"),
];

/// The ending of what is stored where a run ends.
const LEFT_OVER: u32 = 5;

#[derive(Default)]
pub struct Counts {
    /// Those that were compared with the original.
    pub calls: u64,
    reached: BTreeMap<String, u64>,
    /// Those that were not.
    left: BTreeMap<Reason, u64>,
}

impl Counts {
    pub fn count(&mut self, call: &Call, answer: &Answer) {
        self.calls += 1;
        for key in keys(call, answer) {
            self.add_one(key);
        }
    }

    pub fn add_one(&mut self, key: String) {
        *self.reached.entry(key).or_default() += 1;
    }

    /// The fields that hold too large a number, and the numbers.
    pub fn count_above(&mut self, asked: &Asked) {
        for (field, number) in asked.above() {
            self.add_one(field.key());
            let known = ABOVE.iter().find(|(known, _)| *known == number);
            let name = known.map_or("another", |(_, name)| name);
            self.add_one(format!("above its field: number {name}"));
        }
    }

    /// A call that is not compared.
    pub fn leave(&mut self, reason: Reason) {
        *self.left.entry(reason).or_default() += 1;
    }

    pub fn left(&self) -> u64 {
        self.left.values().sum()
    }

    pub fn left_for(&self, reason: Reason) -> u64 {
        self.left.get(&reason).copied().unwrap_or(0)
    }

    pub fn add(&mut self, other: &Counts) {
        self.calls += other.calls;
        for (reason, count) in &other.left {
            *self.left.entry(*reason).or_default() += count;
        }
        for (key, count) in &other.reached {
            *self.reached.entry(key.clone()).or_default() += count;
        }
    }

    pub fn of(&self, key: &str) -> u64 {
        self.reached.get(key).copied().unwrap_or(0)
    }

    /// What a comparison must reach and didn't.
    pub fn missing(&self) -> Vec<String> {
        let fields = FIELDS.iter().map(Field::key);
        let numbers = ABOVE.map(|(_, name)| format!("above its field: number {name}"));
        let said = (0..=6).map(|said| format!("boundary says {said}"));
        let at_boundary = fields.chain(numbers).chain(said);
        let keys = required().into_iter().chain(at_boundary);
        let missing = keys.filter(|key| self.of(key) == 0);
        let reasons = Reason::ALL.into_iter();
        let reasons = reasons.filter(|it| it.is_due() && self.left_for(*it) == 0);
        missing
            .chain(reasons.map(|it| it.text().to_string()))
            .collect()
    }

    /// Rows of a table in Markdown.
    pub fn table(&self) -> String {
        let mut text = String::from("| Reached | Calls |\n|---|---|\n");
        for (key, count) in &self.reached {
            text.push_str(&format!("| {key} | {count} |\n"));
        }
        text
    }

    /// The same of those that were not compared.
    pub fn reasons(&self) -> String {
        let mut text = String::from("| Not compared | Calls |\n|---|---|\n");
        for reason in Reason::ALL {
            text.push_str(&format!(
                "| {} | {} |\n",
                reason.text(),
                self.left_for(reason)
            ));
        }
        text
    }
}

/// Everything of this call that is worth counting, each once.
pub fn keys(call: &Call, answer: &Answer) -> Vec<String> {
    let mut keys = Vec::new();
    match answer {
        Answer::Refused { number, item } => {
            let item = match (number, item) {
                (_, &NONE) => "no item",
                (7 | 16, _) => "an action",
                _ => "a node",
            };
            keys.push(format!("refusal {number:02}, {item}"));
        }
        Answer::Wants {
            field, from, state, ..
        } => {
            let field = ["input", "params", "output"][*field as usize % 3];
            let from = if *from == NONE { "start" } else { "a node" };
            keys.push(format!("want {field}, from {from}"));
            keys.push(format!("want in status {}", state.status));
        }
        Answer::Next {
            state,
            orders,
            notes,
            endings,
            microsteps,
        } => {
            keys.push(format!("next, event {}", call.event.kind));
            keys.push(format!("next, status {}", state.status));
            keys.push(order_key(orders));
            keys.push(steps_key(*microsteps));
            keys.extend(notes.iter().map(note_key));
            keys.extend(endings.iter().map(|e| format!("ending {}", e.ending)));
            if notes.len() == NOTES {
                keys.push(format!("{NOTES} notes"));
            }
            if endings.len() == ENDINGS {
                keys.push(format!("{ENDINGS} endings"));
            }
            if endings.iter().any(|it| it.ending == LEFT_OVER) {
                keys.push(left_over_key(way(call, state, *microsteps)));
                if (call.event.kind, call.event.resolution) == (4, 1) {
                    keys.push(left_over_key("operator's complete"));
                }
                if endings.len() == ENDINGS {
                    keys.push(format!("left over in {ENDINGS} endings"));
                }
            }
            keys.extend(error_keys(call, answer));
        }
    }
    keys.sort();
    keys.dedup();
    keys
}

fn order_key(orders: &[Order]) -> String {
    match orders.first() {
        None => "order none".to_string(),
        Some(Order::Schedule { params: None, .. }) => "order schedule".to_string(),
        Some(Order::Schedule { .. }) => "order schedule with params".to_string(),
        Some(Order::Retry { .. }) => "order retry".to_string(),
    }
}

fn steps_key(microsteps: u32) -> String {
    match microsteps {
        0..=3 => format!("microsteps {microsteps}"),
        4..=64 => "microsteps 4 to 64".to_string(),
        65..=129 => "microsteps 65 to 129".to_string(),
        _ => format!("microsteps {microsteps}"),
    }
}

fn note_key(note: &Note) -> String {
    let current = if note.node == NONE {
        "no node"
    } else {
        "current"
    };
    match note.code {
        1 => format!("note 1, kind {}", note.a),
        2 => format!("note 2, {current}"),
        3 => format!("note 3, reason {}", note.c),
        6 => format!("note 6, status {}", note.c),
        7 if (3..=5).contains(&note.c) => format!("note 7, code {}", note.c),
        7 => "note 7, host's code".to_string(),
        code => format!("note {code}"),
    }
}

/// The ways to an end with something stored.
const WAYS: [&str; 13] = [
    "complete",
    "fail node",
    "fault at input",
    "fault at params",
    "fault at output",
    "visit limit",
    "activation limit",
    "failure",
    "undeclared outcome",
    "attempts exhausted",
    "operator's fail, unknown",
    "operator's fail, stuck",
    "operator's complete",
];

fn left_over_key(way: &str) -> String {
    format!("left over: {way}")
}

/// How the call ended the run, but for an operator's complete, which leads to one of these.
fn way(call: &Call, state: &State, microsteps: u32) -> &'static str {
    let Output::Error(error) = state.result else {
        return "complete";
    };
    let before = call.state.as_ref().expect("a store");
    if microsteps == 0 {
        let phase = before.invocation.phase;
        return match (call.event.kind, call.event.status, phase) {
            (3, 1, _) => "undeclared outcome",
            (3, 2, _) => "failure",
            (3, _, _) => "attempts exhausted",
            (_, _, 3) => "operator's fail, stuck",
            _ => "operator's fail, unknown",
        };
    }
    // The last node to be entered; one that a call enters more than once is an await node.
    let node = error.node as usize;
    let entered = state.visits[node] != before.visits[node];
    match (call.workflow.nodes[node].kind, entered) {
        (2, _) | (_, false) if error.code == 1 => "visit limit",
        (2, _) | (_, false) => "activation limit",
        (3, _) => "fault at output",
        (4, _) => "fail node",
        _ if call.mappings.answers[0].kind == 2 => "fault at input",
        _ => "fault at params",
    }
}

/// Which kernel codes this call brought into the record, and where.
fn error_keys(call: &Call, answer: &Answer) -> Vec<String> {
    let Answer::Next { state, .. } = answer else {
        return Vec::new();
    };
    let mut keys = Vec::new();
    let ended_before = call.state.as_ref().is_some_and(|state| state.status > 3);
    if let (Output::Error(error), false) = (&state.result, ended_before) {
        if (1..=5).contains(&error.code) {
            keys.push(format!("run's error, code {}", error.code));
        }
    }
    for node in 0..state.results.len() {
        let before = call.state.as_ref().map(|state| state.results[node]);
        if let Output::Error(error) = &state.results[node].output {
            if before != Some(state.results[node]) && (3..=5).contains(&error.code) {
                keys.push(format!("node's error, code {}", error.code));
            }
        }
    }
    keys
}

/// What the answers of a comparison, and of the sample, must reach.
pub fn required() -> Vec<String> {
    let mut keys: Vec<String> = Vec::new();
    for number in [20, 1, 3, 5, 6, 21, 22, 23, 24, 25, 26, 27, 28, 29, 30] {
        keys.push(format!("refusal {number:02}, no item"));
    }
    for number in [1, 8, 9, 12, 14, 15] {
        keys.push(format!("refusal {number:02}, a node"));
    }
    for number in [7, 16] {
        keys.push(format!("refusal {number:02}, an action"));
    }
    for status in 1..=5 {
        keys.push(format!("next, status {status}"));
        keys.push(format!("next, event {status}"));
        keys.push(format!("run's error, code {status}"));
    }
    for ending in 1..=LEFT_OVER {
        keys.push(format!("ending {ending}"));
    }
    for way in WAYS {
        keys.push(left_over_key(way));
    }
    for kind in 2..=5 {
        keys.push(format!("note 1, kind {kind}"));
    }
    for code in 3..=5 {
        keys.push(format!("note 3, reason {}", code - 2));
        keys.push(format!("note 7, code {code}"));
        keys.push(format!("node's error, code {code}"));
    }
    for rest in [
        "note 2, current",
        "note 2, no node",
        "note 4",
        "note 5",
        "note 6, status 3",
        "note 6, status 4",
        "note 7, host's code",
        "note 8",
        "note 9",
        "order none",
        "order schedule",
        "order schedule with params",
        "order retry",
        "want input, from start",
        "want input, from a node",
        "want params, from start",
        "want params, from a node",
        "want output, from start",
        "want output, from a node",
        "want in status 1",
        "want in status 2",
        "want in status 3",
        "microsteps 130",
    ] {
        keys.push(rest.to_string());
    }
    keys.push(format!("{NOTES} notes"));
    keys.push(format!("{ENDINGS} endings"));
    keys.push(format!("left over in {ENDINGS} endings"));
    keys
}

#[cfg(test)]
mod tests {
    use generator::directed;

    use super::*;

    #[test]
    fn directed_calls_reach_every_way_to_an_end() {
        let mut counts = Counts::default();
        for call in directed::calls() {
            counts.count(&call, &plain::answer(&call));
        }
        for way in WAYS {
            assert!(counts.of(&left_over_key(way)) > 0, "{way}");
        }
    }
}
