//! The generator: histories of calls, each on the last accepted record, with damage on the way.

use calls::{
    Answer, Call, Ceilings, Event, Limits, Mapping, Mappings, State, Workflow, DECLARED, MOST,
    NODES, NONE,
};

use crate::records::{self, any_code, any_name, CODES, NAMES};
use crate::rng::{Rng, EDGES, LONG_EDGES};
use crate::{directed, full, sheets};

/// Gives one call after the other; the answer to each is told to it.
pub struct Generator {
    rng: Rng,
    directed: Vec<Call>,
    workflow: Workflow,
    state: Option<State>,
    left: usize,
    /// The event of a call that was answered with a want.
    wanted: Option<Event>,
    /// The last result that was sent.
    result: Option<Event>,
    all_lengths: bool,
}

impl Generator {
    /// The directed calls, then random ones.
    pub fn new(seed: u64) -> Generator {
        let mut directed = directed::calls();
        directed.reverse();
        Generator {
            directed,
            ..Generator::random(seed)
        }
    }

    /// Random calls alone.
    pub fn random(seed: u64) -> Generator {
        Generator {
            rng: Rng::new(seed),
            directed: Vec::new(),
            workflow: Workflow::empty(),
            state: None,
            left: 0,
            wanted: None,
            result: None,
            all_lengths: false,
        }
    }

    /// The same with full sheets among them, and histories of 1 to 512 calls, short ones as likely as long ones.
    pub fn of_all_lengths(seed: u64) -> Generator {
        let mut generator = Generator::new(seed);
        generator.directed.extend(directed::at_counts());
        generator.all_lengths = true;
        generator
    }

    fn length(&mut self) -> usize {
        match self.all_lengths {
            true => {
                let most = 1 << self.rng.below(10);
                1 + self.rng.below(most)
            }
            false => 4 + self.rng.below(26),
        }
    }

    pub fn call(&mut self) -> Call {
        if let Some(call) = self.directed.pop() {
            return call;
        }
        if self.left == 0 {
            self.workflow = match self.all_lengths && self.rng.one_in(40) {
                true => full::sheet(2 + self.rng.small(63)),
                false => sheets::right(&mut self.rng),
            };
            self.state = None;
            self.wanted = None;
            self.result = None;
            self.left = self.length();
        }
        self.left -= 1;
        if self.rng.percent(14) {
            if let Some(state) = &mut self.state {
                records::edit(&mut self.rng, &self.workflow, state);
            }
        }
        let again = self.wanted.take().filter(|_| self.rng.percent(85));
        let repeated = again.is_some();
        let event = match again {
            Some(event) => event,
            None => self.event(),
        };
        if event.kind == 3 {
            self.result = Some(event);
        }
        let mut call = Call {
            ceilings: self.ceilings(),
            limits: self.limits(),
            workflow: self.workflow.clone(),
            state: self.state.clone(),
            event,
            mappings: self.mappings(repeated),
        };
        self.damage(&mut call);
        call
    }

    /// An accepted call's record is that of the next call.
    pub fn answered(&mut self, call: &Call, answer: &Answer) {
        if self.left == 0 {
            return;
        }
        match answer {
            Answer::Next { state, .. } => {
                self.workflow = call.workflow.clone();
                self.state = Some((**state).clone());
                if state.status > 3 && self.rng.percent(60) {
                    self.left = self.left.min(2);
                }
            }
            Answer::Wants { .. } => self.wanted = Some(call.event),
            Answer::Refused { .. } => {}
        }
    }

    fn damage(&mut self, call: &mut Call) {
        let rng = &mut self.rng;
        let many = |rng: &mut Rng| 1 + rng.weighted(&[65, 22, 13]);
        if rng.percent(16) {
            for _ in 0..many(rng) {
                sheets::damage(rng, &mut call.workflow);
            }
        }
        if let Some(state) = &mut call.state {
            if rng.percent(9) {
                for _ in 0..many(rng) {
                    records::damage(rng, &call.workflow, state);
                }
            }
        }
        if rng.percent(4) {
            damage_event(rng, call);
        }
    }

    fn ceilings(&mut self) -> Ceilings {
        let rng = &mut self.rng;
        let sheet = &self.workflow;
        let attempts = sheet.actions.iter().map(|a| a.max_attempts).max();
        let attempts = attempts.unwrap_or(1);
        let mut ceilings = match rng.below(4) {
            0 => Ceilings {
                nodes: 256,
                visits: 1000,
                activations: 10000,
                attempts: 100,
            },
            1 => Ceilings {
                nodes: 64,
                visits: sheet.max_visits_per_node.max(1),
                activations: sheet.max_activations.max(1),
                attempts: attempts.max(1),
            },
            _ => Ceilings {
                nodes: u32::MAX,
                visits: u32::MAX,
                activations: u32::MAX,
                attempts: u32::MAX,
            },
        };
        if rng.percent(5) {
            let tight = |rng: &mut Rng, value: u32| match rng.below(5) {
                0 => value,
                1 => value.saturating_sub(1),
                2 => value.saturating_add(1),
                3 => 0,
                _ => rng.pick(&EDGES),
            };
            match rng.below(4) {
                0 => ceilings.nodes = tight(rng, sheet.node_count),
                1 => ceilings.visits = tight(rng, sheet.max_visits_per_node),
                2 => ceilings.activations = tight(rng, sheet.max_activations),
                _ => ceilings.attempts = tight(rng, attempts),
            }
        }
        ceilings
    }

    fn limits(&mut self) -> Limits {
        let rng = &mut self.rng;
        let mut limits = Limits {
            microsteps: 130,
            commands: 10,
            operations: 10,
        };
        match rng.below(20) {
            0 | 1 => limits.microsteps = rng.pick(&[0, 1, 1, 2, 2, 3, 4, 5, 64, 65, 128, 129, 131]),
            2 => limits.microsteps = rng.pick(&EDGES),
            3 => limits.commands = rng.pick(&[0, 0, 1, u32::MAX]),
            4 | 5 => limits.operations = rng.pick(&[0, 1, 5, 9, 11]),
            6 => limits.operations = rng.pick(&EDGES),
            _ => {}
        }
        limits
    }

    fn mappings(&mut self, repeated: bool) -> Mappings {
        let rng = &mut self.rng;
        let count = match repeated {
            true => 2,
            false => rng.weighted(&[9, 35, 55]) as u32,
        };
        let huge = rng.one_in(80);
        let mut answer = || Mapping {
            kind: 1 + rng.weighted(&[90, 7, 3]) as u32,
            value: rng.pick(&[0, 501, 502, u32::MAX]),
            code: rng.pick(&CODES),
            detail: rng.pick(&[0, 8, u32::MAX]),
            operations: match rng.below(40) {
                _ if huge => rng.pick(&[1, 1 << 31, u32::MAX]),
                0 => rng.pick(&EDGES),
                1..=4 => 5 + rng.small(7),
                _ => rng.small(4),
            },
        };
        Mappings {
            count,
            answers: [answer(), answer()],
        }
    }

    fn event(&mut self) -> Event {
        let Some(state) = self.state.clone() else {
            return self.first_event();
        };
        let rng = &mut self.rng;
        let mut event = Event {
            sequence: state.last_sequence.wrapping_add(1),
            accepted_at: time(rng, state.last_accepted_at),
            event_id: match rng.one_in(50) {
                true => rng.pick(&EDGES),
                false => 1000 + rng.small(4000),
            },
            ..junk(rng)
        };
        // start, signal, result, resolved, noted
        let weights = match state.status {
            1 => [2, 22, 64, 8, 4],
            2 => [2, 80, 9, 5, 4],
            3 => [2, 14, 16, 64, 4],
            _ => [5, 30, 30, 25, 10],
        };
        event.kind = 1 + rng.weighted(&weights) as u32;
        match event.kind {
            2 => signal(rng, &self.workflow, &state, &mut event),
            3 => {
                if let Some(last) = self.result.filter(|_| rng.percent(6)) {
                    let sequence = event.sequence;
                    event = last;
                    event.sequence = sequence;
                } else {
                    result(rng, &self.workflow, &state, &mut event);
                }
            }
            4 => resolved(rng, &self.workflow, &state, &mut event),
            _ => {}
        }
        if rng.percent(3) {
            let last = state.last_sequence;
            let values = [last, last.wrapping_add(2), last.wrapping_sub(1), 0, 1];
            event.sequence = rng.pick(&values);
        }
        event
    }

    fn first_event(&mut self) -> Event {
        let rng = &mut self.rng;
        let mut event = Event {
            sequence: 1,
            accepted_at: time(rng, 0),
            event_id: 1000,
            kind: 1,
            input: rng.pick(&[42, 0, u32::MAX]),
            ..junk(rng)
        };
        if rng.percent(5) {
            event.kind = 2 + rng.small(4);
        }
        if rng.percent(4) {
            event.sequence = rng.pick(&LONG_EDGES);
        }
        event
    }
}

/// An event whose every field holds something; those that its kind doesn't read must not matter.
fn junk(rng: &mut Rng) -> Event {
    Event {
        input: rng.pick(&[0, 42]),
        signal: rng.pick(&[0, 5, 6]),
        outcome: rng.pick(&[0, 1, 4, 255]),
        data: rng.small(100),
        node: rng.small(4),
        visit: rng.small(4),
        attempt: rng.small(3),
        status: rng.small(6),
        output: rng.small(100),
        has_error: rng.percent(50),
        code: rng.pick(&CODES),
        detail: rng.pick(&[0, 9, u32::MAX]),
        retryable: rng.percent(60),
        delay: rng.pick(&[0, 1000]),
        resolution: rng.small(5),
        ..Event::default()
    }
}

fn time(rng: &mut Rng, last: u64) -> u64 {
    match rng.below(40) {
        0 => rng.pick(&LONG_EDGES).min(MOST),
        1..=5 => last / 2,
        6..=8 => last.saturating_sub(1),
        9..=14 => last,
        _ => (last + rng.next() % 1000).min(MOST),
    }
}

fn signal(rng: &mut Rng, workflow: &Workflow, state: &State, event: &mut Event) {
    event.signal = match state.status {
        2 if rng.percent(70) => workflow.nodes[state.position.node as usize % NODES].signal,
        _ => records::signal(rng, workflow),
    };
    event.outcome = match rng.percent(55) {
        true => routed(rng, workflow, state.position.node).unwrap_or(NONE),
        false => records::outcome(rng, workflow),
    };
}

/// An outcome that the node routes.
fn routed(rng: &mut Rng, workflow: &Workflow, node: u32) -> Option<u32> {
    let used = (workflow.route_count as usize).min(calls::ROUTES);
    let rows: Vec<u32> = workflow.routes[..used]
        .iter()
        .filter(|row| row.node == node)
        .map(|row| row.outcome)
        .collect();
    (!rows.is_empty()).then(|| rng.pick(&rows))
}

/// An outcome that the action declares, mostly.
fn declared(rng: &mut Rng, workflow: &Workflow, action: u32, absent: usize) -> u32 {
    let used = (workflow.declared_count as usize).min(DECLARED);
    let rows: Vec<u32> = workflow.declared[..used]
        .iter()
        .filter(|row| row.action == action)
        .map(|row| row.outcome)
        .collect();
    if rng.percent(absent) {
        return NONE;
    }
    match rows.is_empty() || rng.percent(12) {
        true => rng.pick(&NAMES),
        false => rng.pick(&rows),
    }
}

/// Node and visit of the invocation, mostly.
fn name(rng: &mut Rng, state: &State, event: &mut Event) {
    let invocation = &state.invocation;
    event.node = invocation.node;
    event.visit = invocation.visit;
    event.attempt = invocation.attempt;
    match rng.below(25) {
        0 => event.node = any_name(rng),
        1 => event.visit = event.visit.wrapping_add(rng.pick(&[1, u32::MAX])),
        2 => event.visit = rng.pick(&EDGES),
        3 => event.attempt = event.attempt.wrapping_add(rng.pick(&[1, u32::MAX])),
        4 => event.attempt = rng.pick(&EDGES),
        _ => {}
    }
}

fn result(rng: &mut Rng, workflow: &Workflow, state: &State, event: &mut Event) {
    name(rng, state, event);
    event.status = 1 + rng.weighted(&[50, 26, 12, 12]) as u32;
    event.outcome = declared(rng, workflow, state.invocation.action, 18);
    event.delay = match rng.below(16) {
        0 => rng.pick(&LONG_EDGES),
        1 => MOST - state.last_accepted_at.max(event.accepted_at).min(MOST) + rng.next() % 2,
        _ => rng.next() % 5000,
    };
}

fn resolved(rng: &mut Rng, workflow: &Workflow, state: &State, event: &mut Event) {
    name(rng, state, event);
    event.resolution = 1 + rng.weighted(&[45, 30, 25]) as u32;
    event.outcome = declared(rng, workflow, state.invocation.action, 6);
}

/// What refusals 21 to 24 speak of, boundary values, and numbers that their fields can't hold.
fn damage_event(rng: &mut Rng, call: &mut Call) {
    let event = &mut call.event;
    match rng.below(12) {
        0 => event.sequence = rng.pick(&LONG_EDGES),
        1 => event.accepted_at = rng.pick(&LONG_EDGES),
        2 => event.kind = rng.pick(&[0, 1, 2, 3, 4, 5, 6, 255, u32::MAX]),
        3 => event.status = rng.pick(&[0, 5, 255, u32::MAX]),
        4 => event.resolution = rng.pick(&[0, 4, 255, u32::MAX]),
        5 => call.mappings.count = rng.pick(&[3, 3, 255, u32::MAX]),
        6 => call.mappings.answers[rng.below(2)].kind = rng.pick(&[0, 4, 255, u32::MAX]),
        7 => call.state = None,
        8 => event.kind = 1,
        9 => match rng.below(3) {
            0 => event.signal = any_name(rng),
            1 => event.outcome = any_name(rng),
            _ => event.node = any_name(rng),
        },
        10 => match rng.below(2) {
            0 => event.code = any_code(rng),
            _ => call.mappings.answers[rng.below(2)].code = any_code(rng),
        },
        _ => {
            event.kind = 3 + rng.small(2);
            event.status = rng.pick(&[0, 1, 4, 5]);
            event.resolution = rng.pick(&[0, 1, 3, 4]);
        }
    }
    if call.event.kind == 3 && rng.percent(20) {
        call.event.outcome = any_name(rng);
    }
}
