//! The text form: unsigned decimals apart by blanks, one call or one answer a line.
//!
//! ```text
//! CALL   = 4 ceilings (nodes visits activations attempts)  3 limits (microsteps commands operations)
//!          SHEET  (0 | 1 RECORD)  EVENT  count ANSWER*  [PATCH PATCH]
//! SHEET  = format start maxVisits maxActivations
//!          count (kind action params signal code detail mark)*
//!          count (node outcome target)*    count (node outcome limit)*
//!          count (effect maxAttempts)*     count (action outcome)*
//! RECORD = status input activations lastSequence lastTime  posNode posVisit
//!          (0 | 1 node visit action attempt phase input (0 | 1 ERROR))
//!          (0 | 1 handle | 2 ERROR)
//!          count (node visits)*  count (node visit outcome OUTPUT)*  count (node outcome count)*
//!          count (sequence eventId signal outcome data)*
//! ERROR  = code node detail
//! OUTPUT = 0 handle | 1 ERROR
//! EVENT  = sequence time eventId then
//!          1 input | 2 signal outcome data
//!          3 node visit attempt status outcome output (0 | 1 ERROR) retryable delay
//!          4 node visit (1 outcome output | 2 | 3 ERROR)
//!          any other kind or resolution: nothing more follows it
//! ANSWER = 1 handle operations | 2 code detail operations | any other: nothing more
//! PATCH  = count (offset value)*
//!
//! answer = 0 RECORD  count ORDER*  count (code node a b c)*  count (sequence ending)*  microsteps
//!        | 1 node field from RECORD
//!        | 2 number item
//! ORDER  = 1 node visit action attempt notBefore input (0 | 1 params) | 2 node visit attempt notBefore
//! ```
//!
//! The two patches, of the sheet and of the record, are there only where a call needs one. They set what the rows
//! can't say, at the offsets of docs/NUMBERS.md: in the sheet a count over its capacity and slots past their count,
//! in the record the stored signals likewise and the visit or outcome of a result without output. The node of an
//! event's error is not read, and written as 255. Where a call has over two mapping answers, three are written.

use std::fmt::Write;

use crate::{
    layout as at, numbers, Action, Answer, BufferedSignal, Call, Ceilings, Declared, Ending,
    ErrorInfo, Event, InvocationState, Limit, Limits, Mapping, Mappings, Node, NodeResult, Note,
    Order, Output, Position, Route, State, Streak, Workflow, NODES, NONE,
};

type Parsed<T> = Result<T, String>;

pub fn parse_call(line: &str) -> Parsed<Call> {
    let mut reader = Reader::new(line);
    let mut call = reader.call()?;
    if reader.more() {
        reader.patches(&mut call)?;
    }
    reader.end()?;
    Ok(call)
}

pub fn parse_answer(line: &str) -> Parsed<Answer> {
    let mut reader = Reader::new(line);
    let answer = reader.answer()?;
    reader.end()?;
    Ok(answer)
}

pub fn print_call(call: &Call) -> String {
    let mut writer = Writer::default();
    writer.call(call);
    writer.line
}

pub fn print_answer(answer: &Answer) -> String {
    let mut writer = Writer::default();
    writer.answer(answer);
    writer.line
}

struct Reader<'a> {
    words: std::iter::Peekable<std::str::SplitAsciiWhitespace<'a>>,
}

impl<'a> Reader<'a> {
    fn new(line: &'a str) -> Self {
        Self {
            words: line.split_ascii_whitespace().peekable(),
        }
    }

    fn more(&mut self) -> bool {
        self.words.peek().is_some()
    }

    fn end(&mut self) -> Parsed<()> {
        if self.more() {
            return Err("numbers left over".to_string());
        }
        Ok(())
    }

    fn long(&mut self) -> Parsed<u64> {
        let word = self.words.next().ok_or("cut off")?;
        word.parse()
            .ok()
            .filter(|_| word.bytes().all(|byte| byte.is_ascii_digit()))
            .ok_or_else(|| format!("{word} is not a number of 64 bits"))
    }

    fn number(&mut self) -> Parsed<u32> {
        let value = self.long()?;
        u32::try_from(value).map_err(|_| format!("{value} is not a number of 32 bits"))
    }

    fn mark(&mut self) -> Parsed<bool> {
        match self.number()? {
            0 => Ok(false),
            1 => Ok(true),
            other => Err(format!("{other} is not 0 or 1")),
        }
    }

    /// A count and its rows; those past the capacity are read and lost.
    fn rows<T>(
        &mut self,
        slots: &mut [T],
        mut row: impl FnMut(&mut Self) -> Parsed<T>,
    ) -> Parsed<u32> {
        let count = self.number()?;
        for index in 0..count as usize {
            let value = row(self)?;
            if let Some(slot) = slots.get_mut(index) {
                *slot = value;
            }
        }
        Ok(count)
    }

    fn list<T>(&mut self, mut row: impl FnMut(&mut Self) -> Parsed<T>) -> Parsed<Vec<T>> {
        (0..self.number()?).map(|_| row(self)).collect()
    }

    fn call(&mut self) -> Parsed<Call> {
        Ok(Call {
            ceilings: Ceilings {
                nodes: self.number()?,
                visits: self.number()?,
                activations: self.number()?,
                attempts: self.number()?,
            },
            limits: Limits {
                microsteps: self.number()?,
                commands: self.number()?,
                operations: self.number()?,
            },
            workflow: self.workflow()?,
            state: match self.mark()? {
                true => Some(self.state()?),
                false => None,
            },
            event: self.event()?,
            mappings: self.mappings()?,
        })
    }

    fn workflow(&mut self) -> Parsed<Workflow> {
        let mut workflow = Workflow::empty();
        workflow.format = self.number()?;
        workflow.start = self.number()?;
        workflow.max_visits_per_node = self.number()?;
        workflow.max_activations = self.number()?;
        workflow.node_count = self.rows(&mut workflow.nodes, Self::node)?;
        workflow.route_count = self.rows(&mut workflow.routes, |reader| {
            Ok(Route {
                node: reader.number()?,
                outcome: reader.number()?,
                target: reader.number()?,
            })
        })?;
        workflow.limit_count = self.rows(&mut workflow.limits, |reader| {
            Ok(Limit {
                node: reader.number()?,
                outcome: reader.number()?,
                limit: reader.number()?,
            })
        })?;
        workflow.action_count = self.rows(&mut workflow.actions, |reader| {
            Ok(Action {
                effect: reader.number()?,
                max_attempts: reader.number()?,
            })
        })?;
        workflow.declared_count = self.rows(&mut workflow.declared, |reader| {
            Ok(Declared {
                action: reader.number()?,
                outcome: reader.number()?,
            })
        })?;
        Ok(workflow)
    }

    fn node(&mut self) -> Parsed<Node> {
        Ok(Node {
            kind: self.number()?,
            action: self.number()?,
            has_params: self.number()?,
            signal: self.number()?,
            code: self.number()?,
            detail: self.number()?,
            has_limits: self.number()?,
        })
    }

    fn state(&mut self) -> Parsed<State> {
        let mut state = State::fresh(0);
        state.status = self.number()?;
        state.input = self.number()?;
        state.activations = self.number()?;
        state.last_sequence = self.long()?;
        state.last_accepted_at = self.long()?;
        state.position = Position {
            node: self.number()?,
            visit: self.number()?,
        };
        if self.mark()? {
            state.invocation = self.invocation()?;
        }
        state.result = match self.number()? {
            0 => Output::Nothing,
            1 => Output::Handle(self.number()?),
            2 => Output::Error(self.error()?),
            other => return Err(format!("{other} is not a result")),
        };
        for (node, visits) in self.list(|reader| Ok((reader.slot()?, reader.number()?)))? {
            state.visits[node] = visits;
        }
        for (node, result) in self.list(|reader| Ok((reader.slot()?, reader.result()?)))? {
            state.results[node] = result;
        }
        for (node, streak) in self.list(|reader| Ok((reader.slot()?, reader.streak()?)))? {
            state.streaks[node] = streak;
        }
        state.signal_count = self.rows(&mut state.signals, |reader| {
            Ok(BufferedSignal {
                sequence: reader.long()?,
                event_id: reader.number()?,
                signal: reader.number()?,
                outcome: reader.number()?,
                data: reader.number()?,
            })
        })?;
        Ok(state)
    }

    /// The number of a node that has a slot.
    fn slot(&mut self) -> Parsed<usize> {
        let node = self.number()? as usize;
        if node >= NODES {
            return Err(format!("node {node} has no slot"));
        }
        Ok(node)
    }

    fn invocation(&mut self) -> Parsed<InvocationState> {
        let (node, visit, action) = (self.number()?, self.number()?, self.number()?);
        let (attempt, phase, input) = (self.number()?, self.number()?, self.number()?);
        Ok(InvocationState {
            phase,
            node,
            visit,
            action,
            attempt,
            input,
            error: self.optional_error()?,
        })
    }

    fn result(&mut self) -> Parsed<NodeResult> {
        Ok(NodeResult {
            visit: self.number()?,
            outcome: self.number()?,
            output: match self.mark()? {
                false => Output::Handle(self.number()?),
                true => Output::Error(self.error()?),
            },
        })
    }

    fn streak(&mut self) -> Parsed<Streak> {
        Ok(Streak {
            outcome: self.number()?,
            count: self.number()?,
        })
    }

    fn error(&mut self) -> Parsed<ErrorInfo> {
        Ok(ErrorInfo {
            code: self.number()?,
            node: self.number()?,
            detail: self.number()?,
        })
    }

    fn optional_error(&mut self) -> Parsed<Option<ErrorInfo>> {
        match self.mark()? {
            true => self.error().map(Some),
            false => Ok(None),
        }
    }

    fn event(&mut self) -> Parsed<Event> {
        let mut event = Event {
            sequence: self.long()?,
            accepted_at: self.long()?,
            event_id: self.number()?,
            kind: self.number()?,
            ..Event::default()
        };
        match event.kind {
            1 => event.input = self.number()?,
            2 => {
                event.signal = self.number()?;
                event.outcome = self.number()?;
                event.data = self.number()?;
            }
            3 => self.activity_result(&mut event)?,
            4 => self.resolved(&mut event)?,
            _ => {}
        }
        Ok(event)
    }

    fn activity_result(&mut self, event: &mut Event) -> Parsed<()> {
        event.node = self.number()?;
        event.visit = self.number()?;
        event.attempt = self.number()?;
        event.status = self.number()?;
        event.outcome = self.number()?;
        event.output = self.number()?;
        if let Some(error) = self.optional_error()? {
            event.has_error = true;
            event.code = error.code;
            event.detail = error.detail;
        }
        event.retryable = self.mark()?;
        event.delay = self.long()?;
        Ok(())
    }

    fn resolved(&mut self, event: &mut Event) -> Parsed<()> {
        event.node = self.number()?;
        event.visit = self.number()?;
        event.resolution = self.number()?;
        match event.resolution {
            1 => {
                event.outcome = self.number()?;
                event.output = self.number()?;
            }
            3 => {
                let error = self.error()?;
                event.code = error.code;
                event.detail = error.detail;
            }
            _ => {}
        }
        Ok(())
    }

    fn mappings(&mut self) -> Parsed<Mappings> {
        let mut mappings = Mappings::default();
        mappings.count = self.rows(&mut mappings.answers, |reader| {
            let mut mapping = Mapping {
                kind: reader.number()?,
                ..Mapping::default()
            };
            match mapping.kind {
                1 => {
                    mapping.value = reader.number()?;
                    mapping.operations = reader.number()?;
                }
                2 => {
                    mapping.code = reader.number()?;
                    mapping.detail = reader.number()?;
                    mapping.operations = reader.number()?;
                }
                _ => {}
            }
            Ok(mapping)
        })?;
        Ok(mappings)
    }

    fn patches(&mut self, call: &mut Call) -> Parsed<()> {
        let mut sheet = numbers::sheet(&call.workflow);
        for (offset, value) in self.list(|reader| Ok((reader.number()?, reader.number()?)))? {
            *sheet
                .get_mut(offset as usize)
                .ok_or_else(|| format!("{offset} is no offset of a sheet"))? = value;
        }
        call.workflow = numbers::workflow_of(&sheet);
        for (offset, value) in self.list(|reader| Ok((reader.number()?, reader.long()?)))? {
            let number = call
                .state
                .as_mut()
                .and_then(|state| record_number(state, offset as usize))
                .ok_or_else(|| format!("{offset} is no offset of a record that rows leave out"))?;
            number.set(value)?;
        }
        Ok(())
    }

    fn answer(&mut self) -> Parsed<Answer> {
        match self.number()? {
            0 => Ok(Answer::Next {
                state: Box::new(self.state()?),
                orders: self.list(Self::order)?,
                notes: self.list(Self::note)?,
                endings: self.list(|reader| {
                    Ok(Ending {
                        sequence: reader.long()?,
                        ending: reader.number()?,
                    })
                })?,
                microsteps: self.number()?,
            }),
            1 => Ok(Answer::Wants {
                node: self.number()?,
                field: self.number()?,
                from: self.number()?,
                state: Box::new(self.state()?),
            }),
            2 => Ok(Answer::Refused {
                number: self.number()?,
                item: self.number()?,
            }),
            other => Err(format!("{other} is not an answer")),
        }
    }

    fn order(&mut self) -> Parsed<Order> {
        match self.number()? {
            1 => Ok(Order::Schedule {
                node: self.number()?,
                visit: self.number()?,
                action: self.number()?,
                attempt: self.number()?,
                not_before: self.long()?,
                input: self.number()?,
                params: match self.mark()? {
                    true => Some(self.number()?),
                    false => None,
                },
            }),
            2 => Ok(Order::Retry {
                node: self.number()?,
                visit: self.number()?,
                attempt: self.number()?,
                not_before: self.long()?,
            }),
            other => Err(format!("{other} is not an order")),
        }
    }

    fn note(&mut self) -> Parsed<Note> {
        Ok(Note {
            code: self.number()?,
            node: self.number()?,
            a: self.number()?,
            b: self.number()?,
            c: self.number()?,
        })
    }
}

#[derive(Default)]
struct Writer {
    line: String,
}

impl Writer {
    fn put(&mut self, value: impl Into<u64>) {
        if !self.line.is_empty() {
            self.line.push(' ');
        }
        write!(self.line, "{}", value.into()).expect("a string takes every write");
    }

    fn put_all<const N: usize>(&mut self, values: [u32; N]) {
        values.into_iter().for_each(|value| self.put(value));
    }

    fn count(&mut self, count: usize) {
        self.put(count as u64);
    }

    fn call(&mut self, call: &Call) {
        let (ceilings, limits) = (&call.ceilings, &call.limits);
        self.put_all([ceilings.nodes, ceilings.visits]);
        self.put_all([ceilings.activations, ceilings.attempts]);
        self.put_all([limits.microsteps, limits.commands, limits.operations]);
        self.workflow(&call.workflow);
        self.put(call.state.is_some());
        if let Some(state) = &call.state {
            self.state(state);
        }
        self.event(&call.event);
        self.mappings(&call.mappings);
        let sheet = sheet_patch(&call.workflow);
        let record = call.state.as_ref().map(record_patch).unwrap_or_default();
        if !sheet.is_empty() || !record.is_empty() {
            self.patch(&sheet);
            self.patch(&record);
        }
    }

    fn workflow(&mut self, workflow: &Workflow) {
        self.put_all([workflow.format, workflow.start]);
        self.put_all([workflow.max_visits_per_node, workflow.max_activations]);
        let nodes = used(&workflow.nodes, workflow.node_count);
        self.count(nodes.len());
        for node in nodes {
            self.put_all([node.kind, node.action, node.has_params, node.signal]);
            self.put_all([node.code, node.detail, node.has_limits]);
        }
        let routes = used(&workflow.routes, workflow.route_count);
        self.count(routes.len());
        for route in routes {
            self.put_all([route.node, route.outcome, route.target]);
        }
        let limits = used(&workflow.limits, workflow.limit_count);
        self.count(limits.len());
        for limit in limits {
            self.put_all([limit.node, limit.outcome, limit.limit]);
        }
        let actions = used(&workflow.actions, workflow.action_count);
        self.count(actions.len());
        for action in actions {
            self.put_all([action.effect, action.max_attempts]);
        }
        let declared = used(&workflow.declared, workflow.declared_count);
        self.count(declared.len());
        for declared in declared {
            self.put_all([declared.action, declared.outcome]);
        }
    }

    fn state(&mut self, state: &State) {
        self.put_all([state.status, state.input, state.activations]);
        self.put(state.last_sequence);
        self.put(state.last_accepted_at);
        self.put_all([state.position.node, state.position.visit]);
        self.put(state.invocation != InvocationState::NONE);
        if state.invocation != InvocationState::NONE {
            let invocation = &state.invocation;
            self.put_all([invocation.node, invocation.visit, invocation.action]);
            self.put_all([invocation.attempt, invocation.phase, invocation.input]);
            self.put(invocation.error.is_some());
            if let Some(error) = &invocation.error {
                self.error(error);
            }
        }
        match &state.result {
            Output::Nothing => self.put(0u32),
            Output::Handle(handle) => self.put_all([1, *handle]),
            Output::Error(error) => {
                self.put(2u32);
                self.error(error);
            }
        }
        self.slots(
            &state.visits,
            |count| *count != 0,
            |writer, count| writer.put(*count),
        );
        self.slots(
            &state.results,
            |result| result.output != Output::Nothing,
            Self::result,
        );
        self.slots(
            &state.streaks,
            |streak| *streak != Streak::default(),
            |writer, streak| writer.put_all([streak.outcome, streak.count]),
        );
        let signals = used(&state.signals, state.signal_count);
        self.count(signals.len());
        for signal in signals {
            self.put(signal.sequence);
            self.put_all([signal.event_id, signal.signal, signal.outcome, signal.data]);
        }
    }

    /// The rows of the nodes whose slot holds something.
    fn slots<T>(&mut self, slots: &[T], held: fn(&T) -> bool, mut row: impl FnMut(&mut Self, &T)) {
        self.count(slots.iter().filter(|slot| held(slot)).count());
        for (node, slot) in slots.iter().enumerate().filter(|(_, slot)| held(slot)) {
            self.count(node);
            row(self, slot);
        }
    }

    fn result(&mut self, result: &NodeResult) {
        self.put_all([result.visit, result.outcome]);
        match &result.output {
            Output::Nothing => {}
            Output::Handle(handle) => self.put_all([0, *handle]),
            Output::Error(error) => {
                self.put(1u32);
                self.error(error);
            }
        }
    }

    fn error(&mut self, error: &ErrorInfo) {
        self.put_all([error.code, error.node, error.detail]);
    }

    fn event(&mut self, event: &Event) {
        self.put(event.sequence);
        self.put(event.accepted_at);
        self.put_all([event.event_id, event.kind]);
        match event.kind {
            1 => self.put(event.input),
            2 => self.put_all([event.signal, event.outcome, event.data]),
            3 => {
                self.put_all([event.node, event.visit, event.attempt]);
                self.put_all([event.status, event.outcome, event.output]);
                self.put(event.has_error);
                if event.has_error {
                    self.put_all([event.code, NONE, event.detail]);
                }
                self.put(event.retryable);
                self.put(event.delay);
            }
            4 => {
                self.put_all([event.node, event.visit, event.resolution]);
                match event.resolution {
                    1 => self.put_all([event.outcome, event.output]),
                    3 => self.put_all([event.code, NONE, event.detail]),
                    _ => {}
                }
            }
            _ => {}
        }
    }

    fn mappings(&mut self, mappings: &Mappings) {
        let spare = Mapping {
            kind: 3,
            ..Mapping::default()
        };
        let answers = mappings.answers.iter().chain([&spare]);
        let count = mappings.count.min(3);
        self.put(count);
        for mapping in answers.take(count as usize) {
            match mapping.kind {
                1 => self.put_all([1, mapping.value, mapping.operations]),
                2 => self.put_all([2, mapping.code, mapping.detail, mapping.operations]),
                other => self.put(other),
            }
        }
    }

    fn patch<T: Copy + Into<u64>>(&mut self, patch: &[(usize, T)]) {
        self.count(patch.len());
        for (offset, value) in patch {
            self.count(*offset);
            self.put(*value);
        }
    }

    fn answer(&mut self, answer: &Answer) {
        match answer {
            Answer::Next {
                state,
                orders,
                notes,
                endings,
                microsteps,
            } => {
                self.put(0u32);
                self.state(state);
                self.count(orders.len());
                orders.iter().for_each(|order| self.order(order));
                self.count(notes.len());
                for note in notes {
                    self.put_all([note.code, note.node, note.a, note.b, note.c]);
                }
                self.count(endings.len());
                for ending in endings {
                    self.put(ending.sequence);
                    self.put(ending.ending);
                }
                self.put(*microsteps);
            }
            Answer::Wants {
                node,
                field,
                from,
                state,
            } => {
                self.put_all([1, *node, *field, *from]);
                self.state(state);
            }
            Answer::Refused { number, item } => self.put_all([2, *number, *item]),
        }
    }

    fn order(&mut self, order: &Order) {
        match *order {
            Order::Schedule {
                node,
                visit,
                action,
                attempt,
                not_before,
                input,
                params,
            } => {
                self.put_all([1, node, visit, action, attempt]);
                self.put(not_before);
                self.put(input);
                self.put(params.is_some());
                params.into_iter().for_each(|params| self.put(params));
            }
            Order::Retry {
                node,
                visit,
                attempt,
                not_before,
            } => {
                self.put_all([2, node, visit, attempt]);
                self.put(not_before);
            }
        }
    }
}

/// The slots below the count.
fn used<T>(slots: &[T], count: u32) -> &[T] {
    &slots[..slots.len().min(count as usize)]
}

/// Brings a count within its capacity and blanks the slots past it.
fn blank_unused<T: Default>(slots: &mut [T], count: &mut u32) {
    let kept = used(slots, *count).len();
    slots[kept..].fill_with(T::default);
    *count = kept as u32;
}

/// What the rows of a sheet leave out.
fn sheet_patch(workflow: &Workflow) -> Vec<(usize, u32)> {
    let mut rows = workflow.clone();
    blank_unused(&mut rows.nodes, &mut rows.node_count);
    blank_unused(&mut rows.routes, &mut rows.route_count);
    blank_unused(&mut rows.limits, &mut rows.limit_count);
    blank_unused(&mut rows.actions, &mut rows.action_count);
    blank_unused(&mut rows.declared, &mut rows.declared_count);
    if rows == *workflow {
        return Vec::new();
    }
    let (whole, rows) = (numbers::sheet(workflow), numbers::sheet(&rows));
    (0..numbers::SHEET)
        .filter(|offset| whole[*offset] != rows[*offset])
        .map(|offset| (offset, whole[offset]))
        .collect()
}

/// What the rows of a record leave out.
fn record_patch(state: &State) -> Vec<(usize, u64)> {
    let mut rows = state.clone();
    blank_unused(&mut rows.signals, &mut rows.signal_count);
    for result in &mut rows.results {
        if result.output == Output::Nothing {
            *result = NodeResult::default();
        }
    }
    if rows == *state {
        return Vec::new();
    }
    let mut whole = state.clone();
    (0..numbers::RECORD)
        .filter_map(|offset| {
            let value = record_number(&mut whole, offset)?.get();
            let row = record_number(&mut rows, offset)?.get();
            (value != row).then_some((offset, value))
        })
        .collect()
}

enum Number<'a> {
    Narrow(&'a mut u32),
    Wide(&'a mut u64),
}

impl Number<'_> {
    fn get(&self) -> u64 {
        match self {
            Number::Narrow(number) => u64::from(**number),
            Number::Wide(number) => **number,
        }
    }

    fn set(self, value: u64) -> Parsed<()> {
        match self {
            Number::Narrow(number) => {
                *number = u32::try_from(value)
                    .map_err(|_| format!("{value} is not a number of 32 bits"))?;
            }
            Number::Wide(number) => *number = value,
        }
        Ok(())
    }
}

/// The number of a record at an offset of docs/NUMBERS.md, of those that the rows may leave out.
fn record_number(state: &mut State, offset: usize) -> Option<Number<'_>> {
    Some(match offset {
        at::RECORD_STORED => Number::Narrow(&mut state.signal_count),
        at::RECORD_SIGNALS..at::RECORD_VISITS => {
            let place = offset - at::RECORD_SIGNALS;
            let signal = &mut state.signals[place / at::SIGNAL_WIDTH];
            match place % at::SIGNAL_WIDTH {
                0 => Number::Wide(&mut signal.sequence),
                1 => Number::Narrow(&mut signal.event_id),
                2 => Number::Narrow(&mut signal.signal),
                3 => Number::Narrow(&mut signal.outcome),
                _ => Number::Narrow(&mut signal.data),
            }
        }
        at::RECORD_RESULTS..at::RECORD => {
            let place = offset - at::RECORD_RESULTS;
            let result = &mut state.results[place / at::RESULT_WIDTH];
            match place % at::RESULT_WIDTH {
                0 => Number::Narrow(&mut result.visit),
                1 => Number::Narrow(&mut result.outcome),
                _ => return None,
            }
        }
        _ => return None,
    })
}

#[cfg(test)]
mod tests {
    use super::*;

    fn call() -> Call {
        let mut workflow = Workflow::empty();
        workflow.format = 2;
        workflow.node_count = 1;
        workflow.nodes[0].kind = 3;
        Call {
            ceilings: Ceilings {
                nodes: 64,
                visits: 64,
                activations: 64,
                attempts: 64,
            },
            limits: Limits {
                microsteps: 130,
                commands: 10,
                operations: 10,
            },
            workflow,
            state: Some(State::fresh(7)),
            event: Event {
                sequence: 1,
                kind: 5,
                ..Event::default()
            },
            mappings: Mappings::default(),
        }
    }

    #[test]
    fn a_call_comes_back() {
        let call = call();
        assert_eq!(parse_call(&print_call(&call)), Ok(call));
    }

    #[test]
    fn patches_carry_what_rows_leave_out() {
        let mut call = call();
        call.workflow.node_count = 65;
        call.workflow.route_count = u32::MAX;
        call.workflow.nodes[63].has_limits = 9;
        call.workflow.declared[255].outcome = 4;
        call.workflow.actions[63].max_attempts = 5;
        call.workflow.limits[511].limit = 6;
        let state = call.state.as_mut().expect("a record");
        state.signals[63].sequence = u64::MAX;
        state.signals[0].data = 3;
        state.results[63].outcome = 2;
        state.results[0].visit = 1;
        state.streaks[5].outcome = 3;
        assert_eq!(parse_call(&print_call(&call)), Ok(call));
    }

    #[test]
    fn offsets_are_those_of_the_number_form() {
        let mut state = State::fresh(0);
        for offset in 0..numbers::RECORD {
            let Some(number) = record_number(&mut state, offset) else {
                continue;
            };
            number.set(offset as u64 + 1).expect("a small number");
            assert_eq!(numbers::record(&state)[offset], offset as u64 + 1);
        }
        assert!(record_number(&mut state, numbers::RECORD).is_none());
    }

    #[test]
    fn cut_off_and_left_over_are_malformed() {
        let line = print_call(&call());
        assert!(parse_call(&line[..line.len() - 2]).is_err());
        assert!(parse_call(&format!("{line} 0")).is_err());
        assert!(parse_call(&format!("{line} 0 0 0")).is_err());
    }
}
