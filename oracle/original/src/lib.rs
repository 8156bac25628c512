//! The original as the oracle: a call of document 01 goes to `transition` of the six unchanged files, and what comes
//! back is turned into the answer's numbers.
//!
//! What 01 and 02 add to the original is decided in `added`, and nothing else is. Names, requests and replies are turned
//! in `names`, `request` and `read`.

mod added;
mod names;
mod read;
mod request;
#[cfg(test)]
mod tests;

use calls::{text, Answer, Call, InvocationState, Output, Position, State, NONE};
use runspore_types::model::{self, code, RunResult};
use runspore_types::reducer::{Decision, Failure, TransitionRequest};
use runspore_types::script::{self, Mapped, Script, Wanted};

use crate::request::Request;

/// The original's answer, cross-checked: the count of microsteps by two more calls, the record of a want by one.
pub fn answer(call: &Call) -> Answer {
    let _told = Told(call);
    let Some(mut request) = request(call) else {
        return no_form();
    };
    let answer = ask(call, &request);
    match &answer {
        Answer::Next { microsteps, .. } => {
            check_microsteps(call, &mut request, &answer, *microsteps);
        }
        Answer::Wants { node, state, .. } => check_want(call, &mut request, *node, state),
        Answer::Refused { .. } => {}
    }
    answer
}

/// The original's answer, without cross-checks.
pub fn answer_fast(call: &Call) -> Answer {
    let _told = Told(call);
    match request(call) {
        Some(request) => ask(call, &request),
        None => no_form(),
    }
}

/// Tells the call where a check fails in it.
struct Told<'a>(&'a Call);

impl Drop for Told<'_> {
    fn drop(&mut self) {
        if std::thread::panicking() {
            eprintln!("in the call {}", text::print_call(self.0));
        }
    }
}

fn refused(number: u32) -> Answer {
    Answer::Refused { number, item: NONE }
}

fn no_form() -> Answer {
    refused(20)
}

/// The request of a call whose sheet has its form.
fn request(call: &Call) -> Option<Request> {
    added::has_form(&call.workflow).then(|| request::request(call))
}

fn ask(call: &Call, request: &Request) -> Answer {
    read_answer(call, run(request, request::script(call)))
}

/// A call as a host makes it: the request's bytes stand ready, the decision's bytes come back.
pub struct Asked {
    request: Request,
    answers: Vec<Mapped>,
}

impl Asked {
    /// None where the sheet hasn't its form: the original can't be asked of it.
    pub fn of(call: &Call) -> Option<Asked> {
        let request = request(call)?;
        let answers = request::script(call);
        Some(Asked { request, answers })
    }

    pub fn transition(&self) -> Result<Decision, Failure> {
        run(&self.request, self.answers.clone()).result
    }

    /// The sheet's JSON.
    pub fn sheet(&self) -> &[u8] {
        &self.request.request.graph
    }

    /// The run's JSON, where there is one.
    pub fn run(&self) -> Option<&[u8]> {
        self.request.request.snapshot.as_deref()
    }

    /// The event's JSON, without what stands in its envelope.
    pub fn event(&self) -> &[u8] {
        &self.request.request.input_event.payload
    }
}

/// The sheet of the original, from its JSON, without any rule.
pub fn read_sheet(json: &[u8]) -> model::Workflow {
    serde_json::from_slice(json).expect("a sheet's JSON")
}

pub fn write_sheet(sheet: &model::Workflow) -> Vec<u8> {
    serde_json::to_vec(sheet).expect("a sheet has JSON")
}

pub fn read_run(json: &[u8]) -> model::State {
    serde_json::from_slice(json).expect("a run's JSON")
}

pub fn write_run(run: &model::State) -> Vec<u8> {
    serde_json::to_vec(run).expect("a run has JSON")
}

/// What a call of the original gave back and what its stand-ins saw.
struct Ran {
    result: Result<Decision, Failure>,
    script: Script,
}

fn run(request: &Request, answers: Vec<Mapped>) -> Ran {
    let transition: fn(&TransitionRequest) -> Result<Decision, Failure> = match request.raised {
        true => runspore_kernel_raised::transition,
        false => runspore_kernel::transition,
    };
    script::replace(Script {
        answers,
        ..Script::default()
    });
    let result = transition(&request.request);
    Ran {
        result,
        script: script::replace(Script::default()),
    }
}

fn read_answer(call: &Call, ran: Ran) -> Answer {
    if let Some(wanted) = &ran.script.wanted {
        return wants(wanted);
    }
    if added::is_delay_over(&call.event, &ran.script.trace) {
        return refused(27);
    }
    match ran.result {
        Ok(decision) => next(call, &decision, &ran.script),
        Err(failure) => {
            let (number, item) = read::refusal(&failure, &call.event);
            Answer::Refused { number, item }
        }
    }
}

fn wants(wanted: &Wanted) -> Answer {
    Answer::Wants {
        node: wanted.node,
        field: wanted.field,
        from: names::node_number(wanted.from.as_deref()),
        state: Box::new(read::state(&wanted.state).0),
    }
}

fn decoded(decision: &Decision) -> model::State {
    read_run(&decision.snapshot)
}

fn next(call: &Call, decision: &Decision, script: &Script) -> Answer {
    let decoded = decoded(decision);
    let (mut state, slots) = read::state(&decoded);
    let mut course = added::course(
        call,
        &slots,
        &decision.diagnostics,
        &script.trace,
        is_limited(&decoded),
    );
    added::leave_over(call, &mut state, &mut course.endings);
    Answer::Next {
        state: Box::new(state),
        orders: decision.commands.iter().map(read::order).collect(),
        notes: decision.diagnostics.iter().map(read::note).collect(),
        endings: course.endings,
        microsteps: course.microsteps,
    }
}

/// The call ended the run at a visit or activation limit: the kernel's own code, which no record is sent with.
fn is_limited(state: &model::State) -> bool {
    matches!(
        &state.result,
        Some(RunResult::Error(error))
            if [code::LIMIT_VISITS_EXCEEDED, code::LIMIT_ACTIVATIONS_EXCEEDED]
                .contains(&error.code.as_str())
    )
}

/// A call with m microsteps is accepted alike at a limit of m, and refused with 26 at m - 1.
fn check_microsteps(call: &Call, request: &mut Request, answer: &Answer, microsteps: u32) {
    let mut at_limit = |limit| {
        request.request.frozen_limits.microsteps = limit;
        ask(call, request)
    };
    assert_eq!(at_limit(microsteps), *answer, "at its own microsteps");
    if let Some(fewer) = microsteps.checked_sub(1) {
        assert_eq!(at_limit(fewer), refused(26), "at one microstep fewer");
    }
}

/// A want's record is the one that a fault at the same place leaves, but for what ends the run.
fn check_want(call: &Call, request: &mut Request, node: u32, wanted: &State) {
    request.request.frozen_limits.expression_operations = u32::MAX;
    let mut answers = request::script(call);
    answers.insert(
        0,
        Mapped::Fault {
            code: names::Code(7).to_string(),
            detail: 9,
            operations: 0,
        },
    );
    let ran = run(request, answers);
    let decision = ran.result.expect("a fault ends the run");
    let (faulted, _) = read::state(&decoded(&decision));
    let Output::Error(error) = faulted.result else {
        panic!("a fault leaves an error");
    };
    assert_eq!((error.code, error.node, error.detail), (7, node, 9));
    let ended = State {
        status: 5,
        position: Position::NONE,
        invocation: InvocationState::NONE,
        result: faulted.result,
        ..wanted.clone()
    };
    assert_eq!(faulted, ended, "a want's record");
}
