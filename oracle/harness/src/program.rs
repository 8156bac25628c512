//! The program `kuxhoveza` against docs/BYTES.md read a second time.
//!
//! Each input is piped through the program. All that it prints must be the lines (`lines`) of the answer that the plain reading gives to what
//! `oracle/bytes` reads there, and the run's bytes among them must be read back as the answer's record. The program must end
//! with status 0 and leave standard error empty.

use std::io::{self, ErrorKind, Write};
use std::os::unix::process::ExitStatusExt;
use std::path::Path;
use std::process::{Command, Output, Stdio};
use std::thread::sleep;
use std::time::Duration;

use bytes::functions;
use calls::layout::{
    ANSWER, ANSWER_KIND, ANSWER_REFUSAL_NUMBER, BAD_BYTES, CALL, CALL_ANSWERED, CALL_BYTES,
    MAPPINGS, NEXT, NONE, RECORD, RECORD_STORED, REFUSAL, SHEET, SHEET_NODE_COUNT, STORE, WANT,
};
use calls::{numbers, Answer};
use generator::fields::{Array, FIELDS};
use generator::joint::{self, Case};
use generator::rng::Rng;
use generator::{full, Generator};

use crate::damage::{self, every, Damage};
use crate::lines;
use crate::reasons::Reason;
use crate::sample;
use crate::shrink::shrink_bytes;
use crate::tally::{self, Recorded, Tally, Work};
use crate::whole::{numbers_of, Whole, CAPACITIES};

/// How often a call of the generator is damaged.
const DAMAGED: u64 = 8;
/// A start of Joint A that is accepted has each byte changed to every other, all other calls to some.
const SOME_OTHERS: u8 = 5;
/// How often one of the sample's calls is damaged everywhere; odd, so that its parts have alike many of them.
const CHOSEN_EVERY: usize = 397;
/// Differing inputs of at most so many bytes are made small, and of longer ones at most so many are printed.
const SHRUNK: usize = 420;
const PRINTED: usize = 20_000;
/// Lengths about the longest call and about what the program reads at most, and some far above.
const LENGTHS: [usize; 9] = [
    CALL_BYTES - 1,
    CALL_BYTES,
    CALL_BYTES + 1,
    65_535,
    65_536,
    65_537,
    70_000,
    131_072,
    1_000_000,
];
/// Between the pieces of an input.
const PAUSE: Duration = Duration::from_millis(5);

/// What an input and a line are counted under, and an end by a signal.
const ANSWERED: &str = "answered: ";
const LINE: &str = "line: ";
const CRASH: &str = "ended by a signal";

/// What the program does with an input that it gets in pieces, with a pause between them.
fn ran(program: &Path, pieces: &[&[u8]]) -> io::Result<Output> {
    let mut command = Command::new(program);
    command.stdin(Stdio::piped()).stdout(Stdio::piped());
    let mut child = command.stderr(Stdio::piped()).spawn()?;
    let mut input = child.stdin.take().expect("it is piped");
    for (n, piece) in pieces.iter().enumerate() {
        if n > 0 {
            sleep(PAUSE);
        }
        match input.write_all(piece) {
            // It may end before it has read an input that is longer than any call.
            Err(why) if why.kind() == ErrorKind::BrokenPipe => break,
            written => written?,
        }
    }
    drop(input);
    child.wait_with_output()
}

/// The numbers of the answer that is due.
fn due(input: &[u8]) -> [u64; ANSWER] {
    match bytes::read_call(input, true) {
        Some(call) => {
            let sheet = call.sheet.as_ref().expect("it was read");
            functions::answer(boundary::transition, &sheet[..], &call)
        }
        None => {
            let mut answer = [0; ANSWER];
            numbers::write_refusal(&mut answer, BAD_BYTES as u32, NONE as u32);
            answer
        }
    }
}

fn is_bad(due: &[u64; ANSWER]) -> bool {
    due[ANSWER_KIND] == REFUSAL as u64 && due[ANSWER_REFUSAL_NUMBER] == BAD_BYTES as u64
}

fn kind(due: &[u64; ANSWER]) -> String {
    match due[ANSWER_KIND] as usize {
        NEXT => "next".to_string(),
        WANT => "want".to_string(),
        _ => format!("refused {}", due[ANSWER_REFUSAL_NUMBER]),
    }
}

/// How the program parts from the answer that is due.
fn parting(output: &Output, due: &[u64; ANSWER]) -> Option<String> {
    if !output.status.success() {
        return Some(format!("ends with {}", output.status));
    }
    if !output.stderr.is_empty() {
        return Some("writes to standard error".to_string());
    }
    if output.stdout != lines::of(due).as_bytes() {
        return Some("prints something else".to_string());
    }
    let has_run = due[ANSWER_KIND] != REFUSAL as u64;
    let run = lines::read_run(&output.stdout);
    match has_run && run.as_ref() != Some(lines::record(due)) {
        true => Some("prints a run that reads back as another".to_string()),
        false => None,
    }
}

/// An input, what is due and what the program did.
fn shown(input: &[u8], due: &[u64; ANSWER], output: &Output) -> String {
    let some = &input[..input.len().min(PRINTED)];
    let [printed, error] = [&output.stdout, &output.stderr].map(|it| String::from_utf8_lossy(it));
    format!(
        "{} bytes: {}\ndue:\n{}printed:\n{printed}on standard error:\n{error}",
        input.len(),
        lines::hexadecimal(some),
        lines::of(due)
    )
}

/// One thread's comparison.
struct Comparison<'a> {
    program: &'a Path,
    rng: Rng,
    tally: Tally,
}

impl Comparison<'_> {
    /// One input of some sort.
    fn take(&mut self, sort: &str, pieces: &[&[u8]]) {
        if self.tally.is_over() {
            return;
        }
        let input = pieces.concat();
        let due = due(&input);
        let output = ran(self.program, pieces).expect("it started before");
        self.tally.count_bytes(sort, is_bad(&due));
        self.tally.count(format!("{ANSWERED}{}", kind(&due)));
        for line in lines::of(&due).lines() {
            let word = line.split(' ').next().unwrap_or_default();
            self.tally.count(format!("{LINE}{word}"));
        }
        if output.status.signal().is_some() {
            self.tally.count(CRASH.to_string());
        }
        if let Some(how) = parting(&output, &due) {
            self.differs(&input, &how, &output);
        }
    }

    /// A difference; one that is printed is made small where it stays one as a whole.
    fn differs(&mut self, input: &[u8], how: &str, output: &Output) {
        let again = |input: &[u8]| {
            let due = due(input);
            let output = ran(self.program, &[input]).expect("it started before");
            parting(&output, &due).map(|how| (how, shown(input, &due, &output)))
        };
        let mut told = (how.to_string(), shown(input, &due(input), output));
        if self.tally.prints() && input.len() <= SHRUNK {
            let small = shrink_bytes(input, |input| again(input).is_some());
            told = again(&small).unwrap_or(told);
        }
        self.tally
            .difference(|| format!("{} for {}", told.0, told.1));
    }

    fn damaged(&mut self, damage: Damage, input: &[u8]) {
        self.take(&damage.key(), &[input]);
    }

    /// Each byte changed, cut, removed, and bytes inserted everywhere; and counts above their capacity.
    fn damaged_everywhere(&mut self, whole: &Whole, others: u8) {
        for more in whole.overcounted(&mut self.rng) {
            self.damaged(Damage::Counted, &bytes::write_call(&more));
        }
        every(&whole.bytes, others, |damage, input| {
            self.damaged(damage, input)
        });
    }

    /// A call as it is. Where its bytes have all its numbers, the answer that it has is due.
    fn call(&mut self, whole: &Whole, answer: Option<&Answer>) {
        let input = &whole.bytes;
        let exact = answer.filter(|_| whole.exact);
        if exact.is_some_and(|answer| numbers_of(answer) != due(input)) {
            let input = lines::hexadecimal(input);
            self.tally
                .difference(|| format!("in bytes another answer is due: {input}"));
        }
        self.take("a call", &[input]);
    }

    /// A call in three pieces.
    fn in_pieces(&mut self, input: &[u8]) {
        let (first, rest) = input.split_at(self.rng.below(input.len()));
        let (second, third) = rest.split_at(self.rng.below(rest.len()));
        self.take("in pieces", &[first, second, third]);
    }

    /// Inputs longer than any call, and calls with every slot used.
    fn long(&mut self) {
        let good = Whole::of(&joint::cases()[0].call).bytes;
        for length in LENGTHS {
            let zeros = vec![0; length];
            let random: Vec<u8> = (0..length).map(|_| self.rng.next() as u8).collect();
            let repeated: Vec<u8> = good.iter().copied().cycle().take(length).collect();
            let followed = [&zeros, &random].map(|by| [&good[..], &by[good.len()..]].concat());
            for input in [zeros, random, repeated].iter().chain(&followed) {
                self.take("long", &[input]);
            }
        }
        self.take("largest numbers", &[&largest()]);
        let full = full::noted();
        self.call(&Whole::of(&full), Some(&plain::answer(&full)));
    }

    /// A seed of the generator's calls, and so many damaged inputs of them.
    fn seed(&mut self, seed: u64, damaged: u64) {
        self.tally.place = format!("seed {seed}, long inputs");
        self.long();
        let mut generator = Generator::of_all_lengths(seed);
        let mut before = vec![0];
        let mut left = damaged;
        for n in 1.. {
            if left == 0 || self.tally.is_over() {
                break;
            }
            self.tally.place = format!("seed {seed}, call {n}");
            let call = generator.call();
            let whole = Whole::of(&call);
            let answered = Reason::of_numbers(&call).is_none();
            let answer = answered.then(|| plain::answer(&call));
            self.call(&whole, answer.as_ref());
            let count = left.min(DAMAGED);
            left -= count;
            for _ in 0..count {
                let damage = self.rng.pick(&Damage::AT_RANDOM);
                let input = damage.at_random(&mut self.rng, &whole.bytes, &before);
                self.damaged(damage, &input);
            }
            if let Some(answer) = answer {
                generator.answered(&call, &answer);
            }
            before = whole.bytes;
        }
    }

    fn joint(&mut self, case: &Case) {
        self.tally.place = format!("Joint A, {}", case.name);
        let whole = Whole::of(&case.call);
        self.call(&whole, Some(&case.expected));
        self.in_pieces(&whole.bytes);
        let others = match (&case.call.state, &case.expected) {
            (None, Answer::Next { .. }) => u8::MAX,
            _ => SOME_OTHERS,
        };
        self.damaged_everywhere(&whole, others);
    }

    /// A part of the sample, of which some calls are damaged everywhere.
    fn recorded(&mut self, part: &[Recorded]) {
        for (n, (call, answer)) in part {
            self.tally.place = format!("call {n} of the sample");
            let whole = Whole::of(call);
            self.call(&whole, Some(answer));
            if n % CHOSEN_EVERY == 0 {
                self.damaged_everywhere(&whole, SOME_OTHERS);
            }
        }
    }
}

/// A call with every slot used, and in most the largest number that its field holds. Its sheet is refused.
fn largest() -> Vec<u8> {
    let mut call = bytes::Call {
        sheet: Some(Box::new([u32::MAX; SHEET])),
        call: [0; CALL],
        record: [0; RECORD],
    };
    for field in &FIELDS {
        let numbers = match field.array {
            Array::Call => &mut call.call[..],
            Array::Record => &mut call.record[..],
        };
        for place in field.places() {
            field.set(numbers, place, field.most);
        }
    }
    call.record[RECORD_STORED] = STORE as u64;
    call.call[CALL_ANSWERED] = MAPPINGS as u64;
    let sheet = call.sheet.as_mut().expect("it has one");
    sheet[SHEET_NODE_COUNT..][..CAPACITIES.len()].copy_from_slice(&CAPACITIES.map(|it| it as u32));
    bytes::write_call(&call)
}

/// What must be reached.
fn required() -> Vec<String> {
    let refusals = [
        20, 1, 3, 5, 6, 16, 7, 8, 9, 12, 14, 15, 21, 22, 23, 24, 25, 26, 27, 28, 29, 30, 31,
    ];
    let kinds = refusals.map(|number| format!("{ANSWERED}refused {number}"));
    let kinds = kinds.into_iter();
    let kinds = kinds.chain(["next", "want"].map(|kind| format!("{ANSWERED}{kind}")));
    let lines = lines::WORDS.map(|word| format!("{LINE}{word}"));
    let others = [
        "a call, read",
        "in pieces, read",
        "long, bad",
        "largest numbers, read",
    ];
    let all = kinds.chain(lines).chain(others.map(String::from));
    all.chain(damage::required()).collect()
}

/// Pipes so many damaged inputs a seed through the program, after long ones; then Joint A and the sample. Prints what was
/// reached.
pub fn run(program: &Path, seeds: &[u64], damaged: u64, first: bool) -> Result<bool, String> {
    ran(program, &[]).map_err(|why| format!("{}: {why}", program.display()))?;
    let recorded = sample::recorded()?;
    let tally = tally::of_all(seeds, &recorded, first, |work, rng, tally| {
        let mut comparison = Comparison {
            program,
            rng,
            tally,
        };
        match work {
            Work::Seed(seed) => comparison.seed(*seed, damaged),
            Work::Joint(case) => comparison.joint(case),
            Work::Sample(part) => comparison.recorded(part),
        }
        comparison.tally
    });
    let reached = tally.print(&required());
    let answered = |kind: &str| tally.sum(&format!("{ANSWERED}{kind}"));
    let bad = answered(&format!("refused {BAD_BYTES}"));
    println!(
        "{} inputs: {} next, {} want, {bad} refused {BAD_BYTES}, {} other refusals; {} differences, {} crashes among them",
        answered(""),
        answered("next"),
        answered("want"),
        answered("refused ") - bad,
        tally.differences,
        tally.sum(CRASH)
    );
    Ok(tally.differences == 0 && (first || reached))
}

#[cfg(test)]
mod tests {
    use super::*;

    #[test]
    fn the_recorded_call_has_the_recorded_lines() {
        let input = include_bytes!("../../../crates/kuxhoveza/stdin");
        let expected = include_str!("../../../crates/kuxhoveza/stdout");
        let due = due(input);
        assert_eq!(lines::of(&due), expected);
        assert_eq!(
            lines::read_run(expected.as_bytes()).as_ref(),
            Some(lines::record(&due))
        );
    }

    #[test]
    fn a_run_with_every_slot_used_is_printed() {
        let due = due(&Whole::of(&full::noted()).bytes);
        let lines = lines::of(&due);
        let count = |word: &str| lines.lines().filter(|line| line.starts_with(word)).count();
        let counts = ["signal", "visits", "streak", "output"].map(count);
        assert_eq!(counts, [64, 64, 63, 64], "{lines}");
        assert_eq!(
            lines::read_run(lines.as_bytes()).as_ref(),
            Some(lines::record(&due))
        );
    }
}
