//! The comparisons.

use std::collections::BTreeMap;
use std::panic::{catch_unwind, AssertUnwindSafe};
use std::sync::atomic::{AtomicUsize, Ordering};
use std::sync::Mutex;

use calls::{text, Answer, Call};
use generator::rng::Rng;
use generator::Generator;

use crate::asked::{Asked, Boundary};
use crate::counts::Counts;
use crate::reasons::Reason;
use crate::shrink::shrink;

/// Differences that are printed of one seed.
const PRINTED: u64 = 3;

/// How many threads work.
fn threads() -> usize {
    std::thread::available_parallelism().map_or(1, |n| n.get())
}

/// Calls `work` with each seed, on several threads.
pub fn each_seed(seeds: &[u64], work: impl Fn(u64) + Sync) {
    let next = AtomicUsize::new(0);
    std::thread::scope(|scope| {
        for _ in 0..threads().min(seeds.len()) {
            scope.spawn(|| {
                while let Some(seed) = seeds.get(next.fetch_add(1, Ordering::Relaxed)) {
                    work(*seed);
                }
            });
        }
    });
}

/// An answer, or why there is none.
type Tried = Result<Answer, String>;

/// What is compared with the original.
pub struct Side {
    pub name: &'static str,
    pub answer: fn(&Call) -> Tried,
}

/// How the original is compared.
pub struct Comparison {
    /// The plain reading: it is compared too, and goes on alone where a call leaves the comparison.
    pub plain: fn(&Call) -> Answer,
    pub reason: fn(&Call, &Answer) -> Option<Reason>,
    /// Those beside the plain reading.
    pub sides: Vec<Side>,
    /// The same behind the boundary, the plain reading among them.
    pub boundaries: Vec<Boundary>,
    pub generator: fn(u64) -> Generator,
    /// Without the original's cross-checks.
    pub fast: bool,
    /// Ends a seed at its first difference, which is not made small.
    pub first: bool,
}

/// What one call showed.
struct Compared {
    /// The answer that the history goes on with, if there is one.
    answer: Option<Answer>,
    reason: Option<Reason>,
    /// Whether the answers differ, and how the boundaries part.
    differs: bool,
    parted: Option<String>,
}

impl Comparison {
    fn original(&self, call: &Call) -> Tried {
        let answer = || match self.fast {
            true => original::answer_fast(call),
            false => original::answer(call),
        };
        catch_unwind(AssertUnwindSafe(answer)).map_err(|cause| {
            let said = cause.downcast_ref::<String>().cloned();
            said.or_else(|| cause.downcast_ref::<&str>().map(|s| s.to_string()))
                .unwrap_or_default()
        })
    }

    /// Whether some side answers otherwise than is right.
    fn parts_from(&self, call: &Call, plain: &Answer, right: &Answer) -> bool {
        let agrees = |side: &Side| (side.answer)(call).is_ok_and(|answer| answer == *right);
        plain != right || !self.sides.iter().all(agrees)
    }

    /// The call on all sides: with the original, or, for a reason, without it.
    fn call(&self, call: &Call) -> Compared {
        let plain = (self.plain)(call);
        let reason = (self.reason)(call, &plain);
        let mut compared = Compared {
            answer: None,
            reason,
            differs: false,
            parted: None,
        };
        if let Some(due) = reason.and_then(Reason::said) {
            let said = Asked::of(call).compare(&self.boundaries);
            compared.parted = match said {
                Ok(said) if said == due => None,
                Ok(said) => Some(format!("the boundary says {said}, not {due}")),
                Err(why) => Some(why),
            };
            return compared;
        }
        compared.answer = match reason {
            None => self.original(call).ok(),
            Some(reason) => Some(reason.answer(plain.clone())),
        };
        let agrees = |right: &Answer| !self.parts_from(call, &plain, right);
        compared.differs = !compared.answer.as_ref().is_some_and(agrees);
        compared
    }

    fn print(&self, call: &Call) {
        let small = match self.first {
            true => call.clone(),
            false => shrink(call, |call| self.call(call).differs),
        };
        println!("  {:8} {}", "call", text::print_call(&small));
        let show = |name, answer: Tried| match answer {
            Ok(answer) => println!("  {name:8} {}", text::print_answer(&answer)),
            Err(why) => println!("  {name:8} {why}"),
        };
        let Compared { answer, reason, .. } = self.call(&small);
        match (reason, answer) {
            (None, _) => show("original", self.original(&small)),
            (Some(reason), due) => {
                println!("  {:8} {}", "original", reason.text());
                due.into_iter().for_each(|due| show("due", Ok(due)));
            }
        }
        show("plain", Ok((self.plain)(&small)));
        for side in &self.sides {
            show(side.name, (side.answer)(&small));
        }
    }

    /// A copy of the call at the boundary: with numbers changed and other buffers, with one field raised above what it
    /// holds, or with arrays of other lengths.
    fn probe(&self, rng: &mut Rng, call: &Call, counts: &mut Counts) -> Option<String> {
        let mut asked = Asked::of(call);
        match rng.below(5) {
            0 | 1 => asked.damage(rng),
            2 | 3 => asked.raise(rng),
            _ => asked.stretch(rng),
        }
        counts.count_above(&asked);
        match asked.compare(&self.boundaries) {
            Ok(said) => {
                counts.add_one(format!("boundary says {said}"));
                None
            }
            Err(why) => Some(why),
        }
    }

    fn seed(&self, seed: u64, calls: u64) -> (Counts, u64) {
        let mut generator = (self.generator)(seed);
        let mut rng = Rng::new(!seed);
        let mut counts = Counts::default();
        let mut differences = 0;
        for n in 0..calls {
            let call = generator.call();
            let mut compared = self.call(&call);
            match compared.reason {
                None if !compared.differs && rng.one_in(4) => {
                    compared.parted = self.probe(&mut rng, &call, &mut counts);
                }
                None => {}
                Some(reason) => {
                    counts.leave(reason);
                    if let Some(said) = reason.said() {
                        counts.count_above(&Asked::of(&call));
                        counts.add_one(format!("boundary says {said}"));
                    }
                }
            }
            if compared.differs || compared.parted.is_some() {
                differences += 1;
            }
            if differences <= PRINTED {
                if compared.differs {
                    println!("DIFFERENCE at seed {seed}, call {n}");
                    self.print(&call);
                }
                if let Some(why) = &compared.parted {
                    println!("DIFFERENCE at seed {seed}, call {n}, at the boundary: {why}");
                }
            }
            if self.first && differences > 0 {
                break;
            }
            if let Some(answer) = compared.answer {
                if compared.reason.is_none() {
                    counts.count(&call, &answer);
                }
                generator.answered(&call, &answer);
            }
        }
        (counts, differences)
    }

    /// Compares on so many calls a seed and prints what was reached.
    pub fn run(&self, seeds: &[u64], calls: u64) -> bool {
        let total = Mutex::new((Counts::default(), 0u64));
        each_seed(seeds, |seed| {
            let (counts, differences) = self.seed(seed, calls);
            let mut total = total.lock().unwrap();
            println!(
                "seed {seed}: {} calls compared, {} not, {differences} differences",
                counts.calls,
                counts.left()
            );
            total.0.add(&counts);
            total.1 += differences;
        });
        let (counts, differences) = total.into_inner().unwrap();
        println!("{}", counts.table());
        println!("{}", counts.reasons());
        let missing = counts.missing();
        for key in &missing {
            println!("not reached: {key}");
        }
        println!(
            "{} calls compared, {} not, {differences} differences",
            counts.calls,
            counts.left()
        );
        differences == 0 && (self.first || missing.is_empty())
    }
}

/// After how many random calls each wrong reading parts from the right answer.
pub fn wrong(seeds: &[u64], calls: u64) -> bool {
    let readings = wrong::readings();
    std::panic::set_hook(Box::new(|_| {}));
    let found: Mutex<BTreeMap<usize, Vec<u64>>> = Mutex::default();
    each_seed(seeds, |seed| {
        let first = wrong_seed(seed, calls, &readings);
        let mut found = found.lock().unwrap();
        for (i, at) in first.into_iter().enumerate() {
            if let Some(at) = at {
                found.entry(i).or_default().push(at);
            }
        }
    });
    let found = found.into_inner().unwrap();
    let mut all = true;
    println!("| Wrong reading | Found after calls (earliest, latest seed) | Seeds |");
    println!("|---|---|---|");
    for (i, reading) in readings.iter().enumerate() {
        let places = found.get(&i).cloned().unwrap_or_default();
        let range = match (places.iter().min(), places.iter().max()) {
            (Some(least), Some(most)) => format!("{least}, {most}"),
            _ => "NOT FOUND".to_string(),
        };
        all &= places.len() == seeds.len();
        println!(
            "| {} | {range} | {} of {} |",
            reading.about,
            places.len(),
            seeds.len()
        );
    }
    println!(
        "{} wrong readings, {} seeds of {calls} calls",
        readings.len(),
        seeds.len()
    );
    all
}

fn wrong_seed(seed: u64, calls: u64, readings: &[wrong::Reading]) -> Vec<Option<u64>> {
    let mut generator = Generator::random(seed);
    let mut first: Vec<Option<u64>> = vec![None; readings.len()];
    for n in 1..=calls {
        let call = generator.call();
        let Some(right) = right(&call) else {
            continue;
        };
        for (reading, first) in readings.iter().zip(&mut first) {
            if first.is_none() && !answers(reading, &call, &right) {
                *first = Some(n);
            }
        }
        if first.iter().all(|first| first.is_some()) {
            break;
        }
        generator.answered(&call, &right);
    }
    first
}

/// The right answer where there is one: the original's, or, of a call that isn't compared with it, the one that is due.
pub fn right(call: &Call) -> Option<Answer> {
    let plain = plain::answer(call);
    match Reason::of(call, &plain) {
        None => Some(original::answer_fast(call)),
        Some(reason) if reason.said().is_none() => Some(reason.answer(plain)),
        Some(_) => None,
    }
}

/// The answers of both; of a call that isn't compared with the original, the plain reading's.
pub fn both(call: &Call) -> Vec<(&'static str, Answer)> {
    let plain = plain::answer(call);
    let mut answers = Vec::new();
    if Reason::of(call, &plain).is_none() {
        answers.push(("original", original::answer(call)));
    }
    answers.push(("plain", plain));
    answers
}

/// Whether a wrong reading answers rightly; one that gives up doesn't.
pub fn answers(reading: &wrong::Reading, call: &Call, right: &Answer) -> bool {
    let answer = catch_unwind(AssertUnwindSafe(|| (reading.answer)(call)));
    answer.is_ok_and(|answer| answer == *right)
}

/// The lines of calls and answers; where some are marked, only those.
fn recorded_lines(content: &str) -> Vec<&str> {
    let lines: Vec<&str> = content.lines().map(str::trim).collect();
    let marked: Vec<&str> = lines
        .iter()
        .filter_map(|line| line.strip_prefix("< ").or(line.strip_prefix("> ")))
        .collect();
    if !marked.is_empty() {
        return marked;
    }
    lines
        .into_iter()
        .filter(|line| !line.is_empty() && !line.starts_with('#'))
        .collect()
}

/// Recorded calls and answers in text form: a call line, then its answer line, plain or marked < and >.
pub fn recorded(files: &[String]) -> Result<bool, String> {
    let mut good = true;
    for file in files {
        let content = std::fs::read_to_string(file).map_err(|why| format!("{file}: {why}"))?;
        let mut lines = recorded_lines(&content).into_iter();
        let (mut read, mut differences) = (0, 0);
        while let (Some(call), Some(answer)) = (lines.next(), lines.next()) {
            let call = text::parse_call(call).map_err(|why| format!("{file}: {why:?}"))?;
            let answer = text::parse_answer(answer).map_err(|why| format!("{file}: {why:?}"))?;
            read += 1;
            for (who, found) in both(&call) {
                if found != answer {
                    differences += 1;
                    println!("{who} parts from {file}");
                    println!("  call     {}", text::print_call(&call));
                    println!("  answer   {}", text::print_answer(&found));
                    println!("  recorded {}", text::print_answer(&answer));
                }
            }
        }
        println!("{file}: {read} calls, {differences} differences");
        good &= differences == 0;
    }
    Ok(good)
}

#[cfg(test)]
mod tests {
    use std::sync::atomic::AtomicU64;

    use calls::layout::{BAD_RECORD, CALL, CALL_SIGNAL, RECORD, SHEET, SHORT_BUFFER};
    use calls::Ceilings;

    use super::*;
    use crate::asked;

    const NOTED: u32 = 5;
    const CALLS: u64 = 4_000;

    fn plain() -> Comparison {
        Comparison {
            plain: plain::answer,
            reason: Reason::of,
            sides: Vec::new(),
            boundaries: vec![asked::PLAIN],
            generator: Generator::new,
            fast: true,
            first: true,
        }
    }

    #[test]
    fn ranges_leave_and_are_counted() {
        let (counts, differences) = plain().seed(1, CALLS);
        assert_eq!(differences, 0);
        assert_eq!(counts.calls + counts.left(), CALLS);
        for reason in [
            Reason::CallNumber,
            Reason::RecordNumber,
            Reason::StoredAtEnd,
        ] {
            let count = counts.left_for(reason);
            assert!(count > 0);
            let row = format!("| {} | {count} |", reason.text());
            assert!(counts.reasons().contains(&row));
        }
        assert_eq!(counts.left_for(Reason::AddedRefusal), 0);
    }

    const NEW: u32 = 31;

    /// A rule that the original lacks: noted events are refused.
    fn without_noted(call: &Call) -> Answer {
        match plain::answer(call) {
            Answer::Next { .. } if call.event.kind == NOTED => Answer::Refused {
                number: NEW,
                item: calls::NONE,
            },
            answer => answer,
        }
    }

    fn new_refusal(call: &Call, plain: &Answer) -> Option<Reason> {
        match plain {
            Answer::Refused { number: NEW, .. } => Some(Reason::AddedRefusal),
            _ => Reason::of(call, plain),
        }
    }

    #[test]
    fn a_refusal_that_the_original_lacks_leaves() {
        let mut comparison = Comparison {
            plain: without_noted,
            reason: new_refusal,
            sides: vec![Side {
                name: "the same",
                answer: |call| Ok(without_noted(call)),
            }],
            ..plain()
        };
        let (counts, differences) = comparison.seed(1, CALLS);
        assert_eq!(differences, 0);
        assert!(counts.left_for(Reason::AddedRefusal) > 20);
        // A side that lacks the rule is found, though the original isn't asked.
        comparison.sides[0].answer = |call| Ok(plain::answer(call));
        assert!(comparison.seed(1, CALLS).1 > 0);
        // And so is the rule where no reason names it.
        comparison.sides.clear();
        comparison.reason = Reason::of;
        assert!(comparison.seed(1, CALLS).1 > 0);
    }

    #[test]
    fn a_difference_among_those_compared_is_found() {
        let comparison = Comparison {
            plain: without_noted,
            reason: new_refusal,
            sides: vec![Side {
                name: "another",
                answer: |call| match without_noted(call) {
                    Answer::Refused { number: 22, item } => {
                        Ok(Answer::Refused { number: 23, item })
                    }
                    answer => Ok(answer),
                },
            }],
            first: false,
            ..plain()
        };
        let (counts, differences) = comparison.seed(1, CALLS);
        assert!(counts.left_for(Reason::AddedRefusal) > 20);
        assert!(differences > 20);
    }

    fn stores_at_end(call: &Call) -> bool {
        let state = call.state.as_ref();
        state.is_some_and(|state| state.status > 3 && state.signal_count > 0)
    }

    /// Lacks the check of what an ended run stores.
    fn unchecked(call: &Call) -> Answer {
        match plain::answer(call) {
            Answer::Refused { number: 25, .. } if stores_at_end(call) => {
                original::answer_fast(call)
            }
            answer => answer,
        }
    }

    #[test]
    fn a_record_that_only_an_added_check_refuses_leaves() {
        let mut comparison = Comparison {
            sides: vec![Side {
                name: "the same",
                answer: |call| Ok(plain::answer(call)),
            }],
            ..plain()
        };
        let (counts, differences) = comparison.seed(1, CALLS);
        assert_eq!(differences, 0);
        assert!(counts.left_for(Reason::StoredAtEnd) > 10);
        // A side that lacks the check is found, though it answers as the original does; and so is a plain reading.
        comparison.sides[0].answer = |call| Ok(unchecked(call));
        assert!(comparison.seed(1, CALLS).1 > 0);
        comparison.sides.clear();
        comparison.plain = unchecked;
        assert!(comparison.seed(1, CALLS).1 > 0);
        // The check is found where no reason names it, and other refusals of such records where a reason names all.
        comparison.plain = plain::answer;
        comparison.reason =
            |call, plain| Reason::of(call, plain).filter(|it| *it != Reason::StoredAtEnd);
        assert!(comparison.seed(1, CALLS).1 > 0);
        comparison.reason = |call, plain| {
            let reason = Reason::of(call, plain);
            reason.or(stores_at_end(call).then_some(Reason::StoredAtEnd))
        };
        assert!(comparison.seed(1, CALLS).1 > 0);
    }

    /// Where the call ends the run, what was stored stays.
    fn left_stored(call: &Call) -> Answer {
        let mut answer = plain::answer(call);
        if let Answer::Next { state, endings, .. } = &mut answer {
            endings.retain(|it| it.ending != 5);
            if let (true, Some(before)) = (state.status > 3, &call.state) {
                state.signal_count = before.signal_count;
                state.signals = before.signals;
            }
        }
        answer
    }

    #[test]
    fn what_is_left_over_is_compared() {
        let comparison = Comparison {
            plain: left_stored,
            ..plain()
        };
        assert_eq!(comparison.seed(1, CALLS).1, 1);
    }

    const OTHER_INPUT: u32 = 7_777;
    static WENT_ON: AtomicU64 = AtomicU64::new(0);

    /// Answers a noted event otherwise than the original, and sees the record that it left come back.
    fn other_input(call: &Call) -> Answer {
        let before = call.state.as_ref().map(|state| state.input);
        if before == Some(OTHER_INPUT) {
            WENT_ON.fetch_add(1, Ordering::Relaxed);
        }
        let mut answer = plain::answer(call);
        if let (Answer::Next { state, .. }, NOTED) = (&mut answer, call.event.kind) {
            state.input = OTHER_INPUT;
        }
        answer
    }

    #[test]
    fn the_history_goes_on_with_the_plain_record() {
        let comparison = Comparison {
            plain: other_input,
            reason: |call, plain| {
                let accepted = matches!(plain, Answer::Next { .. }) && call.event.kind == NOTED;
                match accepted {
                    true => Some(Reason::AddedRefusal),
                    false => Reason::of(call, plain),
                }
            },
            ..plain()
        };
        let (counts, differences) = comparison.seed(1, CALLS);
        assert_eq!(differences, 0);
        assert!(counts.left_for(Reason::AddedRefusal) > 20);
        assert!(WENT_ON.load(Ordering::Relaxed) > 20);
    }

    /// Reads a signal in 8 bits.
    fn cut_signal(sheet: &[u32], call: &[u64], record: &[u64], answer: &mut [u64]) -> u32 {
        let mut call = call.to_vec();
        if let Some(signal) = call.get_mut(CALL_SIGNAL) {
            *signal %= 256;
        }
        boundary::transition(sheet, &call, record, answer)
    }

    /// Writes into the buffer before it refuses.
    fn early(sheet: &[u32], call: &[u64], record: &[u64], answer: &mut [u64]) -> u32 {
        let said = boundary::transition(sheet, call, record, answer);
        if said == BAD_RECORD as u32 {
            answer[0] = 0;
        }
        said
    }

    /// Takes longer arrays.
    fn longer(sheet: &[u32], call: &[u64], record: &[u64], answer: &mut [u64]) -> u32 {
        let sheet = &sheet[..sheet.len().min(SHEET)];
        let call = &call[..call.len().min(CALL)];
        let record = &record[..record.len().min(RECORD)];
        boundary::transition(sheet, call, record, answer)
    }

    /// Tests the record's length before the call's.
    fn record_first(sheet: &[u32], call: &[u64], record: &[u64], answer: &mut [u64]) -> u32 {
        match record.len() == RECORD {
            true => boundary::transition(sheet, call, record, answer),
            false => boundary::transition(sheet, &[0; CALL], record, answer),
        }
    }

    /// Writes the verdict's first number only.
    fn half(sheet: &[u32], ceilings: &Ceilings, verdict: &mut [u32]) -> u32 {
        let before = verdict.get(1).copied();
        let said = boundary::verdict(sheet, ceilings, verdict);
        if let Some(before) = before {
            verdict[1] = before;
        }
        said
    }

    /// Says that a sheet of another length is a short buffer.
    fn no_length(sheet: &[u32], ceilings: &Ceilings, verdict: &mut [u32]) -> u32 {
        match sheet.len() == SHEET {
            true => boundary::verdict(sheet, ceilings, verdict),
            false => SHORT_BUFFER as u32,
        }
    }

    #[test]
    fn wrong_boundaries_are_found() {
        let named = |transition, verdict| Boundary {
            name: "wrong",
            transition,
            verdict,
        };
        let asked::Boundary {
            transition,
            verdict,
            ..
        } = asked::PLAIN;
        for wrong in [
            named(cut_signal, verdict),
            named(early, verdict),
            named(longer, verdict),
            named(record_first, verdict),
            named(transition, no_length),
        ] {
            for boundaries in [vec![asked::PLAIN, wrong], vec![wrong]] {
                let comparison = Comparison {
                    boundaries,
                    ..plain()
                };
                assert_eq!(comparison.seed(1, CALLS).1, 1);
            }
        }
        let comparison = Comparison {
            boundaries: vec![asked::PLAIN, named(transition, half)],
            ..plain()
        };
        assert_eq!(comparison.seed(1, CALLS).1, 1);
    }
}
