//! The sample: calls of the generator with the right answers, in the lines of `docs/NUMBERS.md`.

use std::collections::{BTreeMap, BTreeSet};
use std::fs;
use std::path::PathBuf;

use calls::{numbers, Answer, Call, Workflow};
use generator::{joint, Generator};
use wrong::Reading;

use crate::compare;
use crate::counts::{keys, required, Counts};

/// Calls of the generator that are looked at.
const TRIED: usize = 300_000;
/// Bytes of the sample at most.
const SIZE: usize = 2_000_000;
/// Calls with the same course at most, of those that are taken along because their sheet is there already.
const ALIKE: usize = 4;
/// Bytes of a group at most, and of one that shows what only a full store can.
const SHORT: usize = 1_000;
const LONG: usize = 9_000;
/// Calls that each wrong reading answers wrongly, at least.
const TELLING: usize = 4;
/// Bytes at most of a group that is taken along.
const CHEAP: usize = 600;

fn folder() -> PathBuf {
    PathBuf::from(env!("CARGO_MANIFEST_DIR")).join("../sample")
}

/// What a call shows, and what course it takes.
struct Shown {
    keys: Vec<String>,
    course: String,
}

fn shown(call: &Call, answer: &Answer) -> Shown {
    let mut keys = keys(call, answer);
    if let Answer::Refused { number, item } = answer {
        keys.push(format!("refusal {number} item {item}"));
    }
    let status = call.state.as_ref().map_or(0, |state| state.status);
    let course = format!(
        "{} {status} {} {} {keys:?}",
        call.workflow.format, call.event.kind, call.event.status
    );
    Shown { keys, course }
}

/// How often a call is to show something.
fn quota(key: &str) -> usize {
    match key {
        "microsteps 130" | "microsteps 65 to 129" => 4,
        _ if key.ends_with(" notes") || key.ends_with(" endings") => 4,
        "note 4" | "ending 3" => 20,
        "refusal 20, no item" | "refusal 25, no item" => 150,
        _ if key.contains(" item ") => 5,
        _ => 36,
    }
}

/// What only a full store can show.
fn is_long(key: &str) -> bool {
    quota(key) <= 20 && !key.contains(" item ")
}

/// The generator's calls that have an answer, with the right one, in their order.
fn each_call(seed: u64, mut take: impl FnMut(usize, &Call, &Answer)) {
    let mut generator = Generator::new(seed);
    for n in 0..TRIED {
        let call = generator.call();
        if let Some(answer) = compare::right(&call) {
            take(n, &call, &answer);
            generator.answered(&call, &answer);
        }
    }
}

fn length(call: &Call, answer: &Answer, before: Option<&Workflow>) -> usize {
    let mut group = String::new();
    match numbers::write_group(&mut group, call, answer, before) {
        true => group.len(),
        false => usize::MAX,
    }
}

/// The calls that show something not yet shown often enough, and how many bytes they take.
fn choose(seed: u64) -> (BTreeSet<usize>, usize) {
    let mut chosen = BTreeSet::new();
    let mut bytes = 0;
    let mut before: Option<Workflow> = None;
    let mut seen: BTreeMap<String, usize> = BTreeMap::new();
    let readings = wrong::readings();
    let mut told = vec![0; readings.len()];
    let joint = joint::cases().len();
    each_call(seed, |n, call, answer| {
        let shown = shown(call, answer);
        let needed = |key: &&String| seen.get(*key).copied().unwrap_or(0) < quota(key);
        let needed: Vec<&String> = shown.keys.iter().filter(needed).collect();
        let most = match needed.iter().any(|key| is_long(key)) || n < joint {
            true => LONG,
            false => SHORT,
        };
        if length(call, answer, None) > most {
            return;
        }
        let tells = tells(&readings, &told, call, answer);
        if needed.is_empty() && tells.is_empty() && n >= joint {
            return;
        }
        for reading in tells {
            told[reading] += 1;
        }
        chosen.insert(n);
        bytes += length(call, answer, before.as_ref());
        before = Some(call.workflow.clone());
        for key in shown.keys {
            *seen.entry(key).or_default() += 1;
        }
    });
    (chosen, bytes)
}

/// The wrong readings that answer this call wrongly, of those that few calls told of.
fn tells(readings: &[Reading], told: &[usize], call: &Call, answer: &Answer) -> Vec<usize> {
    (0..readings.len())
        .filter(|i| told[*i] < TELLING && !compare::answers(&readings[*i], call, answer))
        .collect()
}

#[derive(Default)]
struct Sample {
    text: String,
    counts: Counts,
    keys: BTreeMap<String, usize>,
}

/// Writes the chosen calls, and takes others along that share a sheet with the call before.
fn collect(seed: u64) -> Sample {
    let (chosen, bytes) = choose(seed);
    let mut room = SIZE.saturating_sub(bytes);
    let mut sample = Sample::default();
    let mut before: Option<Workflow> = None;
    let mut courses: BTreeMap<String, usize> = BTreeMap::new();
    each_call(seed, |n, call, answer| {
        let shown = shown(call, answer);
        let course = courses.entry(shown.course).or_default();
        if !chosen.contains(&n) {
            let length = length(call, answer, before.as_ref());
            let shared = before.as_ref() == Some(&call.workflow);
            if !shared || *course >= ALIKE || length > CHEAP.min(room) {
                return;
            }
            room -= length;
        }
        *course += 1;
        numbers::write_group(&mut sample.text, call, answer, before.as_ref());
        before = Some(call.workflow.clone());
        sample.counts.count(call, answer);
        for key in shown.keys {
            *sample.keys.entry(key).or_default() += 1;
        }
    });
    sample
}

pub fn write(seed: u64) -> Result<bool, String> {
    std::panic::set_hook(Box::new(|_| {}));
    let sample = collect(seed);
    let path = folder().join("../../crates/replay/stdin");
    fs::write(&path, &sample.text).map_err(|why| format!("{path:?}: {why}"))?;
    let path = folder().join("README.md");
    fs::write(&path, readme(seed, &sample)).map_err(|why| format!("{path:?}: {why}"))?;
    println!("{}", sample.counts.table());
    println!("{} calls, {} bytes", sample.counts.calls, sample.text.len());
    let mut whole = true;
    for key in required() {
        let count = sample.counts.of(&key);
        whole &= count > 0;
        if count < 20 {
            println!("shown {count} times: {key}");
        }
    }
    Ok(whole && read()?)
}

fn readme(seed: u64, sample: &Sample) -> String {
    let mut items: BTreeMap<u32, Vec<String>> = BTreeMap::new();
    for key in sample.keys.keys() {
        let words: Vec<&str> = key.split(' ').collect();
        if let ["refusal", number, "item", item] = words[..] {
            let number = number.parse().unwrap_or(0);
            items.entry(number).or_default().push(item.to_string());
        }
    }
    let mut table = String::from("| Refusal | Items |\n|---|---|\n");
    for (number, items) in items {
        let mut items: Vec<u32> = items.iter().filter_map(|item| item.parse().ok()).collect();
        items.sort();
        let items: Vec<String> = items.iter().map(u32::to_string).collect();
        table.push_str(&format!("| {number} | {} |\n", items.join(" ")));
    }
    format!(
        "# The sample\n\n\
        `crates/replay/stdin` holds {} calls with their answers, in the lines of `docs/NUMBERS.md` ({} bytes).\n\n\
        Made by `oracle/target/release/harness sample {seed}` after `sh oracle/build`: the generator's calls of that\n\
        seed, the directed calls first (Joint A, every way to an end with something stored, 130 microsteps, 65 notes,\n\
        65 endings), each answered by the original, or with 25 where a run has ended with something stored, which the\n\
        original takes. Of {TRIED} calls those were chosen that show something not yet shown often enough ({} times for\n\
        most things) or that one of the wrong readings of `oracle/wrong/edits` answers wrongly and fewer than {TELLING}\n\
        calls before, short ones where that can be; and further calls on the same sheets were taken along. Calls whose\n\
        event or record holds a number that its field can't (names above 255, error codes above 65535) are left out;\n\
        sheets with such numbers are in. The same seed gives the same bytes. `harness read-sample` reads it back,\n\
        compares it with the original and the plain reading, and counts the wrong readings that it finds.\n\n\
        ## What it covers\n\n\
        A call counts once in each row that it shows.\n\n{}\n## Items of the refusals\n\n{table}",
        sample.counts.calls,
        sample.text.len(),
        quota(""),
        sample.counts.table(),
    )
}

/// The sample's calls and answers.
pub fn recorded() -> Result<Vec<(Call, Answer)>, String> {
    let path = folder().join("../../crates/replay/stdin");
    let text = fs::read_to_string(&path).map_err(|why| format!("{path:?}: {why}"))?;
    numbers::Groups::new(&text).collect()
}

/// Reads the sample back and compares it with both.
pub fn read() -> Result<bool, String> {
    let readings = wrong::readings();
    let mut told = vec![0; readings.len()];
    let (mut calls, mut differences) = (0, 0);
    for (call, answer) in recorded()? {
        calls += 1;
        for reading in tells(&readings, &told, &call, &answer) {
            told[reading] += 1;
        }
        for (_, found) in compare::both(&call) {
            differences += usize::from(found != answer);
        }
    }
    println!("sample: {calls} calls read, {differences} differences");
    for (reading, told) in readings.iter().zip(&told) {
        if *told < TELLING {
            println!("found by {told} calls: {}", reading.about);
        }
    }
    let found = told.iter().filter(|told| **told > 0).count();
    println!("{found} of {} wrong readings found", readings.len());
    Ok(differences == 0)
}
