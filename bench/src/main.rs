//! The library against plain Rust and the original, in one run (docs/BENCHMARKS.md).
//!
//! The sides of a case are timed in turns, many rounds of each; the least time of a side counts, and a ratio is that
//! of least times. Before that their answers are compared.
//!
//! With `--check` it fails where a ratio, a mean of ratios or the large copies of one call are above the numbers of the file
//! `limits`.

mod counted;
mod in_bytes;

use std::hint::black_box;
use std::process::ExitCode;
use std::time::Instant;

use calls::numbers::{self, ANSWER};
use calls::{Call, State, Workflow, NONE};
use counted::{Moved, LARGE};
use generator::full::{self, CEILINGS};
use generator::{directed, joint};
use kuxhoveza::raw;
use original::Asked;
use plain::Decision;

const ROUNDS: usize = 60;
/// A round of one side takes about so many nanoseconds.
const ROUND: f64 = 400_000.0;

/// The least time of one call of each side, in nanoseconds.
fn least<const N: usize>(mut sides: [&mut dyn FnMut(); N]) -> [f64; N] {
    let mut least = sides.each_mut().map(|side| time(side, 20));
    for _ in 0..ROUNDS {
        for (side, least) in sides.iter_mut().zip(&mut least) {
            let calls = (ROUND / *least).ceil() as u32;
            *least = least.min(time(side, calls));
        }
    }
    least
}

fn time(side: &mut dyn FnMut(), calls: u32) -> f64 {
    let start = Instant::now();
    for _ in 0..calls {
        side();
    }
    start.elapsed().as_nanos() as f64 / f64::from(calls)
}

fn library_verdict(sheet: &kuxhoveza::Sheet) -> Option<(u32, u32)> {
    let ceilings = kuxhoveza::Ceilings {
        nodes: CEILINGS.nodes,
        visits: CEILINGS.visits,
        activations: CEILINGS.activations,
        attempts: CEILINGS.attempts,
    };
    let refusal = kuxhoveza::verdict(sheet, ceilings).expect("one layout")?;
    Some((refusal.number, refusal.item))
}

/// Shows a row and tells its ratio.
fn show_verdict(name: &str, workflow: &Workflow) -> f64 {
    let sheet = numbers::sheet(workflow);
    let verdict = plain::verdict(workflow, &CEILINGS);
    assert_eq!(library_verdict(&sheet), verdict, "{name}");
    let [library, plain] = least([
        &mut || {
            black_box(library_verdict(black_box(&sheet)));
        },
        &mut || {
            black_box(plain::verdict(black_box(workflow), &CEILINGS));
        },
    ]);
    println!(
        "| {name} | {} | {} | {library:.0} | {plain:.0} | {:.2} |",
        workflow.route_count,
        workflow.limit_count,
        library / plain
    );
    library / plain
}

/// The greatest ratio.
fn verdicts() -> f64 {
    println!("| Sheet | Routes | Limits | Library, ns | Plain Rust, ns | Ratio |");
    println!("|---|---|---|---|---|---|");
    let mut greatest = show_verdict("Joint A", &joint::sheet());
    for n in [8, 16, 32, 64] {
        greatest = greatest.max(show_verdict(&format!("{n} nodes"), &full::sheet(n)));
    }
    for (rule, workflow) in full::refused() {
        let verdict = plain::verdict(&workflow, &CEILINGS);
        assert_eq!(verdict.map(|(number, _)| number), Some(rule));
        greatest = greatest.max(show_verdict(&format!("refused with {rule}"), &workflow));
    }
    greatest
}

/// The record that a call leaves.
fn after(call: &Call) -> State {
    let mut out = Decision::new();
    out.decide(call);
    out.state
}

fn cases() -> Vec<(String, Call)> {
    let mut cases: Vec<(String, Call)> = joint::twelve()
        .into_iter()
        .map(|case| (format!("Joint A, {}", case.name), case.call))
        .collect();
    let sheet = joint::sheet();
    let scheduled = after(&joint::call(&sheet, None, joint::start()));
    let stored = after(&joint::call(
        &sheet,
        Some(&scheduled),
        joint::signal(5, NONE),
    ));
    let mut add = |name: &str, call| cases.push((name.to_string(), call));
    add(
        "a stored arrival taken",
        joint::call(&sheet, Some(&stored), joint::result(0, 1, 1, 1)),
    );
    add("130 microsteps", directed::spin(NONE));
    let start = |workflow: &Workflow| Call {
        ceilings: CEILINGS,
        ..joint::call(workflow, None, joint::start())
    };
    add("start on a full sheet", start(&full::sheet(64)));
    let waiting = after(&start(&full::sheet(64)));
    let result = Call {
        ceilings: CEILINGS,
        ..joint::call(&full::sheet(64), Some(&waiting), joint::result(0, 1, 1, 1))
    };
    add("success on a full sheet", result);
    for (rule, workflow) in full::refused() {
        if [5, 12, 15].contains(&rule) {
            add(
                &format!("a full sheet refused with {rule}"),
                start(&workflow),
            );
        }
    }
    cases
}

/// The case whose large copies are held to a limit.
const LONGEST: &str = "130 microsteps";

/// What a case showed.
struct Shown {
    name: String,
    original: f64,
    /// Library / plain behind the boundary, with the sheet read into structs and in place.
    boundary: f64,
    in_place: f64,
    moved: Option<Moved>,
}

fn show_call(name: &str, call: &Call) -> Shown {
    let sheet = &numbers::sheet(&call.workflow)[..];
    let words: kuxhoveza::Call = numbers::call(call).try_into().unwrap();
    let record = call.state.as_ref().map(numbers::record);
    let lent = record.unwrap_or_else(|| vec![0; numbers::RECORD]);
    let asked = Asked::of(call).expect("a sheet with its form");
    let mut out = Decision::new();
    let (mut theirs, mut placed, mut ours) = ([0; ANSWER], [0; ANSWER], [0; ANSWER]);

    out.decide(call);
    assert_eq!(original::answer(call), out.answer(), "{name}");
    assert_eq!(boundary::transition(sheet, &words, &lent, &mut theirs), 0);
    assert_eq!(numbers::answer(&out.answer()).unwrap(), theirs, "{name}");
    let said = boundary::transition_in_place(sheet, &words, &lent, &mut placed);
    assert_eq!((said, placed), (0, theirs), "{name}");
    assert_eq!(raw::transition(sheet, &words, &lent, &mut ours), 0);
    assert_eq!(theirs, ours, "{name}");
    ours.fill(1);
    let moved = counted::transition(sheet, &words, &lent, &mut ours);
    assert!(moved.is_none() || theirs == ours, "{name}");

    let [original, structs, plain, in_place, library] = least([
        &mut || {
            black_box(black_box(&asked).transition().is_ok());
        },
        &mut || {
            out.decide(black_box(call));
            black_box(&out);
        },
        &mut || {
            boundary::transition(black_box(sheet), &words, &lent, black_box(&mut theirs));
        },
        &mut || {
            boundary::transition_in_place(black_box(sheet), &words, &lent, black_box(&mut placed));
        },
        &mut || {
            raw::transition(black_box(sheet), &words, &lent, black_box(&mut ours));
        },
    ]);
    let bytes =
        |of: fn(Moved) -> usize| moved.map_or("-".to_string(), |moved| of(moved).to_string());
    println!(
        "| {name} | {original:.0} | {structs:.0} | {plain:.0} | {in_place:.0} | {library:.0} | {:.1} | {:.2} | {:.2} | {:.2} | {} | {} |",
        original / library,
        library / plain,
        library / in_place,
        library / structs,
        bytes(|moved| moved.copied),
        bytes(|moved| moved.cleared),
    );
    Shown {
        name: name.to_string(),
        original: library / original,
        boundary: library / plain,
        in_place: library / in_place,
        moved,
    }
}

fn geometric_mean(ratios: impl ExactSizeIterator<Item = f64>) -> f64 {
    let count = ratios.len() as f64;
    (ratios.map(f64::ln).sum::<f64>() / count).exp()
}

/// What is held to the limits.
struct Measured {
    /// Geometric means.
    boundary: f64,
    in_place: f64,
    /// The ratios of the longest call, and the greatest of the others.
    longest: f64,
    longest_to_original: f64,
    greatest: f64,
    greatest_to_original: f64,
    /// Large copies of the longest call, where they are counted.
    large: Option<usize>,
}

fn calls(cases: &[(String, Call)]) -> Measured {
    println!("| Call | Original, ns | Plain, structs | Plain, boundary | Plain, in place | Library | Original / library | Library / plain, boundary | Library / plain, in place | Library / plain, structs | Copied, bytes | Cleared, bytes |");
    println!("|---|---|---|---|---|---|---|---|---|---|---|---|");
    let shown: Vec<Shown> = cases
        .iter()
        .map(|(name, call)| show_call(name, call))
        .collect();
    let longest = shown.iter().find(|it| it.name == LONGEST);
    let longest = longest.expect("the longest call");
    let moved = longest.moved;
    let greatest = |ratio: fn(&Shown) -> f64| {
        let others = shown.iter().filter(|it| it.name != LONGEST);
        others.map(ratio).fold(0.0, f64::max)
    };
    let measured = Measured {
        longest: longest.boundary,
        longest_to_original: longest.original,
        greatest: greatest(|it| it.boundary),
        greatest_to_original: greatest(|it| it.original),
        boundary: geometric_mean(shown.iter().map(|it| it.boundary)),
        in_place: geometric_mean(shown.iter().map(|it| it.in_place)),
        large: moved.map(|moved| moved.large),
    };
    println!();
    println!(
        "Geometric mean of {} calls: library / plain, boundary {:.3}; library / plain, in place {:.3}",
        shown.len(),
        measured.boundary,
        measured.in_place
    );
    match measured.large {
        Some(large) => println!("{LONGEST}: {large} copies of {LARGE} bytes or more"),
        None => println!("Copies are counted only where the library is an archive"),
    }
    measured
}

/// Lines of a name and a number; the others begin with #.
fn limit(text: &str, name: &str) -> f64 {
    let mut lines = text.lines().filter_map(|line| line.split_once(' '));
    let (_, number) = lines
        .find(|(it, _)| *it == name)
        .unwrap_or_else(|| panic!("no {name} in bench/limits"));
    number.trim().parse().expect("a number")
}

/// Whether nothing is above its limit.
fn check(verdicts: f64, measured: &Measured, bytes: &in_bytes::Measured) -> bool {
    let text = include_str!("../limits");
    let Some(large) = measured.large else {
        println!("NOT CHECKED: no copies are counted");
        return false;
    };
    let held = [
        ("verdicts", verdicts),
        ("boundary", measured.boundary),
        ("in-place", measured.in_place),
        ("greatest", measured.greatest),
        ("greatest-to-original", measured.greatest_to_original),
        ("longest", measured.longest),
        ("longest-to-original", measured.longest_to_original),
        ("large-copies", large as f64),
        ("bytes", bytes.greatest),
        ("bytes-boundary", bytes.boundary),
        ("bytes-in-place", bytes.in_place),
        ("bytes-boundary-on", bytes.boundary_on),
        ("bytes-in-place-on", bytes.in_place_on),
        ("bytes-greatest-call", bytes.greatest_call),
        ("bytes-around", bytes.greatest_around),
    ];
    let mut within = true;
    for (name, number) in held {
        let limit = limit(text, name);
        if number > limit {
            println!("ABOVE ITS LIMIT: {name} is {number:.3}, at most {limit}");
            within = false;
        }
    }
    if within {
        println!("within bench/limits");
    }
    within
}

fn main() -> ExitCode {
    let words: Vec<String> = std::env::args().skip(1).collect();
    let checked = match words.iter().map(String::as_str).collect::<Vec<_>>()[..] {
        [] => false,
        ["--check"] => true,
        _ => {
            eprintln!("sh bench/run [--check]");
            return ExitCode::from(2);
        }
    };
    let verdicts = verdicts();
    println!();
    let cases = cases();
    let measured = calls(&cases);
    println!();
    let bytes = in_bytes::measure(&cases, LONGEST);
    match checked && !check(verdicts, &measured, &bytes) {
        true => ExitCode::FAILURE,
        false => ExitCode::SUCCESS,
    }
}
