//! Comparison of the original with the plain reading of document 01 and with the library, and what goes with it.
//!
//! ```text
//! harness compare SEED.. [--calls N] [--fast]   the original against the plain reading on N calls a seed
//! harness library SEED.. [--calls N] [--fast] [--first]
//!                                               the original against the linked library and the plain reading, on
//!                                               histories of all lengths
//! harness bytes SEED.. [--calls N] [--damaged N] [--first]
//!                                               the library's functions of bytes against a second reading of
//!                                               docs/BYTES.md, on N calls and N damaged inputs a seed
//! harness program [PATH] SEED.. [--damaged N] [--first]
//!                                               the program (by default crates/kuxhoveza/out/kuxhoveza) against the same reading
//!                                               and the plain one, on N damaged inputs a seed
//! harness wrong SEED.. [--calls N]              after how many calls each wrong reading is found
//! harness joint                                 the cases of Joint A on both
//! harness recorded FILE..                       recorded calls and answers, in text form, on both
//! harness sample SEED                           writes crates/replay/stdin and oracle/sample/README.md
//! harness read-sample                           reads crates/replay/stdin and compares it with both
//! ```
//!
//! `--fast` leaves out the original's cross-checks, `--first` ends a seed at its first difference. Calls that are not compared
//! with the original are counted by reason.

mod asked;
mod compare;
mod counts;
mod damage;
#[cfg(feature = "library")]
mod fence;
#[cfg(feature = "library")]
mod in_bytes;
#[cfg(feature = "library")]
mod library;
mod lines;
mod program;
mod reasons;
mod sample;
mod shrink;
mod tally;
mod whole;

use std::path::Path;
use std::process::ExitCode;

use calls::text;
use generator::{joint, Generator};

use compare::Comparison;
use reasons::Reason;

struct Arguments {
    seeds: Vec<u64>,
    calls: u64,
    damaged: Option<u64>,
    fast: bool,
    first: bool,
}

fn arguments(words: &[String]) -> Result<Arguments, String> {
    let mut arguments = Arguments {
        seeds: Vec::new(),
        calls: 100_000,
        damaged: None,
        fast: false,
        first: false,
    };
    let mut words = words.iter();
    while let Some(word) = words.next() {
        let number = |word: &str| word.parse().map_err(|_| format!("{word:?} is no number"));
        match word.as_str() {
            "--calls" | "--damaged" => {
                let count = words.next().ok_or(format!("{word} needs a number"))?;
                match word.as_str() {
                    "--calls" => arguments.calls = number(count)?,
                    _ => arguments.damaged = Some(number(count)?),
                }
            }
            "--fast" => arguments.fast = true,
            "--first" => arguments.first = true,
            word => arguments.seeds.push(number(word)?),
        }
    }
    match arguments.seeds.is_empty() {
        true => Err("no seed".to_string()),
        false => Ok(arguments),
    }
}

/// The plain reading with the sheet read in place.
const IN_PLACE: compare::Side = compare::Side {
    name: "in place",
    answer: |call| asked::Asked::of(call).answer(&asked::IN_PLACE),
};

/// The original against the plain reading.
fn comparison(arguments: &Arguments) -> Comparison {
    Comparison {
        plain: plain::answer,
        reason: Reason::of,
        sides: vec![IN_PLACE],
        boundaries: vec![asked::PLAIN, asked::IN_PLACE],
        generator: Generator::new,
        fast: arguments.fast,
        first: arguments.first,
    }
}

fn compare(arguments: &Arguments) -> bool {
    comparison(arguments).run(&arguments.seeds, arguments.calls)
}

#[cfg(feature = "library")]
fn one_layout() -> Result<(), String> {
    match kuxhoveza::layout_matches() {
        true => Ok(()),
        false => Err("the library's layout is of another version than the header's".to_string()),
    }
}

#[cfg(feature = "library")]
fn library(arguments: &Arguments) -> Result<bool, String> {
    one_layout()?;
    let library = compare::Side {
        name: "library",
        answer: library::answer,
    };
    let comparison = Comparison {
        sides: vec![IN_PLACE, library],
        boundaries: vec![asked::PLAIN, asked::IN_PLACE, library::LIBRARY],
        generator: Generator::of_all_lengths,
        ..comparison(arguments)
    };
    Ok(comparison.run(&arguments.seeds, arguments.calls))
}

#[cfg(feature = "library")]
fn in_bytes(arguments: &Arguments) -> Result<bool, String> {
    one_layout()?;
    let Arguments {
        seeds,
        calls,
        damaged,
        first,
        ..
    } = arguments;
    in_bytes::run(seeds, *calls, damaged.unwrap_or(1_000_000), *first)
}

#[cfg(not(feature = "library"))]
fn library(_: &Arguments) -> Result<bool, String> {
    Err("built without the library: sh oracle/library".to_string())
}

#[cfg(not(feature = "library"))]
use library as in_bytes;

/// Where the program is, if its file isn't named.
const PROGRAM: &str = concat!(env!("CARGO_MANIFEST_DIR"), "/../../crates/kuxhoveza/out/kuxhoveza");

/// The first word is the program's file, unless it is a seed.
fn program(words: &[String]) -> Result<bool, String> {
    let named = |word: &&String| word.parse::<u64>().is_err() && !word.starts_with("--");
    let (path, rest) = match words.first().filter(named) {
        Some(path) => (path.as_str(), &words[1..]),
        None => (PROGRAM, words),
    };
    let Arguments {
        seeds,
        damaged,
        first,
        ..
    } = arguments(rest)?;
    program::run(Path::new(path), &seeds, damaged.unwrap_or(50_000), first)
}

fn joint() -> bool {
    let mut good = true;
    for case in joint::cases() {
        for (who, answer) in compare::both(&case.call) {
            let agrees = answer == case.expected;
            good &= agrees;
            println!(
                "{who:8} {} {}",
                if agrees { "agrees " } else { "DIFFERS" },
                case.name
            );
            if !agrees {
                println!("  call     {}", text::print_call(&case.call));
                println!("  answer   {}", text::print_answer(&answer));
                println!("  expected {}", text::print_answer(&case.expected));
            }
        }
    }
    good
}

fn run(words: &[String]) -> Result<bool, String> {
    let (command, rest) = words.split_first().ok_or("no command")?;
    match command.as_str() {
        "compare" => Ok(compare(&arguments(rest)?)),
        "library" => library(&arguments(rest)?),
        "bytes" => in_bytes(&arguments(rest)?),
        "program" => program(rest),
        "wrong" => {
            let arguments = arguments(rest)?;
            Ok(compare::wrong(&arguments.seeds, arguments.calls))
        }
        "joint" => Ok(joint()),
        "recorded" => compare::recorded(rest),
        "sample" => sample::write(arguments(rest)?.seeds[0]),
        "read-sample" => sample::read(),
        other => Err(format!("unknown command {other:?}")),
    }
}

fn main() -> ExitCode {
    let words: Vec<String> = std::env::args().skip(1).collect();
    match run(&words) {
        Ok(true) => ExitCode::SUCCESS,
        Ok(false) => ExitCode::FAILURE,
        Err(why) => {
            eprintln!("{why}");
            ExitCode::from(2)
        }
    }
}

#[cfg(test)]
mod tests {
    use super::*;

    #[test]
    fn joint_a() {
        for case in joint::cases() {
            for (who, answer) in compare::both(&case.call) {
                assert_eq!(answer, case.expected, "{who}, {}", case.name);
            }
        }
    }

    #[test]
    fn a_few_calls_agree() {
        let words = ["7", "--calls", "20000"].map(String::from);
        assert!(compare(&arguments(&words).unwrap()));
    }
}
