//! Bytes: sheets, runs and events written and read, and whole calls, against plain Rust (`boundary::bytes`), the number
//! boundary and the original's JSON.

use std::hint::black_box;

use boundary::bytes as plain;
use calls::layout::{ANSWER, ANSWER_BYTES, CALL_SEQUENCE, EVENT, RECORD, SHEET, SHEET_BYTES};
use calls::{numbers, Call};
use generator::full::{self, CEILINGS};
use generator::joint;
use kuxhoveza::raw;
use original::Asked;

use crate::{after, geometric_mean, least};

/// What is held to the limits.
pub struct Measured {
    /// The greatest ratio of a write or a read to plain Rust.
    pub greatest: f64,
    /// Geometric means of calls: library / plain behind the boundary and in place, whole and on a sheet.
    pub boundary: f64,
    pub in_place: f64,
    pub boundary_on: f64,
    pub in_place_on: f64,
    /// The greatest ratio to plain behind the boundary, but the longest call's.
    pub greatest_call: f64,
    /// The greatest ratio of any call to the plain reader and writer around the library's call in numbers.
    pub greatest_around: f64,
}

/// The parts of a call in numbers.
struct Parts {
    sheet: Box<[u32; SHEET]>,
    run: Option<[u64; RECORD]>,
    call: Vec<u64>,
}

impl Parts {
    fn of(call: &Call) -> Parts {
        let run = call.state.as_ref().map(numbers::record);
        Parts {
            sheet: numbers::sheet(&call.workflow),
            run: run.map(|run| run.try_into().expect("a record")),
            call: numbers::call(call),
        }
    }

    fn event(&self) -> &[u64] {
        &self.call[CALL_SEQUENCE..][..EVENT]
    }

    /// The call's bytes, with its sheet or without.
    fn bytes(&self, with_sheet: bool) -> Vec<u8> {
        bytes::write_call(&bytes::Call {
            sheet: with_sheet.then(|| self.sheet.clone()),
            call: self.call[..].try_into().expect("a call"),
            record: self.run.unwrap_or([0; RECORD]),
        })
    }
}

type Function<I, O> = fn(&[I], &mut [O]) -> u64;

/// One row: the original's time where it does the like, and the library's and plain Rust's. Tells the ratio.
fn show<I, O: Copy + Default + PartialEq + std::fmt::Debug>(
    name: &str,
    bytes: usize,
    json: Option<(usize, &mut dyn FnMut())>,
    given: &[I],
    room: usize,
    [library, plain]: [Function<I, O>; 2],
) -> f64 {
    let mut ours = vec![O::default(); room];
    let mut theirs = ours.clone();
    let said = library(given, &mut ours);
    assert_eq!(raw::parts(said).0, 0, "{name}");
    assert_eq!(plain(given, &mut theirs), said, "{name}");
    assert_eq!(ours, theirs, "{name}");
    let mut library = || {
        black_box(library(black_box(given), black_box(&mut ours)));
    };
    let mut plain = || {
        black_box(plain(black_box(given), black_box(&mut theirs)));
    };
    let ([library, plain], original) = match json {
        None => (least([&mut library, &mut plain]), None),
        Some((size, original)) => {
            let [original, library, plain] = least([original, &mut library, &mut plain]);
            ([library, plain], Some((size, original)))
        }
    };
    let (size, time, times) = original.map_or(
        ("-".to_string(), "-".to_string(), "-".to_string()),
        |(size, original)| {
            let times = format!("{:.1}", original / library);
            (size.to_string(), format!("{original:.0}"), times)
        },
    );
    println!(
        "| {name} | {bytes} | {size} | {time} | {plain:.0} | {library:.0} | {times} | {:.2} |",
        library / plain
    );
    library / plain
}

/// The parts of a call written and read. Tells the greatest ratio.
fn parts(name: &str, call: &Call, with_sheet: bool) -> f64 {
    let mut greatest: f64 = 0.0;
    let asked = Asked::of(call).expect("a sheet with its form");
    let parts = Parts::of(call);
    if with_sheet {
        let bytes = bytes::write_sheet(&parts.sheet).expect("a tidy sheet");
        let json = asked.sheet();
        let sheet = original::read_sheet(json);
        greatest = greatest.max(show(
            &format!("{name}, sheet written"),
            bytes.len(),
            Some((json.len(), &mut || {
                black_box(original::write_sheet(black_box(&sheet)));
            })),
            &parts.sheet[..],
            SHEET_BYTES,
            [raw::write_sheet, plain::write_sheet],
        ));
        greatest = greatest.max(show(
            &format!("{name}, sheet read"),
            bytes.len(),
            Some((json.len(), &mut || {
                black_box(original::read_sheet(black_box(json)));
            })),
            &bytes,
            SHEET,
            [raw::read_sheet, plain::read_sheet],
        ));
    }
    if let (Some(run), Some(json)) = (&parts.run, asked.run()) {
        let bytes = bytes::write_run(run).expect("a tidy run");
        let state = original::read_run(json);
        greatest = greatest.max(show(
            &format!("{name}, run written"),
            bytes.len(),
            Some((json.len(), &mut || {
                black_box(original::write_run(black_box(&state)));
            })),
            run,
            ANSWER_BYTES,
            [raw::write_run, plain::write_run],
        ));
        greatest = greatest.max(show(
            &format!("{name}, run read"),
            bytes.len(),
            Some((json.len(), &mut || {
                black_box(original::read_run(black_box(json)));
            })),
            &bytes,
            RECORD,
            [raw::read_run, plain::read_run],
        ));
    }
    if with_sheet {
        let bytes = bytes::write_event(parts.event()[..].try_into().unwrap()).expect("it fits");
        greatest = greatest.max(show(
            &format!("{name}, event written"),
            bytes.len(),
            None,
            parts.event(),
            ANSWER_BYTES,
            [raw::write_event, plain::write_event],
        ));
        greatest = greatest.max(show(
            &format!("{name}, event read"),
            bytes.len(),
            None,
            &bytes,
            EVENT,
            [raw::read_event, plain::read_event],
        ));
    }
    greatest
}

/// Sheets, runs and events. Tells the greatest ratio.
fn stored() -> f64 {
    println!("| What | Bytes | JSON, bytes | Original, ns | Plain Rust | Library | Original / library | Library / plain |");
    println!("|---|---|---|---|---|---|---|---|");
    let sheet = joint::sheet();
    let start = joint::call(&sheet, None, joint::start());
    let scheduled = after(&start);
    let result = joint::call(&sheet, Some(&scheduled), joint::result(0, 1, 1, 1));
    let first = parts("Joint A", &result, true);
    let stored = joint::twelve()
        .into_iter()
        .find(|case| case.name.contains("full store"));
    let stored = stored.expect("a full store").call;
    let second = parts("Joint A, a full store", &stored, false);
    let full = full::sheet(64);
    let start = Call {
        ceilings: CEILINGS,
        ..joint::call(&full, None, joint::start())
    };
    let run = after(&start);
    let result = Call {
        ceilings: CEILINGS,
        ..joint::call(&full, Some(&run), joint::result(0, 1, 1, 1))
    };
    first.max(second).max(parts("64 nodes", &result, true))
}

/// A call in bytes: whole, or on a sheet in numbers. Times in nanoseconds.
struct Times {
    /// The plain reader and writer around the library's call in numbers; around plain Rust behind the boundary of numbers,
    /// and with the sheet read in place.
    around: f64,
    boundary: f64,
    in_place: f64,
    library: f64,
}

impl Times {
    /// What a row shows of it, to the library's time of the same call in numbers.
    fn row(&self, numbers: f64) -> String {
        let Times {
            around,
            boundary,
            in_place,
            library,
        } = self;
        format!(
            "{numbers:.0} | {around:.0} | {boundary:.0} | {in_place:.0} | {library:.0} | {:.2} | {:.2} | {:.2} | {:.2} |",
            library / numbers,
            library / around,
            library / boundary,
            library / in_place,
        )
    }
}

struct Shown<'a> {
    name: &'a str,
    /// Bytes of the call, whole and without its sheet, and of its answer; of the original's JSON in and out.
    sizes: [usize; 5],
    original: f64,
    numbers: f64,
    whole: Times,
    on: Times,
}

fn shown<'a>(name: &'a str, call: &Call) -> Shown<'a> {
    let parts = Parts::of(call);
    let asked = Asked::of(call).expect("a sheet with its form");
    let (whole, rest) = (&parts.bytes(true)[..], &parts.bytes(false)[..]);
    let sheet = &parts.sheet[..];
    let run = parts.run.unwrap_or([0; RECORD]);
    let mut numbers = [0; ANSWER];
    let mut buffers = [[0; ANSWER_BYTES]; 8];
    let [a, b, c, d, e, f, g, h] = &mut buffers;
    let structs = boundary::transition;
    let in_place = boundary::transition_in_place;
    let said = raw::call(whole, a);
    for other in [
        plain::call_through(structs, whole, b),
        plain::call_through(in_place, whole, c),
        raw::call_on(sheet, rest, d),
        plain::call_on_through(structs, sheet, rest, e),
        plain::call_on_through(in_place, sheet, rest, f),
        plain::call_through(raw::transition, whole, g),
        plain::call_on_through(raw::transition, sheet, rest, h),
    ] {
        assert_eq!(other, said, "{name}");
    }
    assert!(buffers.iter().all(|buffer| *buffer == buffers[0]), "{name}");
    let (number, size) = raw::parts(said);
    let out = if number == 0 { size as usize } else { 0 };
    let json_in = asked.sheet().len() + asked.run().map_or(0, <[u8]>::len) + asked.event().len();
    let json_out = asked.transition().map_or(0, |decision| {
        let commands = decision.commands.iter().map(|it| it.payload.len());
        let notes = decision.diagnostics.iter().map(|it| it.details.len());
        decision.snapshot.len() + commands.chain(notes).sum::<usize>()
    });
    let [a, b, c, d, e, f, g, h] = &mut buffers;
    let times = least([
        &mut || {
            black_box(black_box(&asked).transition().is_ok());
        },
        &mut || {
            raw::transition(black_box(sheet), &parts.call, &run, black_box(&mut numbers));
        },
        &mut || {
            black_box(raw::call(black_box(whole), black_box(a)));
        },
        &mut || {
            let whole = black_box(whole);
            black_box(plain::call_through(structs, whole, black_box(b)));
        },
        &mut || {
            let whole = black_box(whole);
            black_box(plain::call_through(in_place, whole, black_box(c)));
        },
        &mut || {
            let whole = black_box(whole);
            black_box(plain::call_through(raw::transition, whole, black_box(g)));
        },
        &mut || {
            let (sheet, rest) = black_box((sheet, rest));
            black_box(raw::call_on(sheet, rest, black_box(d)));
        },
        &mut || {
            let (sheet, rest) = black_box((sheet, rest));
            black_box(plain::call_on_through(structs, sheet, rest, black_box(e)));
        },
        &mut || {
            let (sheet, rest) = black_box((sheet, rest));
            black_box(plain::call_on_through(in_place, sheet, rest, black_box(f)));
        },
        &mut || {
            let (sheet, rest) = black_box((sheet, rest));
            black_box(plain::call_on_through(
                raw::transition,
                sheet,
                rest,
                black_box(h),
            ));
        },
    ]);
    let [original, numbers, whole_times @ .., d, e, f, h] = times;
    let of = |[library, boundary, in_place, around]: [f64; 4]| Times {
        around,
        boundary,
        in_place,
        library,
    };
    Shown {
        name,
        sizes: [whole.len(), rest.len(), out, json_in, json_out],
        original,
        numbers,
        whole: of(whole_times),
        on: of([d, e, f, h]),
    }
}

const TIMES: &str = "Library, numbers | Plain around it | Plain, boundary | Plain, in place | Library | Library / numbers | Library / plain around | Library / plain, boundary | Library / plain, in place |";

/// Shows the tables; the cases of calls are those of the numbers, of which one is the longest.
pub fn measure(cases: &[(String, Call)], longest: &str) -> Measured {
    let greatest = stored();
    let shown: Vec<Shown> = cases.iter().map(|(name, call)| shown(name, call)).collect();
    println!("\n| Call | Bytes, whole | without sheet | of the answer | JSON in | JSON out |");
    println!("|---|---|---|---|---|---|");
    for Shown { name, sizes, .. } in &shown {
        let [whole, rest, out, json_in, json_out] = sizes;
        println!("| {name} | {whole} | {rest} | {out} | {json_in} | {json_out} |");
    }
    println!("\n| Whole call | Original, ns | Original / library | {TIMES}");
    println!("|---|---|---|---|---|---|---|---|---|---|---|---|");
    for it in &shown {
        let original = it.original;
        let times = original / it.whole.library;
        let row = it.whole.row(it.numbers);
        println!("| {} | {original:.0} | {times:.1} | {row}", it.name);
    }
    println!("\n| Call on a sheet | {TIMES}");
    println!("|---|---|---|---|---|---|---|---|---|---|");
    for it in &shown {
        println!("| {} | {}", it.name, it.on.row(it.numbers));
    }
    let mean = |ratio: fn(&Shown) -> f64| geometric_mean(shown.iter().map(ratio));
    let to_boundary = |times: &Times| times.library / times.boundary;
    let others = shown.iter().filter(|it| it.name != longest);
    let ratios = others.flat_map(|it| [&it.whole, &it.on].map(to_boundary));
    let around = shown
        .iter()
        .flat_map(|it| [&it.whole, &it.on].map(|times| times.library / times.around));
    let measured = Measured {
        greatest,
        boundary: mean(|it| it.whole.library / it.whole.boundary),
        in_place: mean(|it| it.whole.library / it.whole.in_place),
        boundary_on: mean(|it| it.on.library / it.on.boundary),
        in_place_on: mean(|it| it.on.library / it.on.in_place),
        greatest_call: ratios.fold(0.0, f64::max),
        greatest_around: around.fold(0.0, f64::max),
    };
    println!(
        "\nGeometric mean of {} calls: library / plain, boundary {:.3} whole, {:.3} on a sheet; library / plain, in place {:.3} whole, {:.3} on a sheet",
        shown.len(),
        measured.boundary,
        measured.boundary_on,
        measured.in_place,
        measured.in_place_on,
    );
    measured
}
