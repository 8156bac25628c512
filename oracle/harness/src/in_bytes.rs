//! The library's functions of bytes against docs/BYTES.md read a second time (`oracle/bytes`).
//!
//! Of every call a sheet, a run and an event are written and read back, and the call is made in bytes: whole, and on the
//! sheet's numbers. All is tried with buffers of several lengths, with numbers that can't be written, with arrays of other lengths
//! and with damaged bytes. Both sides must return the same and leave the same in the whole buffer. What the library is lent
//! stands between pages that may not be touched.

use bytes::functions;
use calls::layout::{
    ANSWER_BYTES, BAD_BYTES, CALL, CALL_ANSWERED, CALL_BYTES, CALL_SEQUENCE, EVENT, EVENT_BYTES,
    RECORD, RECORD_STORED, RUN_BYTES, SHEET, SHEET_BYTES, SHEET_DECLARED_COUNT, SHEET_NODE_COUNT,
    STORE,
};
use calls::{numbers, Answer, Call};
use generator::fields::{Array, FIELDS};
use generator::joint::{self, Case};
use generator::rng::{Rng, EDGES};
use generator::Generator;
use kuxhoveza::raw;

use crate::damage::{self, every, every_cut, Damage};
use crate::fence::{Edge, Fence, Plain};
use crate::reasons::Reason;
use crate::sample;
use crate::shrink::shrink_bytes;
use crate::tally::{self, Recorded, Tally, Work};
use crate::whole::{numbers_of, Whole};

/// Inputs of at most so many bytes have each byte changed to every other, longer ones to some.
const SMALL: usize = 420;
const SOME_OTHERS: u8 = 15;
/// How often one of the sample's calls has all its parts cut everywhere.
const CUT_EVERY: usize = 16;

/// A function that takes bytes; one of them with a sheet in numbers.
#[derive(Clone, Copy)]
enum Taking<'a> {
    Sheet,
    Run,
    Event,
    Call,
    CallOn(&'a [u32]),
}

impl Taking<'_> {
    fn name(self) -> &'static str {
        match self {
            Taking::Sheet => "read_sheet",
            Taking::Run => "read_run",
            Taking::Event => "read_event",
            Taking::Call => "call",
            Taking::CallOn(_) => "call_on",
        }
    }

    /// The buffer that holds whatever it gives.
    fn room(self) -> usize {
        match self {
            Taking::Sheet => SHEET,
            Taking::Run => RECORD,
            Taking::Event => EVENT,
            Taking::Call | Taking::CallOn(_) => ANSWER_BYTES,
        }
    }
}

/// A function that writes an array as bytes.
#[derive(Clone, Copy)]
enum Writing<'a> {
    Sheet(&'a [u32]),
    Run(&'a [u64]),
    Event(&'a [u64]),
}

impl Writing<'_> {
    fn name(self) -> &'static str {
        match self {
            Writing::Sheet(_) => "write_sheet",
            Writing::Run(_) => "write_run",
            Writing::Event(_) => "write_event",
        }
    }

    fn room(self) -> usize {
        match self {
            Writing::Sheet(_) => SHEET_BYTES,
            Writing::Run(_) => RUN_BYTES,
            Writing::Event(_) => EVENT_BYTES,
        }
    }

    fn print(self) -> String {
        let mut line = String::new();
        match self {
            Writing::Sheet(numbers) => {
                let numbers: Vec<u64> = numbers.iter().map(|x| u64::from(*x)).collect();
                numbers::write_array(&mut line, numbers::KIND_SHEET, &numbers);
            }
            Writing::Run(numbers) => {
                numbers::write_array(&mut line, numbers::KIND_RECORD, numbers);
            }
            Writing::Event(numbers) => line = format!("{numbers:?}\n"),
        }
        line
    }
}

/// How the sides part: what the library returned, and what was due.
struct Parted {
    said: u64,
    due: u64,
}

impl Parted {
    fn text(&self) -> String {
        let [said, due] = [self.said, self.due].map(|said| {
            let (number, rest) = raw::parts(said);
            format!("{number} and {rest}")
        });
        match said == due {
            true => format!("says {said}, but leaves something else in the buffer"),
            false => format!("says {said}, not {due}"),
        }
    }
}

/// What is returned, and the buffer.
type Both<T> = Result<(u64, Vec<T>), Parted>;

/// What both sides are lent and give back.
struct Pair {
    given: Fence,
    taken: Fence,
    edge: Edge,
}

impl Pair {
    /// Both sides on what is given; each edge of the memory in turn.
    fn on<I: Plain, O: Plain>(
        &mut self,
        given: &[I],
        room: usize,
        library: impl Fn(&[I], &mut [O]) -> u64,
        plain: impl Fn(&[I], &mut [O]) -> u64,
    ) -> Both<O> {
        let mut expected = vec![O::BEFORE; room];
        let due = plain(given, &mut expected);
        self.edge = match self.edge {
            Edge::First => Edge::Last,
            Edge::Last => Edge::First,
        };
        let lent = self.given.lent(self.edge, given);
        let buffer = self.taken.buffer(self.edge, room);
        let said = library(lent, buffer);
        match said == due && *buffer == expected && *lent == *given {
            true => Ok((due, expected)),
            false => Err(Parted { said, due }),
        }
    }
}

struct Sides {
    pair: Pair,
    sheet: Fence,
}

impl Sides {
    fn new() -> Sides {
        // Arrays and bytes of twice their greatest length.
        let fence = || Fence::new(2 * CALL_BYTES);
        Sides {
            pair: Pair {
                given: fence(),
                taken: fence(),
                edge: Edge::First,
            },
            sheet: fence(),
        }
    }

    fn write(&mut self, it: Writing, room: usize) -> Both<u8> {
        let pair = &mut self.pair;
        match it {
            Writing::Sheet(it) => pair.on(it, room, raw::write_sheet, functions::write_sheet),
            Writing::Run(it) => pair.on(it, room, raw::write_run, functions::write_run),
            Writing::Event(it) => pair.on(it, room, raw::write_event, functions::write_event),
        }
    }

    fn read_sheet(&mut self, bytes: &[u8], room: usize) -> Both<u32> {
        let pair = &mut self.pair;
        pair.on(bytes, room, raw::read_sheet, functions::read_sheet)
    }

    fn read_run(&mut self, bytes: &[u8], room: usize) -> Both<u64> {
        let pair = &mut self.pair;
        pair.on(bytes, room, raw::read_run, functions::read_run)
    }

    fn read_event(&mut self, bytes: &[u8], room: usize) -> Both<u64> {
        let pair = &mut self.pair;
        pair.on(bytes, room, raw::read_event, functions::read_event)
    }

    fn call(&mut self, bytes: &[u8], room: usize) -> Both<u8> {
        let plain =
            |bytes: &[u8], buffer: &mut [u8]| functions::call(raw::transition, bytes, buffer);
        self.pair.on(bytes, room, raw::call, plain)
    }

    fn call_on(&mut self, sheet: &[u32], bytes: &[u8], room: usize) -> Both<u8> {
        let lent = self.sheet.lent(self.pair.edge, sheet);
        let library = |bytes: &[u8], buffer: &mut [u8]| raw::call_on(lent, bytes, buffer);
        let plain = |bytes: &[u8], buffer: &mut [u8]| {
            functions::call_on(raw::transition, sheet, bytes, buffer)
        };
        self.pair.on(bytes, room, library, plain)
    }

    /// What is returned for bytes, with a buffer of that length.
    fn take(&mut self, it: Taking, bytes: &[u8], room: usize) -> Result<u64, Parted> {
        Ok(match it {
            Taking::Sheet => self.read_sheet(bytes, room)?.0,
            Taking::Run => self.read_run(bytes, room)?.0,
            Taking::Event => self.read_event(bytes, room)?.0,
            Taking::Call => self.call(bytes, room)?.0,
            Taking::CallOn(sheet) => self.call_on(sheet, bytes, room)?.0,
        })
    }
}

/// A call, whole and its parts.
struct Made {
    sheet: Box<[u32; SHEET]>,
    run: Option<[u64; RECORD]>,
    event: [u64; EVENT],
    whole: Whole,
    /// The bytes of the call without its sheet.
    rest: Vec<u8>,
}

impl Made {
    fn of(call: &Call) -> Made {
        let whole = Whole::of(call);
        let mut rest = whole.numbers.clone();
        let event = &rest.call[CALL_SEQUENCE..][..EVENT];
        Made {
            event: event.try_into().expect("an event"),
            sheet: rest.sheet.take().expect("a whole call"),
            run: call.state.as_ref().map(|_| rest.record),
            rest: bytes::write_call(&rest),
            whole,
        }
    }

    /// Its parts that can be written, and what takes each.
    fn inputs(&self) -> Vec<(Taking<'_>, Vec<u8>)> {
        let mut inputs = vec![
            (Taking::Call, self.whole.bytes.clone()),
            (Taking::CallOn(&self.sheet[..]), self.rest.clone()),
        ];
        let sheet = bytes::write_sheet(&self.sheet);
        inputs.extend(sheet.map(|bytes| (Taking::Sheet, bytes)));
        let run = self.run.and_then(|run| bytes::write_run(&run).ok());
        inputs.extend(run.map(|bytes| (Taking::Run, bytes)));
        let event = bytes::write_event(&self.event);
        inputs.extend(event.map(|bytes| (Taking::Event, bytes)));
        inputs
    }
}

/// One thread's comparison.
struct Comparison {
    sides: Sides,
    rng: Rng,
    tally: Tally,
}

impl Comparison {
    /// One write with a buffer of that length: the bytes, where they are written.
    fn write(&mut self, it: Writing, room: usize) -> Option<Vec<u8>> {
        match self.sides.write(it, room) {
            Ok((said, mut buffer)) => {
                let (number, size) = raw::parts(said);
                self.tally.count(format!("{} says {number}", it.name()));
                buffer.truncate(size as usize);
                (number == 0).then_some(buffer)
            }
            Err(parted) => {
                self.tally.difference(|| {
                    let name = it.name();
                    format!("{name} {} in {room} bytes\n{}", parted.text(), it.print())
                });
                None
            }
        }
    }

    /// What is returned for bytes, with a buffer of that length. A difference that is printed is made small.
    fn take(&mut self, it: Taking, bytes: &[u8], room: usize) -> Option<u64> {
        match self.sides.take(it, bytes, room) {
            Ok(said) => {
                let number = raw::parts(said).0;
                self.tally.count(format!("{} says {number}", it.name()));
                Some(said)
            }
            Err(_) => {
                let small = match self.tally.prints() {
                    true => shrink_bytes(bytes, |bytes| self.sides.take(it, bytes, room).is_err()),
                    false => bytes.to_vec(),
                };
                let parted = self.sides.take(it, &small, room);
                let parted = parted.expect_err("it parts");
                self.tally.difference(|| {
                    let name = it.name();
                    format!("{name} {} in {room}: {small:02x?}", parted.text())
                });
                None
            }
        }
    }

    /// Lengths about a size: it, less, and more.
    fn rooms(&mut self, size: usize) -> [usize; 5] {
        let less = self.rng.below(size);
        [size, size - 1, 0, less, size + 1 + self.rng.below(40)]
    }

    /// An array is written in buffers of several lengths. Gives the bytes.
    fn written(&mut self, it: Writing) -> Option<Vec<u8>> {
        let bytes = self.write(it, it.room())?;
        for room in self.rooms(bytes.len()) {
            self.write(it, room);
        }
        Some(bytes)
    }

    /// A sheet, a run or an event is read back equal.
    fn read_back(&mut self, it: Writing, bytes: &[u8]) {
        let equal = match it {
            Writing::Sheet(sheet) => {
                let read = self.sides.read_sheet(bytes, SHEET);
                read.is_ok_and(|(said, read)| said == 0 && read == sheet)
            }
            Writing::Run(run) => {
                let read = self.sides.read_run(bytes, RECORD);
                read.is_ok_and(|(said, read)| said == 0 && read == run)
            }
            Writing::Event(event) => {
                let read = self.sides.read_event(bytes, EVENT);
                read.is_ok_and(|(said, read)| said == 0 && read == event)
            }
        };
        match equal {
            true => self.tally.count(format!("{}, read back equal", it.name())),
            false => self
                .tally
                .difference(|| format!("{} isn't read back: {}", it.name(), it.print())),
        }
    }

    /// A call: its parts written and read back, and it made in bytes.
    fn call(&mut self, made: &Made) {
        let run = made.run;
        let mut parts = vec![Writing::Sheet(&made.sheet[..]), Writing::Event(&made.event)];
        parts.extend(run.as_ref().map(|run| Writing::Run(run)));
        for it in parts {
            if let Some(bytes) = self.written(it) {
                self.read_back(it, &bytes);
            }
        }
        if made.whole.exact {
            self.tally
                .count("calls whose bytes are all their numbers".to_string());
        }
        for (it, bytes) in [
            (Taking::Call, &made.whole.bytes),
            (Taking::CallOn(&made.sheet[..]), &made.rest),
        ] {
            let said = self.take(it, bytes, it.room());
            let (number, size) = said.map_or((u32::MAX, 0), raw::parts);
            match number {
                0 => {
                    for room in self.rooms(size as usize) {
                        self.take(it, bytes, room);
                    }
                }
                // Refused all the same where no byte would have room.
                _ => {
                    self.take(it, bytes, 0);
                }
            }
        }
    }

    /// The answer in bytes to a call that has all its numbers in bytes is that of its numbers.
    fn answered(&mut self, made: &Made, answer: &Answer) {
        if !made.whole.exact {
            return;
        }
        let due = match (answer, bytes::write_answer(&numbers_of(answer))) {
            (Answer::Refused { number, item }, _) => (
                functions::said(*number as usize, (*item).into()),
                Vec::new(),
            ),
            (_, Some(bytes)) => (functions::said(0, bytes.len() as u64), bytes),
            (_, None) => panic!("an answer that has no bytes"),
        };
        for (it, both) in [
            ("call", self.sides.call(&made.whole.bytes, ANSWER_BYTES)),
            (
                "call_on",
                self.sides
                    .call_on(&made.sheet[..], &made.rest, ANSWER_BYTES),
            ),
        ] {
            let size = due.1.len();
            let right = both.is_ok_and(|(said, mut buffer)| {
                buffer.truncate(size);
                (said, buffer) == due
            });
            match right {
                true => self.tally.count(format!("{it} answers as in numbers")),
                false => self.tally.difference(|| {
                    format!(
                        "{it} doesn't answer as in numbers: {:02x?}",
                        made.whole.bytes
                    )
                }),
            }
        }
    }

    /// Numbers that can't be written, and arrays of other lengths.
    fn unwritten(&mut self, made: &Made) {
        let rng = &mut self.rng;
        let mut sheet = made.sheet.clone();
        for _ in 0..1 + rng.below(2) {
            let place = match rng.below(3) {
                0 => SHEET_NODE_COUNT + rng.below(1 + SHEET_DECLARED_COUNT - SHEET_NODE_COUNT),
                _ => rng.below(SHEET),
            };
            sheet[place] = rng.pick(&EDGES);
        }
        let mut run = made.run.unwrap_or([0; RECORD]);
        for _ in 0..rng.below(3) {
            run[rng.below(RECORD)] = rng.pick(&[0, 0, 1, 2, 64, 65, 255]);
        }
        let mut call = [0; CALL];
        call[CALL_SEQUENCE..][..EVENT].copy_from_slice(&made.event);
        if rng.one_in(2) {
            let field = rng.pick(&FIELDS);
            match field.array {
                Array::Record => field.raise(rng, &mut run),
                Array::Call => field.raise(rng, &mut call),
            };
        }
        let event = &call[CALL_SEQUENCE..][..EVENT];
        for it in [
            Writing::Sheet(&sheet[..]),
            Writing::Run(&run),
            Writing::Event(event),
        ] {
            self.write(it, it.room());
            self.write(it, 0);
            if let Some(bytes) = self.written(it) {
                self.read_back(it, &bytes);
            }
        }
        if self.rng.one_in(4) {
            self.other_lengths(made);
        }
    }

    fn other_lengths(&mut self, made: &Made) {
        let rng = &mut self.rng;
        let mut other = |length: usize| match rng.below(4) {
            0 => 0,
            1 => length - 1,
            2 => length + 1,
            _ => rng.below(length),
        };
        let [sheets, runs, events] = [SHEET, RECORD, EVENT].map(&mut other);
        let room = other(ANSWER_BYTES);
        let mut sheet = made.sheet.to_vec();
        sheet.resize(sheets, 0);
        let run = vec![0; runs];
        let mut event = made.event.to_vec();
        event.resize(events, 0);
        self.write(Writing::Sheet(&sheet), room);
        self.write(Writing::Run(&run), room);
        self.write(Writing::Event(&event), room);
        self.take(Taking::CallOn(&sheet), &made.rest, room);
        for (it, bytes) in made.inputs() {
            let room = match it {
                Taking::Sheet => sheets,
                Taking::Run => runs,
                Taking::Event => events,
                _ => room,
            };
            self.take(it, &bytes, room);
        }
    }

    /// Damaged bytes: 31 or something else, as the decoder says.
    fn damaged(&mut self, it: Taking, damage: Damage, bytes: &[u8]) {
        if self.tally.is_over() {
            return;
        }
        if let Some(said) = self.take(it, bytes, it.room()) {
            let bad = raw::parts(said).0 as usize == BAD_BYTES;
            self.tally.count_bytes(&damage.key(), bad);
        }
    }

    /// Each count of the call above its capacity, with the rows that it says.
    fn overcounted(&mut self, made: &Made) {
        for more in made.whole.overcounted(&mut self.rng) {
            let bytes = bytes::write_call(&more);
            self.damaged(Taking::Call, Damage::Counted, &bytes);
            let sheet = more.sheet.as_ref().expect("a whole call");
            let bytes = bytes::write_any_sheet(sheet);
            self.damaged(Taking::Sheet, Damage::Counted, &bytes);
        }
        let mut more = made.whole.numbers.clone();
        more.sheet = None;
        more.call[CALL_ANSWERED] = 3 + self.rng.below(3) as u64;
        let bytes = bytes::write_call(&more);
        self.damaged(Taking::CallOn(&made.sheet[..]), Damage::Counted, &bytes);
        if let Some(mut run) = made.run {
            run[RECORD_STORED] = STORE as u64 + 1 + self.rng.below(3) as u64;
            let bytes = bytes::write_any_run(&run);
            self.damaged(Taking::Run, Damage::Counted, &bytes);
        }
    }

    /// So many damaged inputs at random, of a call's parts.
    fn damaged_at_random(&mut self, made: &Made, other: &[u8], count: u64) {
        let inputs = made.inputs();
        for _ in 0..count {
            let (it, bytes) = &inputs[self.rng.below(inputs.len())];
            let damage = self.rng.pick(&Damage::AT_RANDOM);
            let bytes = damage.at_random(&mut self.rng, bytes, other);
            self.damaged(*it, damage, &bytes);
        }
    }

    /// A seed of the generator's calls.
    fn seed(&mut self, seed: u64, calls: u64, damaged: u64) {
        let mut generator = Generator::of_all_lengths(seed);
        let mut before = vec![0];
        let mut left = damaged;
        for n in 1..=calls {
            self.tally.place = format!("seed {seed}, call {n}");
            let call = generator.call();
            let made = Made::of(&call);
            self.call(&made);
            if self.rng.one_in(2) {
                self.unwritten(&made);
                self.overcounted(&made);
            }
            let count = left / (calls + 1 - n);
            left -= count;
            self.damaged_at_random(&made, &before, count);
            let answer = plain::answer(&call);
            if Reason::of_numbers(&call).is_none() {
                self.answered(&made, &answer);
                generator.answered(&call, &answer);
            }
            before = made.whole.bytes;
            if self.tally.is_over() {
                break;
            }
        }
    }

    /// A call of Joint A, damaged in every way.
    fn joint(&mut self, case: &Case) {
        self.tally.place = format!("Joint A, {}", case.name);
        let made = Made::of(&case.call);
        self.call(&made);
        self.answered(&made, &case.expected);
        self.overcounted(&made);
        for (it, bytes) in made.inputs() {
            let others = match bytes.len() <= SMALL {
                true => u8::MAX,
                false => SOME_OTHERS,
            };
            every(&bytes, others, |damage, bytes| {
                self.damaged(it, damage, bytes)
            });
        }
    }

    /// A part of the sample: its answers in bytes, every cut of its calls.
    fn recorded(&mut self, part: &[Recorded]) {
        for (n, (call, answer)) in part {
            if self.tally.is_over() {
                break;
            }
            self.tally.place = format!("call {n} of the sample");
            let made = Made::of(call);
            self.call(&made);
            self.answered(&made, answer);
            for (it, bytes) in made.inputs() {
                if matches!(it, Taking::Call) || n % CUT_EVERY == 0 {
                    every_cut(&bytes, |damage, bytes| self.damaged(it, damage, bytes));
                }
            }
        }
    }
}

/// What must be reached.
fn required() -> Vec<String> {
    let mut required = Vec::new();
    let mut says = |name: &str, numbers: &[u32]| {
        required.extend(numbers.iter().map(|number| format!("{name} says {number}")));
    };
    says("write_sheet", &[0, 4, 20, 32]);
    says("read_sheet", &[0, 4, 31]);
    says("write_run", &[0, 3, 6, 25, 32]);
    says("read_run", &[0, 6, 31]);
    says("write_event", &[0, 2, 5, 32]);
    says("read_event", &[0, 5, 31]);
    let refusals = [
        20, 1, 3, 5, 6, 16, 7, 8, 9, 12, 14, 15, 21, 22, 23, 24, 25, 26, 27, 28, 29, 30,
    ];
    for name in ["call", "call_on"] {
        says(name, &[0, 31, 32]);
        says(name, &refusals);
    }
    says("call_on", &[4]);
    required.extend(damage::required());
    required
}

/// Compares on so many calls and so many damaged inputs a seed, after Joint A and the sample, and prints what was reached.
pub fn run(seeds: &[u64], calls: u64, damaged: u64, first: bool) -> Result<bool, String> {
    let recorded = sample::recorded()?;
    let tally = tally::of_all(seeds, &recorded, first, |work, rng, tally| {
        let mut comparison = Comparison {
            sides: Sides::new(),
            rng,
            tally,
        };
        match work {
            Work::Seed(seed) => comparison.seed(*seed, calls, damaged),
            Work::Joint(case) => comparison.joint(case),
            Work::Sample(part) => comparison.recorded(part),
        }
        comparison.tally
    });
    let reached = tally.print(&required());
    println!(
        "{} calls of seeds, {} of Joint A, {} of the sample; {} damaged inputs; {} differences",
        calls * seeds.len() as u64,
        joint::cases().len(),
        recorded.len(),
        tally.sum(damage::KEYS),
        tally.differences
    );
    Ok(tally.differences == 0 && (first || reached))
}
