//! What a comparison in bytes works at, on several threads, and what it finds.

use std::collections::BTreeMap;
use std::sync::Mutex;

use calls::{Answer, Call};
use generator::joint::{self, Case};
use generator::rng::Rng;

use crate::compare::each_seed;

/// Differences that are printed of one work.
const PRINTED: u64 = 3;
/// Parts that the sample is tried in.
const PARTS: usize = 16;

/// A call of the sample with its answer, and its place there.
pub type Recorded<'a> = (usize, &'a (Call, Answer));

/// What one thread works at.
pub enum Work<'a> {
    Seed(u64),
    Joint(&'a Case),
    /// A part of the sample.
    Sample(Vec<Recorded<'a>>),
}

/// What was reached, and how often the sides part.
pub struct Tally {
    pub counts: BTreeMap<String, u64>,
    pub differences: u64,
    /// Where it is, for what it prints.
    pub place: String,
    /// Ends at the first difference.
    first: bool,
}

impl Tally {
    fn new(first: bool) -> Tally {
        Tally {
            counts: BTreeMap::new(),
            differences: 0,
            place: String::new(),
            first,
        }
    }

    pub fn is_over(&self) -> bool {
        self.first && self.differences > 0
    }

    pub fn count(&mut self, key: String) {
        *self.counts.entry(key).or_default() += 1;
    }

    /// Bytes of some sort that are bad, or are read.
    pub fn count_bytes(&mut self, sort: &str, bad: bool) {
        let what = if bad { "bad" } else { "read" };
        self.count(format!("{sort}, {what}"));
    }

    /// Whether the next difference is printed.
    pub fn prints(&self) -> bool {
        self.differences < PRINTED
    }

    pub fn difference(&mut self, what: impl FnOnce() -> String) {
        if self.prints() {
            println!("DIFFERENCE at {}: {}", self.place, what());
        }
        self.differences += 1;
    }

    fn add(&mut self, other: Tally) {
        for (key, count) in other.counts {
            *self.counts.entry(key).or_default() += count;
        }
        self.differences += other.differences;
    }

    /// How often what begins so was reached.
    pub fn sum(&self, keys: &str) -> u64 {
        let counts = self.counts.iter();
        let counts = counts.filter(|(key, _)| key.starts_with(keys));
        counts.map(|(_, count)| count).sum()
    }

    /// Prints what was reached and what wasn't, and says whether all was that must be.
    pub fn print(&self, required: &[String]) -> bool {
        println!("| Reached | Times |\n|---|---|");
        for (key, count) in &self.counts {
            println!("| {key} | {count} |");
        }
        let missing = required
            .iter()
            .filter(|key| !self.counts.contains_key(*key));
        let missing: Vec<&String> = missing.collect();
        for key in &missing {
            println!("not reached: {key}");
        }
        missing.is_empty()
    }
}

/// Calls `work` with each seed, each case of Joint A and each part of the sample, on several threads. Gives the sum.
pub fn of_all(
    seeds: &[u64],
    recorded: &[(Call, Answer)],
    first: bool,
    work: impl Fn(&Work, Rng, Tally) -> Tally + Sync,
) -> Tally {
    let cases = joint::cases();
    let part = |part| recorded.iter().enumerate().skip(part).step_by(PARTS);
    let parts = (0..PARTS).map(|n| Work::Sample(part(n).collect()));
    let seeded = seeds.iter().map(|seed| Work::Seed(*seed));
    let works = seeded.chain(cases.iter().map(Work::Joint)).chain(parts);
    let works: Vec<Work> = works.collect();
    let places: Vec<u64> = (0..works.len() as u64).collect();
    let total = Mutex::new(Tally::new(first));
    each_seed(&places, |place| {
        if total.lock().unwrap().is_over() {
            return;
        }
        let it = &works[place as usize];
        let seed = match it {
            Work::Seed(seed) => *seed,
            _ => place,
        };
        let tally = work(it, Rng::new(seed), Tally::new(first));
        total.lock().unwrap().add(tally);
    });
    total.into_inner().unwrap()
}
