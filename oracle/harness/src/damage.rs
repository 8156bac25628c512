//! Bytes that are damaged: every one of some sorts, and random ones.

use generator::rng::{Rng, EDGES, LONG_EDGES};

/// What was done to the bytes.
#[derive(Debug, Clone, Copy, PartialEq, Eq, PartialOrd, Ord)]
pub enum Damage {
    /// It is made from a call's numbers.
    Counted,
    Changed,
    Cut,
    Inserted,
    Removed,
    Longer,
    Replaced,
    Added,
    Joined,
    RandomBytes,
    RandomNumbers,
}

impl Damage {
    pub const AT_RANDOM: [Damage; 10] = [
        Damage::Changed,
        Damage::Cut,
        Damage::Inserted,
        Damage::Removed,
        Damage::Longer,
        Damage::Replaced,
        Damage::Added,
        Damage::Joined,
        Damage::RandomBytes,
        Damage::RandomNumbers,
    ];

    pub fn text(self) -> &'static str {
        match self {
            Damage::Counted => "a count above its capacity, with its rows",
            Damage::Changed => "a byte changed",
            Damage::Cut => "cut",
            Damage::Inserted => "a byte inserted",
            Damage::Removed => "a byte removed",
            Damage::Longer => "a number in a longer form",
            Damage::Replaced => "a number replaced",
            Damage::Added => "bytes added",
            Damage::Joined => "two inputs joined",
            Damage::RandomBytes => "random bytes",
            Damage::RandomNumbers => "random numbers",
        }
    }

    /// What counts call it.
    pub fn key(self) -> String {
        format!("{KEYS}{}", self.text())
    }

    /// The bytes damaged so, at random; another input to join them with.
    pub fn at_random(self, rng: &mut Rng, bytes: &[u8], other: &[u8]) -> Vec<u8> {
        let place = rng.below(bytes.len());
        match self {
            Damage::Counted => unreachable!("{self:?} is made of numbers"),
            Damage::Changed => {
                let mut changed = bytes.to_vec();
                for _ in 0..1 + rng.weighted(&[80, 15, 5]) {
                    let place = rng.below(bytes.len());
                    changed[place] ^= 1 + rng.below(255) as u8;
                }
                changed
            }
            Damage::Cut => bytes[..place].to_vec(),
            Damage::Inserted => spliced(bytes, place, place, &[any_byte(rng)]),
            Damage::Removed => spliced(bytes, place, place + 1, &[]),
            Damage::Longer => longer(bytes, place, 1 + rng.below(11)),
            Damage::Replaced => {
                let (first, end) = number_at(bytes, place);
                spliced(bytes, first, end, &number(any_number(rng)))
            }
            Damage::Added => {
                let more: Vec<u8> = (0..1 + rng.below(12)).map(|_| any_byte(rng)).collect();
                [bytes, &more].concat()
            }
            Damage::Joined => {
                let from = rng.below(other.len());
                [&bytes[..place], &other[from..]].concat()
            }
            Damage::RandomBytes => (0..rng.below(300)).map(|_| any_byte(rng)).collect(),
            Damage::RandomNumbers => {
                let numbers = (0..rng.below(300)).map(|_| match rng.below(16) {
                    0 => any_number(rng),
                    1 => rng.below(256) as u64,
                    _ => rng.below(4) as u64 / 2,
                });
                numbers.flat_map(number).collect()
            }
        }
    }
}

/// What all these keys begin with.
pub const KEYS: &str = "damaged: ";

/// The keys that must be reached.
pub fn required() -> impl Iterator<Item = String> {
    let all = Damage::AT_RANDOM.into_iter().chain([Damage::Counted]);
    all.map(|damage| format!("{}, bad", damage.key()))
}

/// Small ones and edges more often.
fn any_byte(rng: &mut Rng) -> u8 {
    match rng.below(3) {
        0 => rng.pick(&[0, 1, 2, 3, 0x7f, 0x80, 0x81, 0xff]),
        1 => rng.below(6) as u8,
        _ => rng.next() as u8,
    }
}

fn any_number(rng: &mut Rng) -> u64 {
    match rng.below(3) {
        0 => u64::from(rng.pick(&EDGES)),
        1 => rng.pick(&LONG_EDGES),
        _ => rng.next() >> rng.below(64),
    }
}

fn number(number: u64) -> Vec<u8> {
    let mut bytes = Vec::new();
    bytes::write_number(&mut bytes, number);
    bytes
}

fn spliced(bytes: &[u8], first: usize, end: usize, between: &[u8]) -> Vec<u8> {
    [&bytes[..first], between, &bytes[end..]].concat()
}

/// Where the number with the byte at a place begins and ends.
fn number_at(bytes: &[u8], place: usize) -> (usize, usize) {
    let before = bytes[..place].iter().rposition(|byte| *byte < 128);
    let behind = bytes[place..].iter().position(|byte| *byte < 128);
    let first = before.map_or(0, |last| last + 1);
    (first, behind.map_or(bytes.len(), |last| place + last + 1))
}

/// The number at a place with so many groups more, all zero.
fn longer(bytes: &[u8], place: usize, groups: usize) -> Vec<u8> {
    let (_, end) = number_at(bytes, place);
    let mut more = vec![0x80; groups];
    more[0] |= bytes[end - 1];
    more.push(0);
    spliced(bytes, end - 1, end, &more)
}

/// Calls `take` with the bytes damaged in every way of these sorts: each byte changed to so many others (255 are all of
/// them), each cut, each byte removed, some bytes inserted at each place, each number longer by one group and by as
/// many as make it eleven.
pub fn every(bytes: &[u8], others: u8, mut take: impl FnMut(Damage, &[u8])) {
    for place in 0..bytes.len() {
        take(Damage::Cut, &bytes[..place]);
        take(Damage::Removed, &spliced(bytes, place, place + 1, &[]));
        let mut changed = bytes.to_vec();
        let step = 255 / others;
        for other in 0..others {
            changed[place] = bytes[place] ^ (1 + other * step);
            take(Damage::Changed, &changed);
        }
        let (first, end) = number_at(bytes, place);
        if place == first {
            take(Damage::Longer, &longer(bytes, place, 1));
            take(Damage::Longer, &longer(bytes, place, 11 - (end - first)));
        }
    }
    for place in 0..=bytes.len() {
        for byte in [0, 1, 2, 0x7f, 0x80, 0x81, 0xff] {
            take(Damage::Inserted, &spliced(bytes, place, place, &[byte]));
        }
    }
}

/// Every cut alone.
#[cfg(feature = "library")]
pub fn every_cut(bytes: &[u8], mut take: impl FnMut(Damage, &[u8])) {
    for place in 0..bytes.len() {
        take(Damage::Cut, &bytes[..place]);
    }
}
