//! An answer in lines: docs/BYTES.md, "The program", read a second time.

use calls::layout::*;

/// The run's lines that have their numbers at fixed places.
const ALWAYS: [(&str, &[usize]); 7] = [
    ("status", &[RECORD_STATUS]),
    ("input", &[RECORD_INPUT]),
    ("activations", &[RECORD_ACTIVATIONS]),
    ("sequence", &[RECORD_LAST_SEQUENCE]),
    ("time", &[RECORD_LAST_ACCEPTED_AT]),
    ("position", &[RECORD_POSITION_NODE, RECORD_POSITION_VISIT]),
    (
        "invocation",
        &[
            RECORD_PHASE,
            RECORD_INVOCATION_NODE,
            RECORD_INVOCATION_VISIT,
            RECORD_INVOCATION_ACTION,
            RECORD_INVOCATION_ATTEMPT,
            RECORD_INVOCATION_INPUT,
        ],
    ),
];

const SCHEDULE: [usize; 8] = [
    ANSWER_ORDER_NODE,
    ANSWER_ORDER_VISIT,
    ANSWER_ORDER_ACTION,
    ANSWER_ORDER_ATTEMPT,
    ANSWER_ORDER_NOT_BEFORE,
    ANSWER_ORDER_INPUT,
    ANSWER_ORDER_HAS_PARAMS,
    ANSWER_ORDER_PARAMS,
];
const RETRY: [usize; 4] = [
    ANSWER_ORDER_NODE,
    ANSWER_ORDER_VISIT,
    ANSWER_ORDER_ATTEMPT,
    ANSWER_ORDER_NOT_BEFORE,
];

/// Every word that begins a line.
pub const WORDS: [&str; 22] = [
    "next",
    "schedule",
    "retry",
    "note",
    "ending",
    "want",
    "refused",
    "run",
    "moment",
    "status",
    "input",
    "activations",
    "sequence",
    "time",
    "position",
    "invocation",
    "kept",
    "result",
    "signal",
    "visits",
    "streak",
    "output",
];

/// The record among an answer's numbers.
pub fn record(answer: &[u64; ANSWER]) -> &[u64; RECORD] {
    let record = &answer[ANSWER_RECORD..];
    record.try_into().expect("the record ends an answer")
}

/// What the program prints of an answer.
pub fn of(answer: &[u64; ANSWER]) -> String {
    let mut lines = Lines(String::new());
    match answer[ANSWER_KIND] as usize {
        NEXT => {
            lines.next(answer);
            lines.run("run", record(answer));
        }
        WANT => {
            let places = [ANSWER_WANT_NODE, ANSWER_WANT_FIELD, ANSWER_WANT_FROM];
            lines.at("want", answer, &places);
            lines.run("moment", record(answer));
        }
        _ => {
            let places = [ANSWER_REFUSAL_NUMBER, ANSWER_REFUSAL_ITEM];
            lines.at("refused", answer, &places);
        }
    }
    lines.0
}

struct Lines(String);

impl Lines {
    fn line(&mut self, word: &str, numbers: impl IntoIterator<Item = u64>) {
        let numbers = numbers.into_iter().map(|number| format!(" {number}"));
        self.0.push_str(word);
        self.0.extend(numbers);
        self.0.push('\n');
    }

    /// A line with the numbers at those places.
    fn at(&mut self, word: &str, numbers: &[u64], places: &[usize]) {
        self.line(word, places.iter().map(|place| numbers[*place]));
    }

    /// A line for each of the first rows.
    fn rows(&mut self, word: &str, numbers: &[u64], width: usize, count: u64) {
        for row in numbers.chunks_exact(width).take(count as usize) {
            self.line(word, row.iter().copied());
        }
    }

    /// A line for each node of whose row it holds: the node, then the row.
    fn nodes(&mut self, word: &str, numbers: &[u64], width: usize, holds: fn(&[u64]) -> bool) {
        let rows = numbers.chunks_exact(width).take(NODES);
        for (node, row) in (0..).zip(rows).filter(|(_, row)| holds(row)) {
            self.line(word, [node].into_iter().chain(row.iter().copied()));
        }
    }

    /// All of a next record before the run.
    fn next(&mut self, answer: &[u64; ANSWER]) {
        self.at("next", answer, &[ANSWER_MICROSTEPS]);
        match answer[ANSWER_ORDER] {
            0 => {}
            1 => self.at("schedule", answer, &SCHEDULE),
            _ => self.at("retry", answer, &RETRY),
        }
        let [noted, ended] = [ANSWER_NOTED, ANSWER_ENDED].map(|place| answer[place]);
        self.rows("note", &answer[ANSWER_NOTES..], NOTE_WIDTH, noted);
        self.rows("ending", &answer[ANSWER_ENDINGS..], ENDING_WIDTH, ended);
    }

    /// The run's lines, and its bytes behind a word.
    fn run(&mut self, word: &str, run: &[u64; RECORD]) {
        for (word, places) in ALWAYS {
            self.at(word, run, places);
        }
        self.rows("kept", &run[RECORD_ERROR..], ERROR_WIDTH, 1);
        self.rows("result", &run[RECORD_RESULT..], OUTPUT_WIDTH, 1);
        let stored = run[RECORD_STORED];
        self.rows("signal", &run[RECORD_SIGNALS..], SIGNAL_WIDTH, stored);
        self.nodes("visits", &run[RECORD_VISITS..], 1, |row| row[0] != 0);
        self.nodes("streak", &run[RECORD_STREAKS..], STREAK_WIDTH, |row| {
            row[1] != 0
        });
        self.nodes("output", &run[RECORD_RESULTS..], RESULT_WIDTH, |row| {
            row[2] != 0
        });
        let bytes = bytes::write_run(run).expect("a run that is answered is written");
        self.0
            .push_str(&format!("{word} {}\n", hexadecimal(&bytes)));
    }
}

/// Two digits for each byte.
pub fn hexadecimal(bytes: &[u8]) -> String {
    bytes.iter().map(|byte| format!("{byte:02x}")).collect()
}

/// The run of the last line, from its bytes.
pub fn read_run(lines: &[u8]) -> Option<[u64; RECORD]> {
    let lines = std::str::from_utf8(lines).ok()?;
    let (_, digits) = lines.lines().last()?.split_once(' ')?;
    let byte = |place| u8::from_str_radix(digits.get(place..place + 2)?, 16).ok();
    let bytes: Option<Vec<u8>> = (0..digits.len()).step_by(2).map(byte).collect();
    bytes::read_run(&bytes?)
}
