//! Whatever numbers the structs hold, there is an answer, and the same where the sheet is read in place.

use calls::{layout, numbers, Node, Rows, Workflow};
use generator::fields::{Array, FIELDS};
use generator::rng::Rng;
use plain::{Decision, Lent};

/// Any number, small ones as often as others.
fn number(rng: &mut Rng) -> u64 {
    match rng.below(4) {
        0 => rng.next() % 3,
        1 => rng.next() % 300,
        2 => u64::MAX - rng.next() % 3,
        _ => rng.next(),
    }
}

fn small(rng: &mut Rng) -> u64 {
    number(rng) % (1 << 32)
}

/// Anywhere, but the first offsets as often as others.
fn offset(rng: &mut Rng, first: usize, length: usize) -> usize {
    match rng.below(2) {
        0 => rng.below(first),
        _ => rng.below(length),
    }
}

/// Numbers that their fields hold.
fn within(array: Array, numbers: &mut [u64]) {
    for field in FIELDS.iter().filter(|field| field.array == array) {
        for place in field.places() {
            if field.is_meant(numbers, place) {
                numbers[place] %= field.most + 1;
            }
        }
    }
}

/// A sheet of one complete node that is waited for, so that what follows the sheet is reached.
fn right() -> Workflow {
    let rows = Rows {
        nodes: &[
            Node {
                kind: 2,
                signal: 1,
                ..Node::default()
            },
            Node {
                kind: 3,
                ..Node::default()
            },
        ],
        routes: &[(0, 1, 1)],
        ..Rows::default()
    };
    Workflow::of(3, 3, &rows)
}

#[test]
fn any_numbers_have_an_answer() {
    let mut rng = Rng::new(1);
    for round in 0..20_000 {
        let mut sheet = numbers::sheet(&right());
        if round % 2 == 0 {
            for _ in 0..rng.below(40) {
                sheet[offset(&mut rng, 80, numbers::SHEET)] = small(&mut rng) as u32;
            }
        }
        let mut record = vec![0; numbers::RECORD];
        for _ in 0..rng.below(60) {
            record[offset(&mut rng, 30, numbers::RECORD)] = small(&mut rng);
        }
        if round % 4 != 0 {
            within(Array::Record, &mut record);
        }
        let state = numbers::state_of(&record);
        let mut call = vec![0; numbers::CALL];
        call.fill_with(|| small(&mut rng));
        within(Array::Call, &mut call);
        call[layout::CALL_HAS_RECORD] = state.is_some().into();
        call[layout::CALL_DELAY] = number(&mut rng);
        let call = numbers::call_of(numbers::workflow_of(&sheet), &call, state);
        let call = call.expect("a call");
        let mut out = Decision::new();
        plain::transition(
            Lent(&sheet),
            call.state.as_ref(),
            &call.event,
            &call.mappings,
            &call.ceilings,
            &call.limits,
            &mut out,
        );
        assert_eq!(plain::answer(&call), out.answer());
        let judged = [
            plain::verdict(&call.workflow, &call.ceilings),
            plain::verdict(Lent(&sheet), &call.ceilings),
        ];
        assert_eq!(judged[0], judged[1]);
    }
}
