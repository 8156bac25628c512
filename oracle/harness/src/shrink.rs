//! Makes a call smaller while something holds of it: rows that may go do, then every number that may be 0 becomes 0, or
//! else 1. The same of bytes.

use calls::{numbers, Call, Workflow, NODES, NONE, ROUTES, STORE};

pub fn shrink(call: &Call, holds: impl Fn(&Call) -> bool) -> Call {
    let mut best = call.clone();
    for _ in 0..4 {
        let before = best.clone();
        fewer_rows(&mut best, &holds);
        smaller_numbers(&mut best, &holds);
        if best == before {
            break;
        }
    }
    best
}

/// Tries the call without each row, the last first.
fn fewer_rows(best: &mut Call, holds: &impl Fn(&Call) -> bool) {
    let mut without = |count: fn(&Workflow) -> u32, remove: fn(&mut Call, usize)| {
        for row in (0..(count(&best.workflow) as usize).min(ROUTES)).rev() {
            keep(best, |call| remove(call, row), holds);
        }
    };
    without(|sheet| sheet.node_count, without_node);
    without(|sheet| sheet.action_count, without_action);
    without(
        |sheet| sheet.route_count,
        |call, i| remove(&mut call.workflow.routes, &mut call.workflow.route_count, i),
    );
    without(
        |sheet| sheet.limit_count,
        |call, i| remove(&mut call.workflow.limits, &mut call.workflow.limit_count, i),
    );
    without(
        |sheet| sheet.declared_count,
        |call, i| {
            let sheet = &mut call.workflow;
            remove(&mut sheet.declared, &mut sheet.declared_count, i);
        },
    );
    let stored = best.state.as_ref().map_or(0, |state| state.signal_count);
    for i in (0..(stored as usize).min(STORE)).rev() {
        let change = |call: &mut Call| {
            let state = call.state.as_mut().expect("a record");
            remove(&mut state.signals, &mut state.signal_count, i);
        };
        keep(best, change, holds);
    }
}

fn remove<T: Default>(slots: &mut [T], count: &mut u32, i: usize) {
    let Some(rest) = slots.get_mut(i..) else {
        return;
    };
    rest.rotate_left(1);
    rest[rest.len() - 1] = T::default();
    *count -= 1;
}

/// Removes the rows of which it holds.
fn remove_all<T: Default>(slots: &mut [T], count: &mut u32, holds: impl Fn(&T) -> bool) {
    for i in (0..slots.len().min(*count as usize)).rev() {
        if holds(&slots[i]) {
            remove(slots, count, i);
        }
    }
}

/// The numbers above that of a removed row are one less.
fn renumber(number: &mut u32, removed: usize) {
    if *number as usize > removed && *number < NONE {
        *number -= 1;
    }
}

fn without_node(call: &mut Call, n: usize) {
    let sheet = &mut call.workflow;
    remove(&mut sheet.nodes, &mut sheet.node_count, n);
    let of_node = |node: u32| node as usize == n;
    remove_all(&mut sheet.routes, &mut sheet.route_count, |row| {
        of_node(row.node)
    });
    remove_all(&mut sheet.limits, &mut sheet.limit_count, |row| {
        of_node(row.node)
    });
    renumber(&mut sheet.start, n);
    for row in &mut sheet.routes {
        renumber(&mut row.node, n);
        renumber(&mut row.target, n);
    }
    for row in &mut sheet.limits {
        renumber(&mut row.node, n);
    }
    renumber(&mut call.event.node, n);
    if let Some(state) = &mut call.state {
        let mut nodes = NODES as u32;
        remove(&mut state.visits, &mut nodes, n);
        remove(&mut state.streaks, &mut nodes, n);
        remove(&mut state.results, &mut nodes, n);
        renumber(&mut state.position.node, n);
        renumber(&mut state.invocation.node, n);
    }
}

fn without_action(call: &mut Call, n: usize) {
    let sheet = &mut call.workflow;
    remove(&mut sheet.actions, &mut sheet.action_count, n);
    remove_all(&mut sheet.declared, &mut sheet.declared_count, |row| {
        row.action as usize == n
    });
    for row in &mut sheet.declared {
        renumber(&mut row.action, n);
    }
    for node in &mut sheet.nodes {
        renumber(&mut node.action, n);
    }
    if let Some(state) = &mut call.state {
        renumber(&mut state.invocation.action, n);
    }
}

fn smaller_numbers(best: &mut Call, holds: &impl Fn(&Call) -> bool) {
    let mut sheet = numbers::sheet(&best.workflow).map(u64::from);
    each_number(&mut sheet, |words| {
        let words: Vec<u32> = words.iter().map(|word| *word as u32).collect();
        let workflow = numbers::workflow_of(words[..].try_into().expect("a sheet"));
        keep(best, |call| call.workflow = workflow, holds)
    });
    if let Some(state) = &best.state {
        each_number(&mut numbers::record(state), |words| {
            let Some(state) = numbers::state_of(words) else {
                return false;
            };
            keep(best, |call| call.state = Some(state), holds)
        });
    }
    each_number(&mut numbers::call(best), |words| {
        let call = numbers::call_of(best.workflow.clone(), words, best.state.clone());
        call.is_some_and(|smaller| keep(best, |call| *call = smaller, holds))
    });
}

/// Makes the change if what is to hold still does.
fn keep(best: &mut Call, change: impl FnOnce(&mut Call), holds: &impl Fn(&Call) -> bool) -> bool {
    let mut call = best.clone();
    change(&mut call);
    let kept = holds(&call);
    if kept {
        *best = call;
    }
    kept
}

/// Makes the numbers smaller one after the other; `kept` says whether a change may stay.
pub fn each_number(words: &mut [u64], mut kept: impl FnMut(&[u64]) -> bool) {
    for i in 0..words.len() {
        let word = words[i];
        for smaller in 0..word.min(2) {
            words[i] = smaller;
            if kept(words) {
                break;
            }
            words[i] = word;
        }
    }
}

/// Fewer and smaller bytes of which it still holds.
pub fn shrink_bytes(bytes: &[u8], mut holds: impl FnMut(&[u8]) -> bool) -> Vec<u8> {
    let mut small = bytes.to_vec();
    loop {
        let before = small.clone();
        let mut place = 0;
        while place < small.len() {
            let mut less = small.clone();
            less.remove(place);
            match holds(&less) {
                true => small = less,
                false => place += 1,
            }
        }
        for place in 0..small.len() {
            for byte in [0, 1] {
                let mut less = small.clone();
                less[place] = byte;
                if small[place] > byte && holds(&less) {
                    small = less;
                }
            }
        }
        if small == before {
            return small;
        }
    }
}
