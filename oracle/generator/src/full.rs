//! Sheets with every row used, and such that a rule refuses; a run with every slot used.

use calls::{
    BufferedSignal, Call, Ceilings, ErrorInfo, Event, Node, NodeResult, Output, Position, Route,
    Rows, State, Streak, Workflow, MOST, NODES, NONE, STORE,
};

use crate::joint;

/// Under these the sheets are accepted, or refused by the rule that is named.
pub const CEILINGS: Ceilings = Ceilings {
    nodes: 64,
    visits: 1000,
    activations: 10000,
    attempts: 100,
};

/// A sheet of `n` nodes; at 64 it has 512 routes, 256 declared outcomes and a limit on every routed outcome but exhausted.
pub fn sheet(n: u32) -> Workflow {
    let mut nodes = Vec::new();
    let mut routes = Vec::new();
    let mut limits = Vec::new();
    let mut actions = Vec::new();
    let mut declared = Vec::new();
    for i in 0..n - 1 {
        let activity = i % 2 == 0;
        let action = actions.len() as u32;
        let outcomes: Vec<u32> = match activity {
            true => [0].into_iter().chain(3..=10).collect(),
            false => [1]
                .into_iter()
                .chain(3..=if i < 14 { 9 } else { 8 })
                .collect(),
        };
        for &outcome in &outcomes {
            routes.push((i, outcome, if outcome == 4 { 0 } else { i + 1 }));
            if outcome != 3 {
                limits.push((i, outcome, 5));
                if activity {
                    declared.push((action, outcome));
                }
            }
        }
        let node = Node {
            has_limits: 1,
            ..Node::default()
        };
        nodes.push(match activity {
            true => Node {
                kind: 1,
                action,
                ..node
            },
            false => Node {
                kind: 2,
                signal: i % 7,
                ..node
            },
        });
        if activity {
            actions.push((0, 3));
        }
    }
    nodes.push(Node {
        kind: 3,
        ..Node::default()
    });
    let rows = Rows {
        nodes: &nodes,
        routes: &routes,
        limits: &limits,
        actions: &actions,
        declared: &declared,
    };
    Workflow::of(1000, 10000, &rows)
}

/// The full sheet with one thing changed, which the rule of that number refuses.
pub fn refused() -> Vec<(u32, Workflow)> {
    let with = |rule: u32, change: &dyn Fn(&mut Workflow)| {
        let mut sheet = sheet(64);
        change(&mut sheet);
        (rule, sheet)
    };
    let last_route = |sheet: &Workflow, node: u32| {
        let routes = &sheet.routes[..sheet.route_count as usize];
        routes.iter().rposition(|row| row.node == node).unwrap()
    };
    vec![
        with(20, &|sheet| sheet.declared[255].outcome = 255),
        with(1, &|sheet| sheet.format = 3),
        with(3, &|sheet| *sheet = Workflow::of(0, 0, &Rows::default())),
        with(5, &|sheet| sheet.start = 64),
        with(6, &|sheet| sheet.max_activations = 10001),
        with(16, &|sheet| sheet.actions[31].effect = 2),
        with(7, &|sheet| sheet.actions[31].max_attempts = 0),
        with(8, &|sheet| {
            sheet.routes[last_route(sheet, 62)].outcome = 200;
        }),
        with(9, &|sheet| {
            sheet.routes[last_route(sheet, 61)].target = 64;
        }),
        with(12, &|sheet| {
            sheet.limits[sheet.limit_count as usize - 1].limit = 1000;
        }),
        with(14, &|sheet| {
            let to_62 = |row: &&mut Route| row.node == 61 && row.target == 62;
            for row in sheet.routes.iter_mut().filter(to_62) {
                row.target = 63;
            }
        }),
        with(15, &|sheet| {
            let used = sheet.route_count as usize;
            for row in &mut sheet.routes[..used] {
                if row.node == 62 {
                    row.target = 62;
                } else if row.node == 61 && row.outcome == 5 {
                    row.target = 63;
                }
            }
        }),
    ]
}

/// Nodes that await a signal, one after the other and around, each with a limit of 5 on received; one in the middle ends.
fn ring() -> Workflow {
    const END: u32 = NODES as u32 / 2;
    let mut nodes = [Node {
        kind: 2,
        has_limits: 1,
        ..Node::default()
    }; NODES];
    nodes[END as usize] = Node {
        kind: 3,
        ..Node::default()
    };
    let waiting: Vec<u32> = (0..NODES as u32).filter(|node| *node != END).collect();
    let next = waiting.iter().cycle().skip(1);
    let routes = waiting.iter().zip(next);
    let routes: Vec<_> = routes
        .flat_map(|(&node, &next)| [(node, 1, next), (node, 3, END)])
        .collect();
    let limits: Vec<_> = waiting.iter().map(|&node| (node, 1, 5)).collect();
    let rows = Rows {
        nodes: &nodes,
        routes: &routes,
        limits: &limits,
        ..Rows::default()
    };
    Workflow::of(1000, 10000, &rows)
}

/// A noted event at a run with every slot used: a full store, and at each node visits, a result and, but at the end, a streak. Nearly all
/// numbers are the largest that the run check takes.
pub fn noted() -> Call {
    let sheet = ring();
    let error = ErrorInfo {
        code: 65535,
        node: NONE,
        detail: u32::MAX,
    };
    let signal = BufferedSignal {
        sequence: MOST,
        event_id: u32::MAX,
        signal: 255,
        outcome: NONE,
        data: u32::MAX,
    };
    let result = NodeResult {
        visit: u32::MAX,
        outcome: 255,
        output: Output::Error(error),
    };
    let streak = |node: Node| Streak {
        outcome: node.has_limits,
        count: 5 * node.has_limits,
    };
    let state = State {
        status: 2,
        activations: u32::MAX,
        last_sequence: 1 << 62,
        position: Position {
            node: NODES as u32 - 1,
            visit: u32::MAX,
        },
        signal_count: STORE as u32,
        signals: [signal; STORE],
        visits: [u32::MAX; NODES],
        streaks: sheet.nodes.map(streak),
        results: [result; NODES],
        ..State::fresh(u32::MAX)
    };
    let event = Event {
        kind: 5,
        accepted_at: MOST,
        ..Event::default()
    };
    let mut call = joint::call(&sheet, Some(&state), event);
    call.ceilings = CEILINGS;
    call
}
