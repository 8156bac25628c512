//! Sheets that are right, and sheets with something damaged.

use calls::{
    Action, Declared, Limit, Node, Route, Workflow, ACTIONS, DECLARED, LIMITS, NODES, ROUTES,
};

use crate::rng::{Rng, EDGES};

const ACTIVITY: u32 = 1;
const AWAIT: u32 = 2;
const COMPLETE: u32 = 3;
const FAIL: u32 = 4;
const FAILED: u32 = 2;
const EXHAUSTED: u32 = 3;

/// A sheet while it is drawn up.
struct Draft {
    format: u32,
    start: usize,
    max_visits: u32,
    max_activations: u32,
    nodes: Vec<DraftNode>,
    actions: Vec<DraftAction>,
}

#[derive(Clone, Default)]
struct DraftNode {
    node: Node,
    routes: Vec<(u32, usize)>,
    limits: Vec<(u32, u32)>,
}

struct DraftAction {
    effect: u32,
    max_attempts: u32,
    outcomes: Vec<u32>,
}

/// A sheet that keeps every rule under ceilings that allow its numbers.
pub fn right(rng: &mut Rng) -> Workflow {
    loop {
        let mut draft = Draft::new(rng);
        if draft.format == 2 {
            draft.repair(rng);
        }
        let fits = draft.nodes.iter().map(|n| n.routes.len()).sum::<usize>() <= ROUTES
            && draft
                .actions
                .iter()
                .map(|a| a.outcomes.len())
                .sum::<usize>()
                <= DECLARED;
        if fits && !draft.nodes.is_empty() {
            return draft.workflow();
        }
    }
}

impl Draft {
    fn new(rng: &mut Rng) -> Draft {
        let format = if rng.percent(68) { 2 } else { 1 };
        let spin = rng.percent(15);
        let count = match rng.weighted(&[62, 28, 8, 2]) {
            0 => 1 + rng.below(5),
            1 => 4 + rng.below(6),
            2 => 10 + rng.below(20),
            _ => 55 + rng.below(10),
        };
        let (max_visits, max_activations) = if spin {
            (rng.pick(&[65, 66, 130, 1000]), rng.pick(&[66, 200, 10000]))
        } else {
            let large = rng.one_in(30);
            let visits = rng.pick(&[1, 2, 2, 3, 3, 4, 5, 8, 16, 64, 1000]);
            let activations = rng.pick(&[1, 2, 3, 5, 8, 10, 20, 64, 130, 256, 10000]);
            match large {
                true => (rng.pick(&[1001, 1 << 31, u32::MAX]), u32::MAX),
                false => (visits, activations),
            }
        };
        let mut draft = Draft {
            format,
            start: 0,
            max_visits,
            max_activations,
            nodes: Vec::new(),
            actions: Vec::new(),
        };
        draft.draw_actions(rng);
        let signals = [rng.pick(&[5, 5, 0, 255]), rng.pick(&[6, 5, 7, 254])];
        let weights = match spin {
            true => [8, 78, 8, 6],
            false => rng.pick(&[[40, 30, 15, 15], [60, 15, 15, 10], [25, 45, 10, 20]]),
        };
        for _ in 0..count {
            let kind = 1 + rng.weighted(&weights) as u32;
            draft.draw_node(rng, kind, count, signals);
        }
        if rng.percent(25) {
            draft.start = rng.below(count);
        }
        draft
    }

    fn draw_actions(&mut self, rng: &mut Rng) {
        let count = match rng.weighted(&[3, 90, 6, 1]) {
            0 => 0,
            1 => 1 + rng.below(3),
            2 => 4 + rng.below(6),
            _ => 60 + rng.below(5),
        };
        for _ in 0..count {
            let mut pool = vec![0, 1, 4, 5, 6, 250, 254];
            if self.format == 1 {
                pool.push(EXHAUSTED);
            }
            let mut outcomes = Vec::new();
            if rng.percent(70) {
                outcomes.push(0);
            }
            for _ in 0..1 + rng.below(3) {
                let outcome = rng.pick(&pool);
                if !outcomes.contains(&outcome) && outcomes.len() < 4 {
                    outcomes.push(outcome);
                }
            }
            let at = rng.below(outcomes.len());
            outcomes.swap(0, at);
            self.actions.push(DraftAction {
                effect: rng.small(2),
                max_attempts: rng.pick(&[1, 1, 2, 2, 2, 3, 5, 64, 100]),
                outcomes,
            });
        }
    }

    fn draw_node(&mut self, rng: &mut Rng, kind: u32, count: usize, signals: [u32; 2]) {
        let mut made = DraftNode::default();
        let node = &mut made.node;
        node.kind = if kind == ACTIVITY && self.actions.is_empty() {
            AWAIT
        } else {
            kind
        };
        let mut outcomes = Vec::new();
        match node.kind {
            ACTIVITY => {
                node.action = rng.small(self.actions.len() as u32);
                node.has_params = u32::from(self.format == 2 && rng.percent(30));
                outcomes.clone_from(&self.actions[node.action as usize].outcomes);
                if rng.percent(45) {
                    outcomes.push(FAILED);
                }
            }
            AWAIT => {
                node.signal = rng.pick(&signals);
                let mut pool = vec![1, 1, 4, 5, 0, FAILED, 254, 7];
                if self.format == 1 {
                    pool.push(EXHAUSTED);
                }
                for _ in 0..1 + rng.below(4) {
                    let outcome = rng.pick(&pool);
                    if !outcomes.contains(&outcome) {
                        outcomes.push(outcome);
                    }
                }
            }
            FAIL => {
                node.code = rng.pick(&[0, 1, 77, 65535]);
                node.detail = rng.pick(&[0, 78, u32::MAX]);
            }
            _ => {}
        }
        let routes = node.kind == ACTIVITY || node.kind == AWAIT;
        if routes && self.format == 2 && self.max_visits >= 2 && rng.percent(45) {
            node.has_limits = 1;
            for outcome in &outcomes {
                if made.limits.is_empty() || rng.percent(40) {
                    // Rule 12 adds 1 without leaving 32 bits, so the largest limit is as good as the one below.
                    let most = match self.max_visits {
                        u32::MAX if rng.percent(50) => u32::MAX,
                        visits => visits - 1,
                    };
                    let limit = rng.pick(&[1, 1, 2, 3, most, most]).min(most);
                    made.limits.push((*outcome, limit));
                }
            }
            outcomes.push(EXHAUSTED);
        }
        for outcome in outcomes {
            made.routes.push((outcome, rng.below(count)));
        }
        self.nodes.push(made);
    }

    /// Drops nodes that the start doesn't reach and leads those that reach no end to one, until both rules hold.
    fn repair(&mut self, rng: &mut Rng) {
        for _ in 0..40 {
            self.prune();
            let Some(lost) = self.reaches_no_end() else {
                return;
            };
            let ends: Vec<usize> = (0..self.nodes.len())
                .filter(|n| self.nodes[*n].node.kind >= COMPLETE)
                .collect();
            let end = match ends.is_empty() {
                true => {
                    let mut made = DraftNode::default();
                    made.node.kind = rng.pick(&[COMPLETE, FAIL]);
                    self.nodes.push(made);
                    self.nodes.len() - 1
                }
                false => rng.pick(&ends),
            };
            let at = rng.below(self.nodes[lost].routes.len());
            self.nodes[lost].routes[at].1 = end;
        }
        self.nodes.clear();
    }

    fn prune(&mut self) {
        let mut reached = vec![false; self.nodes.len()];
        let mut frontier = vec![self.start];
        while let Some(node) = frontier.pop() {
            if !reached[node] {
                reached[node] = true;
                frontier.extend(self.nodes[node].routes.iter().map(|r| r.1));
            }
        }
        let mut number = vec![0; self.nodes.len()];
        let mut kept = Vec::new();
        for (i, node) in self.nodes.iter().enumerate() {
            if reached[i] && kept.len() < NODES {
                number[i] = kept.len();
                kept.push(node.clone());
            }
        }
        for node in &mut kept {
            for route in &mut node.routes {
                route.1 = number[route.1];
            }
        }
        self.start = number[self.start];
        self.nodes = kept;
    }

    fn reaches_no_end(&self) -> Option<usize> {
        let mut good: Vec<bool> = self.nodes.iter().map(|n| n.node.kind >= COMPLETE).collect();
        for _ in 0..self.nodes.len() {
            for (i, node) in self.nodes.iter().enumerate() {
                good[i] = good[i] || node.routes.iter().any(|r| good[r.1]);
            }
        }
        good.iter().position(|g| !g)
    }

    fn workflow(mut self) -> Workflow {
        let mut workflow = Workflow::empty();
        workflow.format = self.format;
        workflow.start = self.start as u32;
        workflow.max_visits_per_node = self.max_visits;
        workflow.max_activations = self.max_activations;
        workflow.node_count = self.nodes.len() as u32;
        workflow.action_count = self.actions.len() as u32;
        for (i, made) in self.nodes.iter_mut().enumerate() {
            workflow.nodes[i] = made.node;
            made.routes.sort();
            made.limits.sort();
            for (outcome, target) in &made.routes {
                workflow.routes[workflow.route_count as usize] = Route {
                    node: i as u32,
                    outcome: *outcome,
                    target: *target as u32,
                };
                workflow.route_count += 1;
            }
            for (outcome, limit) in &made.limits {
                workflow.limits[workflow.limit_count as usize] = Limit {
                    node: i as u32,
                    outcome: *outcome,
                    limit: *limit,
                };
                workflow.limit_count += 1;
            }
        }
        for (i, action) in self.actions.iter().enumerate() {
            workflow.actions[i] = Action {
                effect: action.effect,
                max_attempts: action.max_attempts,
            };
            for outcome in &action.outcomes {
                workflow.declared[workflow.declared_count as usize] = Declared {
                    action: i as u32,
                    outcome: *outcome,
                };
                workflow.declared_count += 1;
            }
        }
        workflow
    }
}

/// A place for an array's row: below the count, mostly.
fn slot(rng: &mut Rng, count: u32, capacity: usize) -> usize {
    let count = (count as usize).min(capacity);
    if count == 0 || rng.percent(15) {
        return match rng.percent(50) {
            true => count.min(capacity - 1),
            false => rng.below(capacity),
        };
    }
    rng.below(count)
}

/// A value near the one it replaces, or a boundary value.
fn other(rng: &mut Rng, value: u32) -> u32 {
    match rng.below(4) {
        0 => value.wrapping_add(1),
        1 => value.wrapping_sub(1),
        _ => rng.pick(&EDGES),
    }
}

/// Damages one thing.
pub fn damage(rng: &mut Rng, workflow: &mut Workflow) {
    match rng.below(12) {
        0 => damage_head(rng, workflow),
        1 => damage_counts(rng, workflow),
        2 => damage_node(rng, workflow),
        3 => damage_row(rng, workflow),
        4 => damage_order(rng, workflow),
        5 | 6 => damage_action(rng, workflow),
        7 | 8 => damage_routes(rng, workflow),
        9 | 10 => damage_limits(rng, workflow),
        _ => damage_unused(rng, workflow),
    }
}

fn damage_head(rng: &mut Rng, workflow: &mut Workflow) {
    let field = match rng.below(6) {
        0 => {
            workflow.format = match workflow.format {
                1 => 2,
                _ => 1,
            };
            return;
        }
        1 => &mut workflow.format,
        2 => {
            workflow.start = rng.pick(&[workflow.node_count, 64, 255, 256, u32::MAX]);
            return;
        }
        3 => &mut workflow.max_visits_per_node,
        4 => &mut workflow.max_activations,
        _ => {
            // No nodes at all.
            let whole = workflow.clone();
            *workflow = Workflow {
                node_count: 0,
                route_count: 0,
                limit_count: 0,
                nodes: Workflow::empty().nodes,
                routes: Workflow::empty().routes,
                limits: Workflow::empty().limits,
                ..whole
            };
            return;
        }
    };
    *field = rng.pick(&EDGES);
}

fn damage_counts(rng: &mut Rng, workflow: &mut Workflow) {
    let field = match rng.below(5) {
        0 => &mut workflow.node_count,
        1 => &mut workflow.route_count,
        2 => &mut workflow.limit_count,
        3 => &mut workflow.action_count,
        _ => &mut workflow.declared_count,
    };
    *field = match rng.below(5) {
        0 => 0,
        1 | 2 => other(rng, *field),
        _ => rng.pick(&EDGES),
    };
}

fn damage_node(rng: &mut Rng, workflow: &mut Workflow) {
    let at = slot(rng, workflow.node_count, NODES);
    let node = &mut workflow.nodes[at];
    let field = match rng.below(8) {
        0 => &mut node.kind,
        1 | 2 => &mut node.action,
        3 => &mut node.has_params,
        4 => &mut node.signal,
        5 => &mut node.code,
        6 => &mut node.detail,
        _ => &mut node.has_limits,
    };
    *field = other(rng, *field);
}

/// One number of a row of the four tables.
fn damage_row(rng: &mut Rng, workflow: &mut Workflow) {
    match rng.below(4) {
        0 => {
            let at = slot(rng, workflow.route_count, ROUTES);
            let row = &mut workflow.routes[at];
            let field = match rng.below(3) {
                0 => &mut row.node,
                1 => &mut row.outcome,
                _ => &mut row.target,
            };
            *field = other(rng, *field);
        }
        1 => {
            let at = slot(rng, workflow.limit_count, LIMITS);
            let row = &mut workflow.limits[at];
            let field = match rng.below(3) {
                0 => &mut row.node,
                1 => &mut row.outcome,
                _ => &mut row.limit,
            };
            *field = other(rng, *field);
        }
        2 => {
            let at = slot(rng, workflow.action_count, ACTIONS);
            let row = &mut workflow.actions[at];
            let field = match rng.below(2) {
                0 => &mut row.effect,
                _ => &mut row.max_attempts,
            };
            *field = other(rng, *field);
        }
        _ => {
            let at = slot(rng, workflow.declared_count, DECLARED);
            let row = &mut workflow.declared[at];
            let field = match rng.below(2) {
                0 => &mut row.action,
                _ => &mut row.outcome,
            };
            *field = other(rng, *field);
        }
    }
}

/// Swaps or doubles rows.
fn damage_order(rng: &mut Rng, workflow: &mut Workflow) {
    let double = rng.percent(50);
    match rng.below(3) {
        0 => reorder(rng, &mut workflow.routes, workflow.route_count, double),
        1 => reorder(rng, &mut workflow.limits, workflow.limit_count, double),
        _ => reorder(rng, &mut workflow.declared, workflow.declared_count, double),
    }
}

fn reorder<T: Copy>(rng: &mut Rng, rows: &mut [T], count: u32, double: bool) {
    let count = (count as usize).min(rows.len());
    if count < 2 {
        return;
    }
    let at = rng.below(count - 1);
    match double {
        true => rows[at + 1] = rows[at],
        false => rows.swap(at, at + 1),
    }
}

fn insert<T: Copy>(rows: &mut [T], count: &mut u32, at: usize, row: T) {
    let used = *count as usize;
    if used < rows.len() && at <= used {
        rows.copy_within(at..used, at + 1);
        rows[at] = row;
        *count += 1;
    }
}

fn remove<T: Copy + Default>(rows: &mut [T], count: &mut u32, at: usize) {
    let used = (*count as usize).min(rows.len());
    if at < used {
        rows.copy_within(at + 1..used, at);
        rows[used - 1] = T::default();
        *count = used as u32 - 1;
    }
}

/// What rules 16 and 7 speak of.
fn damage_action(rng: &mut Rng, workflow: &mut Workflow) {
    let count = (workflow.action_count as usize).min(ACTIONS);
    if count == 0 {
        return;
    }
    let id = rng.below(count);
    match rng.below(6) {
        0 => workflow.actions[id].effect = rng.pick(&[2, 2, 2, 3, 255]),
        1 => workflow.actions[id].max_attempts = rng.pick(&[0, 101, u32::MAX]),
        2 => {
            let mut i = 0;
            while i < (workflow.declared_count as usize).min(DECLARED) {
                match workflow.declared[i].action as usize == id {
                    true => remove(&mut workflow.declared, &mut workflow.declared_count, i),
                    false => i += 1,
                }
            }
        }
        3 | 4 => {
            let outcome = rng.pick(&[FAILED, EXHAUSTED, 0, 9, 255]);
            let at = declared_end(workflow, id);
            let row = Declared {
                action: id as u32,
                outcome,
            };
            insert(
                &mut workflow.declared,
                &mut workflow.declared_count,
                at,
                row,
            );
        }
        _ => {
            let used = (workflow.declared_count as usize).min(DECLARED);
            if used > 0 {
                let at = rng.below(used);
                let row = workflow.declared[at];
                insert(
                    &mut workflow.declared,
                    &mut workflow.declared_count,
                    at,
                    row,
                );
            }
        }
    }
}

fn declared_end(workflow: &Workflow, action: usize) -> usize {
    let used = (workflow.declared_count as usize).min(DECLARED);
    let rows = &workflow.declared[..used];
    rows.iter()
        .position(|row| row.action as usize > action)
        .unwrap_or(used)
}

/// What rules 8, 9, 14 and 15 speak of.
fn damage_routes(rng: &mut Rng, workflow: &mut Workflow) {
    let used = (workflow.route_count as usize).min(ROUTES);
    let nodes = workflow.node_count;
    let at = rng.below(used.max(1));
    match rng.below(7) {
        0 => remove(&mut workflow.routes, &mut workflow.route_count, at),
        1 | 2 => {
            let node = rng.small(nodes.clamp(1, 66));
            let outcome = rng.pick(&[0, 1, FAILED, EXHAUSTED, EXHAUSTED, 4, 9, 254, 255]);
            let target = rng.small(nodes.max(1));
            insert_route(workflow, node, outcome, target);
        }
        3 => {
            workflow.routes[at].target =
                rng.pick(&[nodes, nodes.wrapping_add(1), 64, 255, 256, u32::MAX]);
        }
        4 => {
            // All routes of one node lead to itself.
            let node = workflow.routes[at].node;
            for row in &mut workflow.routes[..used] {
                if row.node == node {
                    row.target = node;
                }
            }
        }
        5 => {
            // All routes lead past one node.
            let past = rng.small(nodes.max(1));
            let instead = rng.small(nodes.max(1));
            for row in &mut workflow.routes[..used] {
                if row.target == past {
                    row.target = instead;
                }
            }
        }
        _ => {
            // A node without routes.
            let node = workflow.routes[at].node;
            let mut i = 0;
            while i < (workflow.route_count as usize).min(ROUTES) {
                match workflow.routes[i].node == node {
                    true => remove(&mut workflow.routes, &mut workflow.route_count, i),
                    false => i += 1,
                }
            }
        }
    }
}

fn insert_route(workflow: &mut Workflow, node: u32, outcome: u32, target: u32) {
    let used = (workflow.route_count as usize).min(ROUTES);
    let rows = &workflow.routes[..used];
    let at = rows
        .iter()
        .position(|row| (row.node, row.outcome) >= (node, outcome))
        .unwrap_or(used);
    let there = at < used && (rows[at].node, rows[at].outcome) == (node, outcome);
    if !there {
        let row = Route {
            node,
            outcome,
            target,
        };
        insert(&mut workflow.routes, &mut workflow.route_count, at, row);
    }
}

fn insert_limit(workflow: &mut Workflow, node: u32, outcome: u32, limit: u32) {
    let used = (workflow.limit_count as usize).min(LIMITS);
    let rows = &workflow.limits[..used];
    let at = rows
        .iter()
        .position(|row| (row.node, row.outcome) >= (node, outcome))
        .unwrap_or(used);
    let there = at < used && (rows[at].node, rows[at].outcome) == (node, outcome);
    if !there {
        let row = Limit {
            node,
            outcome,
            limit,
        };
        insert(&mut workflow.limits, &mut workflow.limit_count, at, row);
    }
}

/// What rule 12 speaks of.
fn damage_limits(rng: &mut Rng, workflow: &mut Workflow) {
    let used = (workflow.limit_count as usize).min(LIMITS);
    let at = rng.below(used.max(1));
    let most = workflow.max_visits_per_node;
    match rng.below(6) {
        0 => {
            // A mark without rows, and exhausted routed so that 8 and 9 don't come first.
            let node = rng.small(workflow.node_count.clamp(1, 64));
            workflow.nodes[node as usize].has_limits = 1;
            if rng.percent(50) {
                insert_route(workflow, node, EXHAUSTED, 0);
            }
        }
        1 => remove(&mut workflow.limits, &mut workflow.limit_count, at),
        2 if used > 0 => {
            let values = [
                0,
                most,
                most.wrapping_sub(1),
                most.wrapping_add(1),
                u32::MAX,
            ];
            workflow.limits[at].limit = rng.pick(&values);
        }
        3 if used > 0 => {
            let node = workflow.limits[at].node;
            insert_limit(workflow, node, rng.pick(&[EXHAUSTED, FAILED, 9, 0, 255]), 1);
        }
        4 if used > 0 => {
            let node = workflow.limits[at].node;
            let rows = &workflow.routes[..(workflow.route_count as usize).min(ROUTES)];
            let found = rows
                .iter()
                .position(|row| row.node == node && row.outcome == EXHAUSTED);
            if let Some(i) = found {
                remove(&mut workflow.routes, &mut workflow.route_count, i);
            }
        }
        _ => {
            // A whole table on a node without one.
            let node = rng.small(workflow.node_count.clamp(1, 64));
            workflow.nodes[node as usize].has_limits = 1;
            insert_route(workflow, node, EXHAUSTED, 0);
            let rows = &workflow.routes[..(workflow.route_count as usize).min(ROUTES)];
            let routed = rows.iter().find(|row| row.node == node).map(|r| r.outcome);
            let outcome = routed.unwrap_or(1);
            insert_limit(workflow, node, outcome, rng.pick(&[1, most]));
        }
    }
}

/// A number where nothing is due.
fn damage_unused(rng: &mut Rng, workflow: &mut Workflow) {
    let value = rng.pick(&EDGES[1..]);
    let past = |rng: &mut Rng, count: u32, capacity: usize| {
        let first = (count as usize).min(capacity - 1);
        match rng.below(3) {
            0 => first,
            1 => capacity - 1,
            _ => first + rng.below(capacity - first),
        }
    };
    match rng.below(5) {
        0 => {
            let at = past(rng, workflow.node_count, NODES);
            let node = &mut workflow.nodes[at];
            let fields = [
                &mut node.kind,
                &mut node.action,
                &mut node.has_params,
                &mut node.signal,
                &mut node.code,
                &mut node.detail,
                &mut node.has_limits,
            ];
            let which = rng.below(7);
            *fields.into_iter().nth(which).unwrap() = value;
        }
        1 => {
            let at = past(rng, workflow.route_count, ROUTES);
            let row = &mut workflow.routes[at];
            let fields = [&mut row.node, &mut row.outcome, &mut row.target];
            *fields.into_iter().nth(rng.below(3)).unwrap() = value;
        }
        2 => {
            let at = past(rng, workflow.limit_count, LIMITS);
            let row = &mut workflow.limits[at];
            let fields = [&mut row.node, &mut row.outcome, &mut row.limit];
            *fields.into_iter().nth(rng.below(3)).unwrap() = value;
        }
        3 => {
            let at = past(rng, workflow.action_count, ACTIONS);
            let row = &mut workflow.actions[at];
            let fields = [&mut row.effect, &mut row.max_attempts];
            *fields.into_iter().nth(rng.below(2)).unwrap() = value;
        }
        _ => {
            let at = past(rng, workflow.declared_count, DECLARED);
            let row = &mut workflow.declared[at];
            let fields = [&mut row.action, &mut row.outcome];
            *fields.into_iter().nth(rng.below(2)).unwrap() = value;
        }
    }
}
