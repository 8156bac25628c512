//! The sheet: its form (refusal 20) and rules W01 to W16.

use calls::{Action, Ceilings, Node, ACTIONS, DECLARED, LIMITS, NODES, NONE, ROUTES};

use super::sheet::{Rows, Sheet};
use super::{refused, refused_at, Step};

pub(super) const ACTIVITY: u32 = 1;
pub(super) const AWAIT_SIGNAL: u32 = 2;
pub(super) const COMPLETE: u32 = 3;
pub(super) const FAIL: u32 = 4;

pub(super) const OK: u32 = 0;
pub(super) const RECEIVED: u32 = 1;
pub(super) const FAILED: u32 = 2;
pub(super) const EXHAUSTED: u32 = 3;

pub(super) const REPEATABLE: u32 = 0;
const RECONCILABLE: u32 = 2;

/// A sheet that passed, with the place of each node's first route and limit row and of each action's first declared row.
pub(super) struct Graph<S> {
    sheet: S,
    routes_of: [u16; NODES + 1],
    limits_of: [u16; NODES + 1],
    declared_of: [u16; ACTIONS + 1],
}

/// A set of the outcomes 0 to 254.
#[derive(Clone, Copy, Default)]
struct Outcomes([u64; 4]);

impl Outcomes {
    /// Whether it was not in the set yet.
    fn insert(&mut self, outcome: u32) -> bool {
        let word = &mut self.0[(outcome / 64) as usize & 3];
        let bit = 1u64 << (outcome % 64);
        let new = *word & bit == 0;
        *word |= bit;
        new
    }

    fn contains(&self, outcome: u32) -> bool {
        self.0[(outcome / 64) as usize & 3] >> (outcome % 64) & 1 == 1
    }

    fn within(&self, other: &Outcomes) -> bool {
        (0..4).all(|i| self.0[i] & !other.0[i] == 0)
    }
}

impl<S: Sheet> Graph<S> {
    /// The sheet's form, then its rules in order.
    pub(super) fn load(sheet: S, ceilings: &Ceilings) -> Step<Graph<S>> {
        let Some(graph) = form(sheet) else {
            return Err(refused(20));
        };
        graph.validate(ceilings)?;
        Ok(graph)
    }

    pub(super) fn start(&self) -> u32 {
        self.sheet.start()
    }

    pub(super) fn max_visits_per_node(&self) -> u32 {
        self.sheet.max_visits_per_node()
    }

    pub(super) fn max_activations(&self) -> u32 {
        self.sheet.max_activations()
    }

    pub(super) fn node_count(&self) -> usize {
        self.sheet.node_count() as usize
    }

    /// The nodes that are there.
    pub(super) fn nodes(&self) -> S::Nodes {
        self.sheet.nodes().part(0..self.node_count())
    }

    pub(super) fn node(&self, node: u32) -> Node {
        self.sheet.nodes().row(node as usize)
    }

    pub(super) fn action(&self, action: u32) -> Action {
        self.sheet.actions().row(action as usize)
    }

    pub(super) fn is_0_2(&self) -> bool {
        self.sheet.format() == 2
    }

    /// Whether a step that gives up with no `failed` route is stuck rather than ending the run.
    pub(super) fn parks_stuck_steps(&self) -> bool {
        self.is_0_2()
    }

    /// Whether `exhausted` is reserved, so no signal takes it.
    pub(super) fn reserves_exhausted(&self) -> bool {
        self.is_0_2()
    }

    fn routes(&self, node: usize) -> S::Routes {
        let range = self.routes_of[node] as usize..self.routes_of[node + 1] as usize;
        self.sheet.routes().part(range)
    }

    fn limits(&self, node: usize) -> S::Limits {
        let range = self.limits_of[node] as usize..self.limits_of[node + 1] as usize;
        self.sheet.limits().part(range)
    }

    fn declared(&self, action: usize) -> S::Declared {
        let range = self.declared_of[action] as usize..self.declared_of[action + 1] as usize;
        self.sheet.declared().part(range)
    }

    /// The target of an outcome at a node.
    pub(super) fn route(&self, node: u32, outcome: u32) -> Option<u32> {
        let rows = self.routes(node as usize);
        let found = rows.find(outcome, |row| row.outcome);
        found.map(|row| row.target)
    }

    /// The loop limit of an outcome at a node.
    pub(super) fn limit(&self, node: u32, outcome: u32) -> Option<u32> {
        let rows = self.limits(node as usize);
        let found = rows.find(outcome, |row| row.outcome);
        found.map(|row| row.limit)
    }

    pub(super) fn declares(&self, action: u32, outcome: u32) -> bool {
        let rows = self.declared(action as usize);
        rows.iter().any(|row| row.outcome == outcome)
    }

    fn validate(&self, ceilings: &Ceilings) -> Step<()> {
        self.rule_1()?;
        let sheet = self.sheet;
        if sheet.node_count() == 0 || sheet.node_count() > ceilings.nodes {
            return Err(refused(3));
        }
        if sheet.start() >= sheet.node_count() {
            return Err(refused(5));
        }
        if !(1..=ceilings.visits).contains(&sheet.max_visits_per_node())
            || !(1..=ceilings.activations).contains(&sheet.max_activations())
        {
            return Err(refused(6));
        }
        for action in 0..sheet.action_count() as usize {
            self.action_policy(action, ceilings)?;
        }
        for (id, node) in self.nodes().iter().enumerate() {
            if node.kind == ACTIVITY && !self.activity_fits(id, node) {
                return Err(refused_at(8, id as u32));
            }
        }
        for (id, node) in self.nodes().iter().enumerate() {
            if node.kind == AWAIT_SIGNAL && !self.waiter_fits(id, node) {
                return Err(refused_at(9, id as u32));
            }
        }
        for (id, node) in self.nodes().iter().enumerate() {
            if node.has_limits == 1 && !self.loop_limits_fit(id) {
                return Err(refused_at(12, id as u32));
            }
        }
        if self.is_0_2() {
            self.reachability()?;
        }
        Ok(())
    }

    fn rule_1(&self) -> Step<()> {
        match self.sheet.format() {
            1 => match self.nodes().iter().position(|node| node.has_params == 1) {
                Some(id) => Err(refused_at(1, id as u32)),
                None => Ok(()),
            },
            2 => Ok(()),
            _ => Err(refused(1)),
        }
    }

    /// Rules W16 and W07 for one action.
    fn action_policy(&self, id: usize, ceilings: &Ceilings) -> Step<()> {
        let action = self.action(id as u32);
        if action.effect == RECONCILABLE {
            return Err(refused_at(16, id as u32));
        }
        let declared = self.declared(id);
        if declared.is_empty() {
            return Err(refused_at(7, id as u32));
        }
        let mut seen = Outcomes::default();
        for row in declared.iter() {
            let reserved = row.outcome == FAILED || (self.is_0_2() && row.outcome == EXHAUSTED);
            if reserved || !seen.insert(row.outcome) {
                return Err(refused_at(7, id as u32));
            }
        }
        if !(1..=ceilings.attempts).contains(&action.max_attempts) {
            return Err(refused_at(7, id as u32));
        }
        Ok(())
    }

    /// In format 2 a node routes `exhausted` only when it has loop limits.
    fn may_route_exhausted(&self, node: Node) -> bool {
        self.is_0_2() && node.has_limits == 1
    }

    /// Rule W08 for one activity node.
    fn activity_fits(&self, id: usize, node: Node) -> bool {
        if node.action >= self.sheet.action_count() {
            return false;
        }
        let routed = self.routed(id);
        let mut allowed = Outcomes::default();
        for row in self.declared(node.action as usize).iter() {
            allowed.insert(row.outcome);
        }
        if !allowed.within(&routed) {
            return false;
        }
        allowed.insert(FAILED);
        if self.may_route_exhausted(node) {
            allowed.insert(EXHAUSTED);
        }
        routed.within(&allowed) && self.targets_exist(id)
    }

    /// Rule W09 for one await-signal node.
    fn waiter_fits(&self, id: usize, node: Node) -> bool {
        let rows = self.routes(id);
        let exhausted = rows.iter().any(|row| row.outcome == EXHAUSTED);
        !rows.is_empty()
            && !(self.is_0_2() && exhausted && !self.may_route_exhausted(node))
            && self.targets_exist(id)
    }

    /// Rule W12 for one node with the mark.
    fn loop_limits_fit(&self, id: usize) -> bool {
        let rows = self.limits(id);
        if !self.is_0_2() || rows.is_empty() {
            return false;
        }
        let routed = self.routed(id);
        let ceiling = self.sheet.max_visits_per_node();
        for row in rows.iter() {
            if row.outcome == EXHAUSTED || !routed.contains(row.outcome) {
                return false;
            }
            if row.limit == 0 || row.limit.saturating_add(1) > ceiling {
                return false;
            }
        }
        routed.contains(EXHAUSTED)
    }

    fn routed(&self, id: usize) -> Outcomes {
        let mut routed = Outcomes::default();
        for row in self.routes(id).iter() {
            routed.insert(row.outcome);
        }
        routed
    }

    fn targets_exist(&self, id: usize) -> bool {
        let count = self.sheet.node_count();
        self.routes(id).iter().all(|row| row.target < count)
    }

    /// Rules W14 and W15: each node is reached from the start, and reaches an end.
    fn reachability(&self) -> Step<()> {
        let mut targets = [0u64; NODES];
        let mut sources = [0u64; NODES];
        let mut ends = 0;
        for (id, node) in self.nodes().iter().enumerate() {
            if is_end(node) {
                ends |= 1 << id;
            }
            for row in self.routes(id).iter() {
                targets[id] |= 1 << row.target;
                sources[row.target as usize] |= 1 << id;
            }
        }
        self.all_in(14, closure(1 << self.sheet.start(), &targets))?;
        self.all_in(15, closure(ends, &sources))
    }

    /// Refuses with the lowest node that is not in the set.
    fn all_in(&self, number: u32, set: u64) -> Step<()> {
        let first = (!set).trailing_zeros();
        if first < self.sheet.node_count() {
            return Err(refused_at(number, first));
        }
        Ok(())
    }
}

/// The set and all that follows from it.
fn closure(set: u64, arrows: &[u64; NODES]) -> u64 {
    let mut reached = set;
    let mut frontier = set;
    while frontier != 0 {
        let node = frontier.trailing_zeros() as usize;
        frontier &= frontier - 1;
        let new = arrows[node] & !reached;
        reached |= new;
        frontier |= new;
    }
    reached
}

fn is_end(node: Node) -> bool {
    node.kind == COMPLETE || node.kind == FAIL
}

/// The sheet with its rows found, if its form is right.
fn form<S: Sheet>(sheet: S) -> Option<Graph<S>> {
    let nodes = within(sheet.node_count(), NODES)?;
    let routes = within(sheet.route_count(), ROUTES)?;
    let limits = within(sheet.limit_count(), LIMITS)?;
    let actions = within(sheet.action_count(), ACTIONS)?;
    let declared = within(sheet.declared_count(), DECLARED)?;
    let used = sheet.nodes().part(0..nodes);
    if !used.iter().all(node_fits) {
        return None;
    }
    let actions_used = sheet.actions().part(0..actions);
    if !actions_used
        .iter()
        .all(|action| action.effect <= RECONCILABLE)
    {
        return None;
    }
    let routes_of = index(sheet.routes().part(0..routes), nodes, true, |row| {
        (row.node, row.outcome)
    })?;
    let limits_of = index(sheet.limits().part(0..limits), nodes, true, |row| {
        (row.node, row.outcome)
    })?;
    let declared_of = index(sheet.declared().part(0..declared), actions, false, |row| {
        (row.action, row.outcome)
    })?;
    let has_routes = |id: usize| routes_of[id] < routes_of[id + 1];
    let has_limits = |id: usize| limits_of[id] < limits_of[id + 1];
    for (id, node) in used.iter().enumerate() {
        if (is_end(node) && has_routes(id)) || (node.has_limits == 0 && has_limits(id)) {
            return None;
        }
    }
    if sheet.unused_bits() != 0 {
        return None;
    }
    Some(Graph {
        sheet,
        routes_of,
        limits_of,
        declared_of,
    })
}

fn within(count: u32, capacity: usize) -> Option<usize> {
    let count = count as usize;
    (count <= capacity).then_some(count)
}

/// A known kind, marks of 0 or 1, a signal of 8 bits, a code of 16, and nothing in the fields that the kind doesn't
/// use. An action that isn't there is for rule 8.
fn node_fits(node: Node) -> bool {
    let activity = node.action | node.has_params;
    let fail = node.code | node.detail;
    if node.has_params > 1 || node.has_limits > 1 || node.signal > 255 || node.code > 65535 {
        return false;
    }
    match node.kind {
        ACTIVITY => node.signal | fail == 0,
        AWAIT_SIGNAL => activity | fail == 0,
        COMPLETE => activity | node.signal | fail | node.has_limits == 0,
        FAIL => activity | node.signal | node.has_limits == 0,
        _ => false,
    }
}

/// The place of the first row of each owner, if the rows' owners are there and rise, and no outcome is 255. Strict: rows
/// of one owner rise by outcome too.
fn index<R: Rows>(
    rows: R,
    owners: usize,
    strict: bool,
    key: impl Fn(R::Row) -> (u32, u32),
) -> Option<[u16; NODES + 1]> {
    let mut first = [rows.len() as u16; NODES + 1];
    let mut next = 0;
    let mut last = (0, 0);
    for (i, row) in rows.iter().enumerate() {
        let (owner, outcome) = key(row);
        if owner as usize >= owners || outcome >= NONE {
            return None;
        }
        if i > 0 && (owner < last.0 || (strict && (owner, outcome) <= last)) {
            return None;
        }
        while next <= owner as usize {
            first[next] = i as u16;
            next += 1;
        }
        last = (owner, outcome);
    }
    Some(first)
}
