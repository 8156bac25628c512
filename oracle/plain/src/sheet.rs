//! How a sheet is read: as structs behind a reference, or in place in the numbers that a host lends.

use std::marker::PhantomData;
use std::ops::Range;

use calls::layout::{self as at, SHEET};
use calls::{
    Action, Declared, Limit, Node, Route, Workflow, ACTIONS, DECLARED, LIMITS, NODES, ROUTES,
};

/// A sheet's single numbers and the rows of its five sorts.
pub trait Sheet: Copy {
    type Nodes: Rows<Row = Node>;
    type Routes: Rows<Row = Route>;
    type Limits: Rows<Row = Limit>;
    type Actions: Rows<Row = Action>;
    type Declared: Rows<Row = Declared>;

    fn format(self) -> u32;
    fn start(self) -> u32;
    fn max_visits_per_node(self) -> u32;
    fn max_activations(self) -> u32;
    fn node_count(self) -> u32;
    fn route_count(self) -> u32;
    fn limit_count(self) -> u32;
    fn action_count(self) -> u32;
    fn declared_count(self) -> u32;

    /// All slots, used or not; so are the other rows.
    fn nodes(self) -> Self::Nodes;
    fn routes(self) -> Self::Routes;
    fn limits(self) -> Self::Limits;
    fn actions(self) -> Self::Actions;
    fn declared(self) -> Self::Declared;

    /// The bits that are set in any slot at or past its count, where every count is within its capacity.
    fn unused_bits(self) -> u32;
}

/// Rows of one sort, in their order.
pub trait Rows: Copy {
    type Row: Copy;

    fn len(self) -> usize;
    fn row(self, i: usize) -> Self::Row;
    fn part(self, range: Range<usize>) -> Self;
    fn iter(self) -> impl DoubleEndedIterator<Item = Self::Row> + ExactSizeIterator;

    fn is_empty(self) -> bool {
        self.len() == 0
    }

    /// The row with this key, of rows that rise by it.
    fn find(self, key: u32, of: impl Fn(Self::Row) -> u32) -> Option<Self::Row> {
        let (mut low, mut high) = (0, self.len());
        while low < high {
            let middle = (low + high) / 2;
            let row = self.row(middle);
            match of(row) {
                found if found == key => return Some(row),
                found if found < key => low = middle + 1,
                _ => high = middle,
            }
        }
        None
    }
}

impl<T: Copy> Rows for &[T] {
    type Row = T;

    fn len(self) -> usize {
        <[T]>::len(self)
    }

    fn row(self, i: usize) -> T {
        self[i]
    }

    fn part(self, range: Range<usize>) -> Self {
        &self[range]
    }

    fn iter(self) -> impl DoubleEndedIterator<Item = T> + ExactSizeIterator {
        <[T]>::iter(self).copied()
    }

    fn find(self, key: u32, of: impl Fn(T) -> u32) -> Option<T> {
        let found = self.binary_search_by_key(&key, |row| of(*row));
        found.ok().map(|i| self[i])
    }
}

impl<'a> Sheet for &'a Workflow {
    type Nodes = &'a [Node];
    type Routes = &'a [Route];
    type Limits = &'a [Limit];
    type Actions = &'a [Action];
    type Declared = &'a [Declared];

    fn format(self) -> u32 {
        self.format
    }

    fn start(self) -> u32 {
        self.start
    }

    fn max_visits_per_node(self) -> u32 {
        self.max_visits_per_node
    }

    fn max_activations(self) -> u32 {
        self.max_activations
    }

    fn node_count(self) -> u32 {
        self.node_count
    }

    fn route_count(self) -> u32 {
        self.route_count
    }

    fn limit_count(self) -> u32 {
        self.limit_count
    }

    fn action_count(self) -> u32 {
        self.action_count
    }

    fn declared_count(self) -> u32 {
        self.declared_count
    }

    fn nodes(self) -> &'a [Node] {
        &self.nodes
    }

    fn routes(self) -> &'a [Route] {
        &self.routes
    }

    fn limits(self) -> &'a [Limit] {
        &self.limits
    }

    fn actions(self) -> &'a [Action] {
        &self.actions
    }

    fn declared(self) -> &'a [Declared] {
        &self.declared
    }

    fn unused_bits(self) -> u32 {
        let nodes = &self.nodes[self.node_count as usize..];
        let routes = &self.routes[self.route_count as usize..];
        let limits = &self.limits[self.limit_count as usize..];
        let actions = &self.actions[self.action_count as usize..];
        let declared = &self.declared[self.declared_count as usize..];
        bits(nodes, |x| {
            [
                x.kind,
                x.action,
                x.has_params,
                x.signal,
                x.code,
                x.detail,
                x.has_limits,
            ]
        }) | bits(routes, |x| [x.node, x.outcome, x.target])
            | bits(limits, |x| [x.node, x.outcome, x.limit])
            | bits(actions, |x| [x.effect, x.max_attempts])
            | bits(declared, |x| [x.action, x.outcome])
    }
}

/// The bits that are set in any field of the rows. Four rows at a time, each field by itself: so it runs on whole
/// vectors.
#[inline(always)]
fn bits<T, const N: usize>(rows: &[T], fields: impl Fn(&T) -> [u32; N]) -> u32 {
    let mut any = [[0; N]; 4];
    let mut chunks = rows.chunks_exact(4);
    for chunk in &mut chunks {
        for (any, row) in any.iter_mut().zip(chunk) {
            add(any, fields(row));
        }
    }
    for row in chunks.remainder() {
        add(&mut any[0], fields(row));
    }
    any.iter().flatten().fold(0, |any, field| any | field)
}

#[inline(always)]
fn add<const N: usize>(any: &mut [u32; N], fields: [u32; N]) {
    for (any, field) in any.iter_mut().zip(fields) {
        *any |= field;
    }
}

/// A sheet's numbers as they are lent (docs/NUMBERS.md), read in place.
#[derive(Clone, Copy)]
pub struct Lent<'a>(pub &'a [u32; SHEET]);

/// Rows whose fields stand in a column each.
pub struct Columns<'a, T, const N: usize> {
    columns: [&'a [u32]; N],
    row: PhantomData<T>,
}

impl<T, const N: usize> Clone for Columns<'_, T, N> {
    fn clone(&self) -> Self {
        *self
    }
}

impl<T, const N: usize> Copy for Columns<'_, T, N> {}

/// A row from its fields, in the order of their columns.
pub trait OfFields<const N: usize> {
    fn of(fields: [u32; N]) -> Self;
}

impl<T: Copy + OfFields<N>, const N: usize> Rows for Columns<'_, T, N> {
    type Row = T;

    fn len(self) -> usize {
        self.columns[0].len()
    }

    fn row(self, i: usize) -> T {
        T::of(self.columns.map(|column| column[i]))
    }

    fn part(self, range: Range<usize>) -> Self {
        Columns {
            columns: self.columns.map(|column| &column[range.clone()]),
            row: PhantomData,
        }
    }

    fn iter(self) -> impl DoubleEndedIterator<Item = T> + ExactSizeIterator {
        let count = self.len();
        let columns = self.columns.map(|column| &column[..count]);
        (0..count).map(move |i| T::of(columns.map(|column| column[i])))
    }
}

const NODE: [usize; 7] = [
    at::SHEET_NODE_KIND,
    at::SHEET_NODE_ACTION,
    at::SHEET_NODE_HAS_PARAMS,
    at::SHEET_NODE_SIGNAL,
    at::SHEET_NODE_CODE,
    at::SHEET_NODE_DETAIL,
    at::SHEET_NODE_HAS_LIMITS,
];
const ROUTE: [usize; 3] = [
    at::SHEET_ROUTE_NODE,
    at::SHEET_ROUTE_OUTCOME,
    at::SHEET_ROUTE_TARGET,
];
const LIMIT: [usize; 3] = [
    at::SHEET_LIMIT_NODE,
    at::SHEET_LIMIT_OUTCOME,
    at::SHEET_LIMIT_LIMIT,
];
const ACTION: [usize; 2] = [at::SHEET_ACTION_EFFECT, at::SHEET_ACTION_MAX_ATTEMPTS];
const DECLARE: [usize; 2] = [at::SHEET_DECLARED_ACTION, at::SHEET_DECLARED_OUTCOME];

impl OfFields<7> for Node {
    #[inline(always)]
    fn of(fields: [u32; 7]) -> Node {
        let [kind, action, has_params, signal, code, detail, has_limits] = fields;
        Node {
            kind,
            action,
            has_params,
            signal,
            code,
            detail,
            has_limits,
        }
    }
}

impl OfFields<3> for Route {
    #[inline(always)]
    fn of([node, outcome, target]: [u32; 3]) -> Route {
        Route {
            node,
            outcome,
            target,
        }
    }
}

impl OfFields<3> for Limit {
    #[inline(always)]
    fn of([node, outcome, limit]: [u32; 3]) -> Limit {
        Limit {
            node,
            outcome,
            limit,
        }
    }
}

impl OfFields<2> for Action {
    #[inline(always)]
    fn of([effect, max_attempts]: [u32; 2]) -> Action {
        Action {
            effect,
            max_attempts,
        }
    }
}

impl OfFields<2> for Declared {
    #[inline(always)]
    fn of([action, outcome]: [u32; 2]) -> Declared {
        Declared { action, outcome }
    }
}

impl<'a> Lent<'a> {
    #[inline(always)]
    fn columns<T, const N: usize>(self, at: [usize; N], capacity: usize) -> Columns<'a, T, N> {
        Columns {
            columns: at.map(|first| &self.0[first..first + capacity]),
            row: PhantomData,
        }
    }

    /// The bits that are set in the columns from a row on.
    #[inline(always)]
    fn bits<const N: usize>(self, at: [usize; N], capacity: usize, from: u32) -> u32 {
        let mut any = 0;
        for first in at {
            let unused = &self.0[first..first + capacity][from as usize..];
            any |= unused.iter().fold(0, |any, number| any | number);
        }
        any
    }
}

impl<'a> Sheet for Lent<'a> {
    type Nodes = Columns<'a, Node, 7>;
    type Routes = Columns<'a, Route, 3>;
    type Limits = Columns<'a, Limit, 3>;
    type Actions = Columns<'a, Action, 2>;
    type Declared = Columns<'a, Declared, 2>;

    fn format(self) -> u32 {
        self.0[at::SHEET_FORMAT]
    }

    fn start(self) -> u32 {
        self.0[at::SHEET_START]
    }

    fn max_visits_per_node(self) -> u32 {
        self.0[at::SHEET_MAX_VISITS_PER_NODE]
    }

    fn max_activations(self) -> u32 {
        self.0[at::SHEET_MAX_ACTIVATIONS]
    }

    fn node_count(self) -> u32 {
        self.0[at::SHEET_NODE_COUNT]
    }

    fn route_count(self) -> u32 {
        self.0[at::SHEET_ROUTE_COUNT]
    }

    fn limit_count(self) -> u32 {
        self.0[at::SHEET_LIMIT_COUNT]
    }

    fn action_count(self) -> u32 {
        self.0[at::SHEET_ACTION_COUNT]
    }

    fn declared_count(self) -> u32 {
        self.0[at::SHEET_DECLARED_COUNT]
    }

    fn nodes(self) -> Columns<'a, Node, 7> {
        self.columns(NODE, NODES)
    }

    fn routes(self) -> Columns<'a, Route, 3> {
        self.columns(ROUTE, ROUTES)
    }

    fn limits(self) -> Columns<'a, Limit, 3> {
        self.columns(LIMIT, LIMITS)
    }

    fn actions(self) -> Columns<'a, Action, 2> {
        self.columns(ACTION, ACTIONS)
    }

    fn declared(self) -> Columns<'a, Declared, 2> {
        self.columns(DECLARE, DECLARED)
    }

    fn unused_bits(self) -> u32 {
        self.bits(NODE, NODES, self.node_count())
            | self.bits(ROUTE, ROUTES, self.route_count())
            | self.bits(LIMIT, LIMITS, self.limit_count())
            | self.bits(ACTION, ACTIONS, self.action_count())
            | self.bits(DECLARE, DECLARED, self.declared_count())
    }
}
