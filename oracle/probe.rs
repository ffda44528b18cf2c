//! 000 as a function of its draws. This module stands below 000's own (substitute.py puts it there), so it calls 000's private functions.
use super::*;
use std::cell::{Cell, RefCell};
use std::collections::{BTreeSet, HashMap};

/// Document 01's metric with the rule of 5/13: the sum of squared byte differences, as f32, where a sample of 255 in either vector adds nothing.
#[derive(Clone, Copy)]
pub struct Bytes;

impl Distance<u8> for Bytes {
    #[inline]
    fn eval(&self, a: &[u8], b: &[u8]) -> f32 {
        let square = |(&x, &y): (&u8, &u8)| {
            if x == 255 || y == 255 {
                return 0;
            }
            let d = x as i32 - y as i32;
            (d * d) as u32
        };
        a.iter().zip(b).map(square).sum::<u32>() as f32
    }
}

thread_local! { static DISTANCES: Cell<u64> = const { Cell::new(0) }; }

/// The same metric, and how often it was asked. Never timed.
#[derive(Clone, Copy)]
pub struct Counted;

impl Distance<u8> for Counted {
    fn eval(&self, a: &[u8], b: &[u8]) -> f32 {
        DISTANCES.set(DISTANCES.get() + 1);
        Bytes.eval(a, b)
    }
}

/// How many distances `Counted` worked out since it was last asked.
pub fn distances() -> u64 {
    DISTANCES.take()
}

/// What is fed in place of `thread_rng`.
#[derive(Default)]
struct Fed {
    rows: Vec<Vec<u32>>,
    order: Vec<usize>,
    seeds: HashMap<usize, Vec<usize>>,
    pivots: Vec<usize>,
    wide: Vec<Vec<u32>>,
}

thread_local! { static FED: RefCell<Fed> = RefCell::new(Fed::default()); }

pub fn fed_pivots() -> Vec<usize> {
    FED.with(|f| f.borrow().pivots.clone())
}

pub fn fed_row(i: usize) -> Vec<u32> {
    FED.with(|f| f.borrow().rows[i].clone())
}

pub fn fed_order() -> Vec<usize> {
    FED.with(|f| f.borrow().order.clone())
}

pub fn fed_seed(node: usize, place: usize) -> usize {
    FED.with(|f| f.borrow().seeds[&node][place])
}

pub fn show_wide(graph: &[Vec<u32>]) {
    FED.with(|f| f.borrow_mut().wide = graph.to_vec());
    SEEN_OPEN.set(SEEN.with(|s| s.borrow().clone()));
}

pub const MERGE_PRUNED: &str = "row pruned in the merge";
pub const CLOSE_PRUNED: &str = "row pruned by close";

type Seen = RefCell<BTreeSet<&'static str>>;
thread_local! {
    static SEEN: Seen = const { RefCell::new(BTreeSet::new()) };
    static SEEN_OPEN: Seen = const { RefCell::new(BTreeSet::new()) };
}

/// 000 closes every table. Where only the wide one is compared, what closing reached does not count.
pub fn forget_close() {
    SEEN.set(SEEN_OPEN.take());
}

/// Watching costs time, so the programs that measure are compiled with `--cfg unwatched`.
#[inline]
pub fn see(what: &'static str) {
    if cfg!(not(unwatched)) {
        SEEN.with(|s| s.borrow_mut().insert(what));
    }
}

/// A pool that is about to be cut, by rising distance.
#[inline]
pub fn see_pool(sorted: &[(u32, f32)]) {
    if cfg!(unwatched) {
        return;
    }
    match sorted.len() {
        750 => see("pool of 750"),
        751 => see("pool of 751"),
        752.. => see("pool beyond 751"),
        _ => {}
    }
    if sorted.len() > 750 && sorted[749].1 == sorted[750].1 {
        see("equal distances at the cut");
    }
    if sorted.windows(2).any(|w| w[0].1 == w[1].1) {
        see("equal distances in a pool");
    }
}

/// The worst of a full beam that has left it, the worst of what is left, and what is still to be expanded.
#[inline]
pub(crate) fn see_left(left: Option<Candidate>, worst: Option<&Candidate>, frontier: &BinaryHeap<Reverse<Candidate>>) {
    if cfg!(unwatched) {
        return;
    }
    if left.map(|c| c.dist) == worst.map(|c| c.dist) {
        see("an equal left the beam");
    }
    if frontier.iter().any(|c| Some(c.0) == left) {
        see("an entry left the beam unexpanded");
    }
}

/// What was seen since it was last asked.
pub fn seen() -> BTreeSet<&'static str> {
    SEEN.take()
}

pub struct Params {
    pub degree: usize,
    pub beam: usize,
    pub alpha: f32,
    pub extra: usize,
}

/// A build's arguments. `order` need not name every entry: up to 256 nodes are one batch.
pub struct Build<'a> {
    pub n: usize,
    pub dim: usize,
    pub vectors: &'a [u8],
    pub params: Params,
    pub start: u32,
    pub order: &'a [u32],
    pub seeds: &'a [u32],
    pub rows: Vec<Vec<u32>>,
}

fn flat(n: usize, dim: usize, vectors: &[u8]) -> FlatVectors<u8> {
    FlatVectors { data: vectors.to_vec(), dim, n }
}

fn wholes(ids: &[u32]) -> Vec<usize> {
    ids.iter().map(|&id| id as usize).collect()
}

/// 000's build from supplied rows: the rows before they are closed, and after.
pub fn build<D: Distance<u8> + Copy + Sync>(b: Build, metric: D) -> (Vec<Vec<u32>>, Vec<Vec<u32>>) {
    let p = b.params;
    let group = |(i, &u): (usize, &u32)| (u as usize, wholes(&b.seeds[i * p.extra..(i + 1) * p.extra]));
    let seeds = b.order.iter().enumerate().map(group).collect();
    FED.set(Fed { rows: b.rows, order: wholes(b.order), seeds, ..Fed::default() });
    let closed = build_vamana_graph(&flat(b.n, b.dim, b.vectors), p.degree, p.beam, p.alpha, p.extra, metric, b.start);
    (FED.take().wide, closed)
}

pub fn medoid(n: usize, dim: usize, vectors: &[u8], pivots: &[u32]) -> usize {
    FED.set(Fed { pivots: wholes(pivots), ..Fed::default() });
    calculate_medoid(&flat(n, dim, vectors), Bytes)
}

/// A search's arguments.
#[derive(Clone, Copy)]
pub struct Search<'a> {
    pub dim: usize,
    pub vectors: &'a [u8],
    pub degree: usize,
    pub table: &'a [u32],
    pub query: &'a [u8],
    pub start: u32,
    pub beam: usize,
}

/// 000's search over plain rows, with padding left out as `search_with_dists` does: as many answers as the beam holds.
pub fn found<D: Distance<u8>>(s: Search, metric: D) -> Vec<(u32, f32)> {
    walked(s, metric, || ())
}

/// The same, with `asked` called for each row that 000 asks for.
fn walked<D: Distance<u8>>(s: Search, metric: D, mut asked: impl FnMut()) -> Vec<(u32, f32)> {
    let vector = |id: u32| &s.vectors[id as usize * s.dim..(id as usize + 1) * s.dim];
    let row = |id: u32| &s.table[id as usize * s.degree..(id as usize + 1) * s.degree];
    let distance = |id| metric.eval(s.query, vector(id));
    let neighbours = |id| {
        asked();
        row(id).iter().copied().filter(|&word| word != PAD_U32).collect()
    };
    graph_search(s.start, s.beam, distance, neighbours).into_iter().map(|c| (c.id, c.dist)).collect()
}

/// Our order, equal distances by the higher id: 000 leaves them as a heap's layout has them. Which answers there are is 000's own doing: of equals its beam
/// keeps the lower id.
fn ordered(mut pairs: Vec<(u32, f32)>) -> Vec<(u32, f32)> {
    pairs.sort_by(|a, b| a.1.total_cmp(&b.1).then(b.0.cmp(&a.0)));
    pairs
}

/// 000's answers in our order.
pub fn search(s: Search) -> Vec<(u32, f32)> {
    ordered(found(s, Bytes))
}

/// The same, and what 000 asked for on its way: rows, and distances. Never timed.
pub struct Walk {
    pub answers: Vec<(u32, f32)>,
    pub expanded: usize,
    pub measured: usize,
}

pub fn walk(s: Search) -> Walk {
    let mut expanded = 0;
    DISTANCES.set(0);
    let answers = ordered(walked(s, Counted, || expanded += 1));
    Walk { answers, expanded, measured: distances() as usize }
}

#[inline]
pub fn distance(a: &[u8], b: &[u8]) -> f32 {
    Bytes.eval(a, b)
}

/// Items for 000's ordered beam, in any order.
pub struct Candidates(Vec<Candidate>);

impl Candidates {
    /// Of each item its distance, and its id.
    pub fn of(items: impl Iterator<Item = (u32, u32)>) -> Candidates {
        Candidates(items.map(|(dist, id)| Candidate { dist: dist as f32, id }).collect())
    }
}

/// 000's ordered beam by itself.
#[derive(Default)]
pub struct Beam(OrderedBeam);

impl Beam {
    /// The beam holds a copy of just these, which come worst first.
    pub fn fill(&mut self, items: &Candidates) {
        self.0.items.clear();
        self.0.items.extend_from_slice(&items.0);
    }

    /// Each comes to the beam in turn, by 000's `insert_capped`.
    #[inline(never)]
    pub fn insert_each(&mut self, items: &Candidates, cap: usize) {
        for &item in &items.0 {
            self.0.insert_capped(item, cap);
        }
    }

    /// What it holds, the worst first.
    pub fn items(&self) -> impl DoubleEndedIterator<Item = (u32, u32)> + '_ {
        self.0.items.iter().map(|c| (c.dist as u32, c.id))
    }
}
