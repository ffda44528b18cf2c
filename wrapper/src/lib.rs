//! Fjalgrout from Rust: safe functions over the proved library. What Rust's borrow checker ensures, true lengths and slices apart, is all that the
//! library leaves to its caller; everything else it checks itself, so that no function here has a condition.
//!
//! A refused call gives [`Refusal`] with its number, and leaves every lent slice and generator as it was:
//!
//! | No. | Given exactly when |
//! |---|---|
//! | 1 | dim (for distance, the first vector's length) is 0 or above 256 |
//! | 2 | n is 0 or above 65,536, or the vectors are not n x dim bytes |
//! | 3 | degree is 0 or above 64 |
//! | 4 | beam above 256 |
//! | 5 | alpha above 4.0, infinity included |
//! | 6 | start id not below n |
//! | 7 | extra seeds above 16 or not below n; seeds not that many per node; a seed not below n, equal to the start, or repeated within its group |
//! | 8 | a table, also one to be written, has the wrong length, or an entry of one that is read breaks its rule |
//! | 9 | a batch over 256 nodes, with a repeat or an id not below n; or an order that is no permutation of 0..n-1 |
//! | 10 | scratch, or an output that is no table, too short |
//! | 11 | query length differs from dim; queries whose bytes are no multiple of dim, or over 65,535 of them; for distance, two vectors of unequal length |
//! | 12 | pivots: none, over 8, or one not below n |
//! | 14 | k is 0 or above 256, for [`exhaustive`] and [`report`] alone |
//!
//! A call checks, in rising number, those that are listed at it; the first that holds is given.

pub mod ffi;
mod generator;
mod recall;
mod sizes;

pub use ffi::{Candidate, Params};
pub use generator::Generator;
pub use recall::{exhaustive, report, Report};
pub use sizes::{build_room, most_answers, most_nearest, report_room, search_room, slack, Room, PADDING};

use ffi::Answer;

/// The number of a refused call: 1 to 12, or 14.
#[derive(Clone, Copy, Debug, PartialEq, Eq)]
pub struct Refusal(pub u32);

impl std::fmt::Display for Refusal {
    fn fmt(&self, f: &mut std::fmt::Formatter<'_>) -> std::fmt::Result {
        write!(f, "refused {}", self.0)
    }
}

impl std::error::Error for Refusal {}

impl Default for Params {
    /// Degree 64, beam 128, alpha 1.2, one extra seed.
    fn default() -> Self {
        // SAFETY: the call takes nothing.
        unsafe { ffi::fjalgrout_defaults() }
    }
}

/// The vectors that a table is over: n of them, each of dim bytes, one behind the other.
#[derive(Clone, Copy, Debug)]
pub struct Vectors<'a> {
    pub n: usize,
    pub dim: usize,
    pub bytes: &'a [u8],
}

/// Scratch, lent: [`build_room`], [`search_room`] and [`report_room`] say how much. On success that much is left zero; what lies beyond is untouched.
#[derive(Debug)]
pub struct Scratch<'a> {
    pub words: &'a mut [u32],
    pub floats: &'a mut [f32],
}

/// A search's limits: the beam (0 acts as 1), and the most answers that are wanted.
#[derive(Clone, Copy, Debug)]
pub struct Wanted {
    pub beam: usize,
    pub k: usize,
}

/// A table to be searched, and where a search starts in it.
#[derive(Clone, Copy, Debug)]
pub struct Table<'a> {
    pub degree: usize,
    pub start: u32,
    pub rows: &'a [u32],
}

/// What [`search`], [`lookup`] and [`search_records`] found, and what it took. k alters the first alone.
#[derive(Clone, Copy, Debug, PartialEq, Eq)]
pub struct Found {
    /// How many answers there are, at the front of the outputs.
    pub count: usize,
    /// How many entries' rows were walked, each entry's at most once. With beam 0 or 1 none.
    pub expanded: usize,
    /// How many distances were worked out: at least `expanded`, at most n, and at most 1 + degree x `expanded`.
    pub measured: usize,
}

fn done(answer: Answer) -> Result<Answer, Refusal> {
    match answer.number {
        0 => Ok(answer),
        number => Err(Refusal(number)),
    }
}

fn found(answer: Answer) -> Result<Found, Refusal> {
    let Answer { count, expanded, measured, .. } = done(answer)?;
    Ok(Found { count, expanded, measured })
}

/// Distance: the sum of squared byte differences, an exact whole number of at most 16,516,096. A sample that is 255 in either vector is saturated and adds
/// nothing, here and wherever a call works out distances: so 0 does not mean equal bytes. Numbers 1, 11.
pub fn distance(a: &[u8], b: &[u8]) -> Result<f32, Refusal> {
    // SAFETY: address and length are those of slices.
    let answer = unsafe { ffi::fjalgrout_distance(a.as_ptr(), a.len(), b.as_ptr(), b.len()) };
    Ok(done(answer)?.distance)
}

/// Medoid: the id with the least sum of distances to the pivots, the lower id on equality. Numbers 1, 2, 12.
pub fn medoid(vectors: Vectors, pivots: &[u32]) -> Result<u32, Refusal> {
    let Vectors { n, dim, bytes } = vectors;
    // SAFETY: address and length are those of slices.
    let answer = unsafe { ffi::fjalgrout_medoid(n, dim, bytes.as_ptr(), bytes.len(), pivots.as_ptr(), pivots.len()) };
    Ok(done(answer)?.id)
}

/// Batch: the listed nodes, at most 256, get fresh rows, all from the rows as they were before the batch, and the rows that these name are merged.
/// `seeds` has `params.extra` ids for each node, in the nodes' order. Scratch: [`build_room`]. Numbers 1 to 10.
pub fn batch(vectors: Vectors, params: Params, start: u32, nodes: &[u32], seeds: &[u32], wide: &mut [u32], scratch: Scratch) -> Result<(), Refusal> {
    let Vectors { n, dim, bytes } = vectors;
    let Scratch { words, floats } = scratch;
    // SAFETY: address and length are those of slices, and the borrows keep those that are written apart.
    let answer = unsafe {
        ffi::fjalgrout_batch(
            n,
            dim,
            bytes.as_ptr(),
            bytes.len(),
            params,
            start,
            nodes.as_ptr(),
            nodes.len(),
            seeds.as_ptr(),
            seeds.len(),
            wide.as_mut_ptr(),
            wide.len(),
            words.as_mut_ptr(),
            words.len(),
            floats.as_mut_ptr(),
            floats.len(),
        )
    };
    done(answer).map(drop)
}

/// Open: copies opening rows, a closed table, to wide ones. Numbers 2, 3, 8.
pub fn open(n: usize, degree: usize, opening: &[u32], wide: &mut [u32]) -> Result<(), Refusal> {
    // SAFETY: address and length are those of slices, and the borrows keep them apart.
    let answer = unsafe { ffi::fjalgrout_open(n, degree, opening.as_ptr(), opening.len(), wide.as_mut_ptr(), wide.len()) };
    done(answer).map(drop)
}

/// Close: prunes each wide row longer than degree and copies the others. The record's beam and extra seeds are ignored. Scratch: [`build_room`].
/// Numbers 1, 2, 3, 5, 8, 10.
pub fn close(vectors: Vectors, params: Params, wide: &[u32], closed: &mut [u32], scratch: Scratch) -> Result<(), Refusal> {
    let Vectors { n, dim, bytes } = vectors;
    let Scratch { words, floats } = scratch;
    // SAFETY: address and length are those of slices, and the borrows keep those that are written apart.
    let answer = unsafe {
        ffi::fjalgrout_close(
            n,
            dim,
            bytes.as_ptr(),
            bytes.len(),
            params,
            wide.as_ptr(),
            wide.len(),
            closed.as_mut_ptr(),
            closed.len(),
            words.as_mut_ptr(),
            words.len(),
            floats.as_mut_ptr(),
            floats.len(),
        )
    };
    done(answer).map(drop)
}

/// Whole build: open, the order in batches of 256 with the last shorter, close. `order` is a permutation of 0..n-1, and `seeds` has `params.extra` ids
/// for each node, in that order. The wide table stays as after the last batch; `closed` is the table to search. Scratch: [`build_room`].
/// Numbers 1 to 10.
#[allow(clippy::too_many_arguments)]
pub fn build(
    vectors: Vectors,
    params: Params,
    start: u32,
    order: &[u32],
    seeds: &[u32],
    opening: &[u32],
    wide: &mut [u32],
    closed: &mut [u32],
    scratch: Scratch,
) -> Result<(), Refusal> {
    let Vectors { n, dim, bytes } = vectors;
    let Scratch { words, floats } = scratch;
    // SAFETY: address and length are those of slices, and the borrows keep those that are written apart.
    let answer = unsafe {
        ffi::fjalgrout_build(
            n,
            dim,
            bytes.as_ptr(),
            bytes.len(),
            params,
            start,
            order.as_ptr(),
            order.len(),
            seeds.as_ptr(),
            seeds.len(),
            opening.as_ptr(),
            opening.len(),
            wide.as_mut_ptr(),
            wide.len(),
            closed.as_mut_ptr(),
            closed.len(),
            words.as_mut_ptr(),
            words.len(),
            floats.as_mut_ptr(),
            floats.len(),
        )
    };
    done(answer).map(drop)
}

/// Search: for a table that nobody has checked. The answers, by distance, then the higher id, come to the front of `ids` and `dists`; of equals at the cut to k
/// the higher ids. What lies beyond them is untouched. What a full beam keeps is another matter: of equals the lower id.
///
/// There are at most [`most_answers`] of them, min(k, max(beam, 1)). Fewer than that are all that the rows lead to from the start. As many as that: an
/// entry that is missing can be reached only by passing some entry that is no nearer than the last answer. (It may be nearer itself: the search is greedy.)
///
/// Scratch: [`search_room`]; each output [`most_answers`]. Numbers 1, 2, 3, 4, 6, 8, 10, 11.
pub fn search(vectors: Vectors, table: Table, wanted: Wanted, query: &[u8], scratch: Scratch, ids: &mut [u32], dists: &mut [f32]) -> Result<Found, Refusal> {
    let Vectors { n, dim, bytes } = vectors;
    let Scratch { words, floats } = scratch;
    // SAFETY: address and length are those of slices, and the borrows keep those that are written apart.
    let answer = unsafe {
        ffi::fjalgrout_search(
            n,
            dim,
            bytes.as_ptr(),
            bytes.len(),
            table.degree,
            wanted.beam,
            wanted.k,
            table.start,
            table.rows.as_ptr(),
            table.rows.len(),
            query.as_ptr(),
            query.len(),
            words.as_mut_ptr(),
            words.len(),
            floats.as_mut_ptr(),
            floats.len(),
            ids.as_mut_ptr(),
            ids.len(),
            dists.as_mut_ptr(),
            dists.len(),
        )
    };
    found(answer)
}

/// Lookup: what a tower calls. The same search, in the same order, without the pass over the table: 8 is given for its length alone, and a word that is no id
/// below n reads as padding. So it is safe on every table, and where [`fit`] accepts the table it is [`search`] itself, refusals included.
///
/// Scratch: [`search_room`]; each output [`most_answers`]. Numbers 1, 2, 3, 4, 6, 8, 10, 11.
pub fn lookup(vectors: Vectors, table: Table, wanted: Wanted, query: &[u8], scratch: Scratch, ids: &mut [u32], dists: &mut [f32]) -> Result<Found, Refusal> {
    let Vectors { n, dim, bytes } = vectors;
    let Scratch { words, floats } = scratch;
    // SAFETY: address and length are those of slices, and the borrows keep those that are written apart.
    let answer = unsafe {
        ffi::fjalgrout_lookup(
            n,
            dim,
            bytes.as_ptr(),
            bytes.len(),
            table.degree,
            wanted.beam,
            wanted.k,
            table.start,
            table.rows.as_ptr(),
            table.rows.len(),
            query.as_ptr(),
            query.len(),
            words.as_mut_ptr(),
            words.len(),
            floats.as_mut_ptr(),
            floats.len(),
            ids.as_mut_ptr(),
            ids.len(),
            dists.as_mut_ptr(),
            dists.len(),
        )
    };
    found(answer)
}

/// Fit: whether a search would take the table: asked once, when a table is loaded; [`lookup`] does the rest. Numbers 2 (the limits of n), 3, 8.
pub fn fit(n: usize, degree: usize, rows: &[u32]) -> Result<(), Refusal> {
    // SAFETY: address and length are those of a slice.
    let answer = unsafe { ffi::fjalgrout_fit(n, degree, rows.as_ptr(), rows.len()) };
    done(answer).map(drop)
}

/// The same search, and its answers once more as a run of records, in their order; records beyond the answers are untouched. The run, too, must have room
/// for [`most_answers`] records. Numbers 1, 2, 3, 4, 6, 8, 10, 11.
#[allow(clippy::too_many_arguments)]
pub fn search_records(
    vectors: Vectors,
    table: Table,
    wanted: Wanted,
    query: &[u8],
    scratch: Scratch,
    ids: &mut [u32],
    dists: &mut [f32],
    run: &mut [Candidate],
) -> Result<Found, Refusal> {
    let Vectors { n, dim, bytes } = vectors;
    let Scratch { words, floats } = scratch;
    // SAFETY: address and length are those of slices, and the borrows keep those that are written apart.
    let answer = unsafe {
        ffi::fjalgrout_records(
            n,
            dim,
            bytes.as_ptr(),
            bytes.len(),
            table.degree,
            wanted.beam,
            wanted.k,
            table.start,
            table.rows.as_ptr(),
            table.rows.len(),
            query.as_ptr(),
            query.len(),
            words.as_mut_ptr(),
            words.len(),
            floats.as_mut_ptr(),
            floats.len(),
            ids.as_mut_ptr(),
            ids.len(),
            dists.as_mut_ptr(),
            dists.len(),
            run.as_mut_ptr(),
            run.len(),
        )
    };
    found(answer)
}
