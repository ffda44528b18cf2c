//! The static library's calls as include/fjalgrout.h has them, as safe functions over slices.

/// The wrapper's declarations: there is one text for Rust, which bin/face holds against the header. It is laid out by the wrapper's rules.
#[allow(dead_code)]
#[rustfmt::skip]
#[path = "../wrapper/src/ffi.rs"]
mod c;

pub use c::{Answer, Candidate, Params, Report};

/// Field by field, the distance by its bits: `==` tells no -0.0 from 0.0.
pub fn same(a: Answer, b: Answer) -> bool {
    let fields = |a: Answer| (a.number, a.count, a.id, a.draw, a.distance.to_bits(), a.expanded, a.measured);
    fields(a) == fields(b)
}

pub const DONE: Answer = Answer { number: 0, count: 0, id: 0, draw: 0, distance: 0.0, expanded: 0, measured: 0 };

pub const PAD: u32 = u32::MAX;

pub fn slack(degree: usize) -> usize {
    (13 * degree).div_ceil(10)
}

/// What a batch or a whole build reads; for a batch, `order` is its nodes.
#[derive(Clone, Copy)]
pub struct Build<'a> {
    pub n: usize,
    pub dim: usize,
    pub vectors: &'a [u8],
    pub params: Params,
    pub start: u32,
    pub order: &'a [u32],
    pub seeds: &'a [u32],
}

#[derive(Clone, Copy)]
pub struct Close<'a> {
    pub n: usize,
    pub dim: usize,
    pub vectors: &'a [u8],
    pub params: Params,
    pub wide: &'a [u32],
}

#[derive(Clone, Copy)]
pub struct Search<'a> {
    pub n: usize,
    pub dim: usize,
    pub vectors: &'a [u8],
    pub degree: usize,
    pub beam: usize,
    pub k: usize,
    pub start: u32,
    pub table: &'a [u32],
    pub query: &'a [u8],
}

#[derive(Clone, Copy)]
pub struct Exhaustive<'a> {
    pub n: usize,
    pub dim: usize,
    pub vectors: &'a [u8],
    pub k: usize,
    pub query: &'a [u8],
}

/// What a report reads: as a search, with queries one after another.
#[derive(Clone, Copy)]
pub struct Recall<'a> {
    pub n: usize,
    pub dim: usize,
    pub vectors: &'a [u8],
    pub degree: usize,
    pub beam: usize,
    pub k: usize,
    pub start: u32,
    pub table: &'a [u32],
    pub queries: &'a [u8],
}

pub fn distance(a: &[u8], b: &[u8]) -> Answer {
    unsafe { c::fjalgrout_distance(a.as_ptr(), a.len(), b.as_ptr(), b.len()) }
}

pub fn medoid(n: usize, dim: usize, vectors: &[u8], pivots: &[u32]) -> Answer {
    unsafe { c::fjalgrout_medoid(n, dim, vectors.as_ptr(), vectors.len(), pivots.as_ptr(), pivots.len()) }
}

pub fn batch(b: Build, wide: &mut [u32], words: &mut [u32], floats: &mut [f32]) -> Answer {
    unsafe {
        c::fjalgrout_batch(
            b.n,
            b.dim,
            b.vectors.as_ptr(),
            b.vectors.len(),
            b.params,
            b.start,
            b.order.as_ptr(),
            b.order.len(),
            b.seeds.as_ptr(),
            b.seeds.len(),
            wide.as_mut_ptr(),
            wide.len(),
            words.as_mut_ptr(),
            words.len(),
            floats.as_mut_ptr(),
            floats.len(),
        )
    }
}

pub fn open(n: usize, degree: usize, opening: &[u32], wide: &mut [u32]) -> Answer {
    unsafe { c::fjalgrout_open(n, degree, opening.as_ptr(), opening.len(), wide.as_mut_ptr(), wide.len()) }
}

pub fn close(c: Close, closed: &mut [u32], words: &mut [u32], floats: &mut [f32]) -> Answer {
    unsafe {
        c::fjalgrout_close(
            c.n,
            c.dim,
            c.vectors.as_ptr(),
            c.vectors.len(),
            c.params,
            c.wide.as_ptr(),
            c.wide.len(),
            closed.as_mut_ptr(),
            closed.len(),
            words.as_mut_ptr(),
            words.len(),
            floats.as_mut_ptr(),
            floats.len(),
        )
    }
}

pub fn build(b: Build, opening: &[u32], wide: &mut [u32], closed: &mut [u32], words: &mut [u32], floats: &mut [f32]) -> Answer {
    unsafe {
        c::fjalgrout_build(
            b.n,
            b.dim,
            b.vectors.as_ptr(),
            b.vectors.len(),
            b.params,
            b.start,
            b.order.as_ptr(),
            b.order.len(),
            b.seeds.as_ptr(),
            b.seeds.len(),
            opening.as_ptr(),
            opening.len(),
            wide.as_mut_ptr(),
            wide.len(),
            closed.as_mut_ptr(),
            closed.len(),
            words.as_mut_ptr(),
            words.len(),
            floats.as_mut_ptr(),
            floats.len(),
        )
    }
}

pub fn search(s: Search, words: &mut [u32], floats: &mut [f32], ids: &mut [u32], dists: &mut [f32]) -> Answer {
    unsafe {
        c::fjalgrout_search(
            s.n,
            s.dim,
            s.vectors.as_ptr(),
            s.vectors.len(),
            s.degree,
            s.beam,
            s.k,
            s.start,
            s.table.as_ptr(),
            s.table.len(),
            s.query.as_ptr(),
            s.query.len(),
            words.as_mut_ptr(),
            words.len(),
            floats.as_mut_ptr(),
            floats.len(),
            ids.as_mut_ptr(),
            ids.len(),
            dists.as_mut_ptr(),
            dists.len(),
        )
    }
}

pub fn lookup(s: Search, words: &mut [u32], floats: &mut [f32], ids: &mut [u32], dists: &mut [f32]) -> Answer {
    unsafe {
        c::fjalgrout_lookup(
            s.n,
            s.dim,
            s.vectors.as_ptr(),
            s.vectors.len(),
            s.degree,
            s.beam,
            s.k,
            s.start,
            s.table.as_ptr(),
            s.table.len(),
            s.query.as_ptr(),
            s.query.len(),
            words.as_mut_ptr(),
            words.len(),
            floats.as_mut_ptr(),
            floats.len(),
            ids.as_mut_ptr(),
            ids.len(),
            dists.as_mut_ptr(),
            dists.len(),
        )
    }
}

pub fn fit(n: usize, degree: usize, table: &[u32]) -> Answer {
    unsafe { c::fjalgrout_fit(n, degree, table.as_ptr(), table.len()) }
}

pub fn exhaustive(e: Exhaustive, ids: &mut [u32], dists: &mut [f32]) -> Answer {
    unsafe {
        c::fjalgrout_exhaustive(
            e.n,
            e.dim,
            e.vectors.as_ptr(),
            e.vectors.len(),
            e.k,
            e.query.as_ptr(),
            e.query.len(),
            ids.as_mut_ptr(),
            ids.len(),
            dists.as_mut_ptr(),
            dists.len(),
        )
    }
}

pub fn report(c: Recall, words: &mut [u32], floats: &mut [f32]) -> Report {
    unsafe {
        c::fjalgrout_report(
            c.n,
            c.dim,
            c.vectors.as_ptr(),
            c.vectors.len(),
            c.degree,
            c.beam,
            c.k,
            c.start,
            c.table.as_ptr(),
            c.table.len(),
            c.queries.as_ptr(),
            c.queries.len(),
            words.as_mut_ptr(),
            words.len(),
            floats.as_mut_ptr(),
            floats.len(),
        )
    }
}

pub fn records(s: Search, words: &mut [u32], floats: &mut [f32], ids: &mut [u32], dists: &mut [f32], run: &mut [Candidate]) -> Answer {
    unsafe {
        c::fjalgrout_records(
            s.n,
            s.dim,
            s.vectors.as_ptr(),
            s.vectors.len(),
            s.degree,
            s.beam,
            s.k,
            s.start,
            s.table.as_ptr(),
            s.table.len(),
            s.query.as_ptr(),
            s.query.len(),
            words.as_mut_ptr(),
            words.len(),
            floats.as_mut_ptr(),
            floats.len(),
            ids.as_mut_ptr(),
            ids.len(),
            dists.as_mut_ptr(),
            dists.len(),
            run.as_mut_ptr(),
            run.len(),
        )
    }
}
