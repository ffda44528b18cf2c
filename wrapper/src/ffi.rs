//! The static library's calls and records, as include/fjalgrout.h has them. A slice is an address and a count.
//! Whoever calls these ensures that every count is true and that slices lent for writing lie apart; the safe functions beside this file do.
//! The file uses nothing else of the crate: it can also be taken in by `#[path = ".."] mod ffi;`.

/// What every call but report returns. A refusal has its number and every other field 0. On success a search, exhaustive too, gives its answer count,
/// medoid its id, distance its value, a single draw its draw; search, lookup and records also how many entries' rows they walked and how many distances
/// they worked out; every other such field is 0.
#[repr(C)]
#[derive(Clone, Copy, Debug, PartialEq)]
pub struct Answer {
    pub number: u32,
    pub count: usize,
    pub id: u32,
    pub draw: u32,
    pub distance: f32,
    pub expanded: usize,
    pub measured: usize,
}

/// The build parameters. NaN alpha and any alpha below 1.0 act as 1.0. Beam 0 is legal.
#[repr(C)]
#[derive(Clone, Copy, Debug, PartialEq)]
pub struct Params {
    pub degree: usize,
    pub beam: usize,
    pub alpha: f32,
    pub extra: usize,
}

/// One answer of a search.
#[repr(C)]
#[derive(Clone, Copy, Debug, PartialEq)]
pub struct Candidate {
    pub id: u32,
    pub distance: f32,
}

/// A generator's state after a call, and what the call answers. A refusal has the state that was given.
#[repr(C)]
#[derive(Clone, Copy, Debug, PartialEq)]
pub struct Stepped {
    pub state: u64,
    pub answer: Answer,
}

/// What report returns: queries; entries asked for, min(k, n) by each; how many of these, the true nearest, the searches brought; for how many queries
/// they brought all. A refusal has its number and every other field 0.
#[repr(C)]
#[derive(Clone, Copy, Debug, PartialEq)]
pub struct Report {
    pub number: u32,
    pub queries: usize,
    pub asked: usize,
    pub found: usize,
    pub whole: usize,
}

extern "C" {
    pub fn fjalgrout_defaults() -> Params;

    pub fn fjalgrout_distance(a: *const u8, a_count: usize, b: *const u8, b_count: usize) -> Answer;

    pub fn fjalgrout_medoid(n: usize, dim: usize, vectors: *const u8, vectors_count: usize, pivots: *const u32, pivots_count: usize) -> Answer;

    pub fn fjalgrout_batch(
        n: usize,
        dim: usize,
        vectors: *const u8,
        vectors_count: usize,
        params: Params,
        start: u32,
        nodes: *const u32,
        nodes_count: usize,
        seeds: *const u32,
        seeds_count: usize,
        wide: *mut u32,
        wide_count: usize,
        words: *mut u32,
        words_count: usize,
        floats: *mut f32,
        floats_count: usize,
    ) -> Answer;

    pub fn fjalgrout_open(n: usize, degree: usize, opening: *const u32, opening_count: usize, wide: *mut u32, wide_count: usize) -> Answer;

    pub fn fjalgrout_close(
        n: usize,
        dim: usize,
        vectors: *const u8,
        vectors_count: usize,
        params: Params,
        wide: *const u32,
        wide_count: usize,
        closed: *mut u32,
        closed_count: usize,
        words: *mut u32,
        words_count: usize,
        floats: *mut f32,
        floats_count: usize,
    ) -> Answer;

    pub fn fjalgrout_build(
        n: usize,
        dim: usize,
        vectors: *const u8,
        vectors_count: usize,
        params: Params,
        start: u32,
        order: *const u32,
        order_count: usize,
        seeds: *const u32,
        seeds_count: usize,
        opening: *const u32,
        opening_count: usize,
        wide: *mut u32,
        wide_count: usize,
        closed: *mut u32,
        closed_count: usize,
        words: *mut u32,
        words_count: usize,
        floats: *mut f32,
        floats_count: usize,
    ) -> Answer;

    pub fn fjalgrout_search(
        n: usize,
        dim: usize,
        vectors: *const u8,
        vectors_count: usize,
        degree: usize,
        beam: usize,
        k: usize,
        start: u32,
        table: *const u32,
        table_count: usize,
        query: *const u8,
        query_count: usize,
        words: *mut u32,
        words_count: usize,
        floats: *mut f32,
        floats_count: usize,
        ids: *mut u32,
        ids_count: usize,
        dists: *mut f32,
        dists_count: usize,
    ) -> Answer;

    pub fn fjalgrout_lookup(
        n: usize,
        dim: usize,
        vectors: *const u8,
        vectors_count: usize,
        degree: usize,
        beam: usize,
        k: usize,
        start: u32,
        table: *const u32,
        table_count: usize,
        query: *const u8,
        query_count: usize,
        words: *mut u32,
        words_count: usize,
        floats: *mut f32,
        floats_count: usize,
        ids: *mut u32,
        ids_count: usize,
        dists: *mut f32,
        dists_count: usize,
    ) -> Answer;

    pub fn fjalgrout_fit(n: usize, degree: usize, table: *const u32, table_count: usize) -> Answer;

    pub fn fjalgrout_exhaustive(
        n: usize,
        dim: usize,
        vectors: *const u8,
        vectors_count: usize,
        k: usize,
        query: *const u8,
        query_count: usize,
        ids: *mut u32,
        ids_count: usize,
        dists: *mut f32,
        dists_count: usize,
    ) -> Answer;

    pub fn fjalgrout_report(
        n: usize,
        dim: usize,
        vectors: *const u8,
        vectors_count: usize,
        degree: usize,
        beam: usize,
        k: usize,
        start: u32,
        table: *const u32,
        table_count: usize,
        queries: *const u8,
        queries_count: usize,
        words: *mut u32,
        words_count: usize,
        floats: *mut f32,
        floats_count: usize,
    ) -> Report;

    pub fn fjalgrout_records(
        n: usize,
        dim: usize,
        vectors: *const u8,
        vectors_count: usize,
        degree: usize,
        beam: usize,
        k: usize,
        start: u32,
        table: *const u32,
        table_count: usize,
        query: *const u8,
        query_count: usize,
        words: *mut u32,
        words_count: usize,
        floats: *mut f32,
        floats_count: usize,
        ids: *mut u32,
        ids_count: usize,
        dists: *mut f32,
        dists_count: usize,
        run: *mut Candidate,
        run_count: usize,
    ) -> Answer;

    pub fn fjalgrout_draw(state: u64, m: u32) -> Stepped;

    pub fn fjalgrout_rows(state: u64, n: usize, degree: usize, table: *mut u32, table_count: usize) -> Stepped;

    pub fn fjalgrout_seeds(state: u64, n: usize, start: u32, extra: usize, out: *mut u32, out_count: usize) -> Stepped;

    pub fn fjalgrout_order(state: u64, n: usize, out: *mut u32, out_count: usize) -> Stepped;

    pub fn fjalgrout_pivots(state: u64, n: usize, out: *mut u32, out_count: usize) -> Stepped;
}
