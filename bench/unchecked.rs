//! The search without its checks, and the inserts of a walk by themselves (bench/run makes both): to be called only with what their contracts ask.
use crate::ours::{Answer, Search};

extern "C" {
    fn unchecked_search(
        n: usize,
        dim: usize,
        vectors: *const u8,
        vectors_len: usize,
        degree: usize,
        beam: usize,
        k: usize,
        start: u32,
        table: *const u32,
        table_len: usize,
        query: *const u8,
        query_len: usize,
        words: *mut u32,
        words_len: usize,
        floats: *mut f32,
        floats_len: usize,
        ids: *mut u32,
        ids_len: usize,
        dists: *mut f32,
        dists_len: usize,
    ) -> Answer;

    fn unchecked_meet(
        keys: *mut u64,
        keys_len: usize,
        beam: usize,
        len: usize,
        bound: u64,
        ids: *const u32,
        ids_len: usize,
        dists: *const u32,
        dists_len: usize,
    ) -> usize;
}

pub fn search(s: Search, words: &mut [u32], floats: &mut [f32], ids: &mut [u32], dists: &mut [f32]) -> Answer {
    unsafe {
        unchecked_search(
            s.n,
            s.dim,
            s.vectors.as_ptr(),
            s.vectors.len(),
            s.degree,
            s.beam,
            s.k,
            s.start,
            s.table.as_ptr(),
            s.table.len(),
            s.query.as_ptr(),
            s.query.len(),
            words.as_mut_ptr(),
            words.len(),
            floats.as_mut_ptr(),
            floats.len(),
            ids.as_mut_ptr(),
            ids.len(),
            dists.as_mut_ptr(),
            dists.len(),
        )
    }
}

/// Items come to a beam in turn, of which `len` stand in the 256 keys, none with its row walked: how many then do. The first comes in if its key is below
/// `bound`.
pub fn meet(keys: &mut [u64], beam: usize, len: usize, bound: u64, ids: &[u32], dists: &[u32]) -> usize {
    unsafe { unchecked_meet(keys.as_mut_ptr(), keys.len(), beam, len, bound, ids.as_ptr(), ids.len(), dists.as_ptr(), dists.len()) }
}
