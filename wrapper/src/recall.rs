//! Recall: the true nearest, from all entries, and how many of them a search brings.

use crate::ffi;
use crate::{done, Refusal, Scratch, Table, Vectors, Wanted};

/// What a report counts.
#[derive(Clone, Copy, Debug, PartialEq, Eq)]
pub struct Report {
    pub queries: usize,
    /// Entries asked for: min(k, n) by each query.
    pub asked: usize,
    /// How many of these, the true nearest, the searches brought.
    pub found: usize,
    /// For how many queries the search brought all.
    pub whole: usize,
}

impl Report {
    /// The share that was found of what was asked for, 0.0 to 1.0; and 1.0 where nothing was asked, by a report of no queries: nothing was missed.
    pub fn recall(&self) -> f64 {
        if self.asked == 0 {
            1.0
        } else {
            self.found as f64 / self.asked as f64
        }
    }
}

/// Exhaustive: the true nearest, from the distances to all entries and with no table. How many there are, min(k, n), by distance, then the higher id,
/// at the front of `ids` and `dists`; of equals at the cut to k the higher ids. What lies beyond them is untouched.
///
/// Each output: [`most_nearest`](crate::most_nearest). Numbers 1, 2, 10, 11, 14.
pub fn exhaustive(vectors: Vectors, k: usize, query: &[u8], ids: &mut [u32], dists: &mut [f32]) -> Result<usize, Refusal> {
    let Vectors { n, dim, bytes } = vectors;
    // SAFETY: address and length are those of slices, and the borrows keep those that are written apart.
    let answer = unsafe {
        ffi::fjalgrout_exhaustive(
            n,
            dim,
            bytes.as_ptr(),
            bytes.len(),
            k,
            query.as_ptr(),
            query.len(),
            ids.as_mut_ptr(),
            ids.len(),
            dists.as_mut_ptr(),
            dists.len(),
        )
    };
    Ok(done(answer)?.count)
}

/// Report: how many of the true nearest the search brings, in whole numbers. `queries` holds up to 65,535 of them one after another, dim bytes each, and may
/// be empty. Each is searched for, as [`search`](crate::search) does, and then exhaustively; an answer is found where its id is among the nearest:
/// where the cut to k divides equals, one of a lower id is not, though it is as near.
///
/// Scratch: [`report_room`](crate::report_room). Numbers 1, 2, 3, 4, 6, 8, 10, 11, 14.
pub fn report(vectors: Vectors, table: Table, wanted: Wanted, queries: &[u8], scratch: Scratch) -> Result<Report, Refusal> {
    let Vectors { n, dim, bytes } = vectors;
    let Scratch { words, floats } = scratch;
    // SAFETY: address and length are those of slices, and the borrows keep those that are written apart.
    let told = unsafe {
        ffi::fjalgrout_report(
            n,
            dim,
            bytes.as_ptr(),
            bytes.len(),
            table.degree,
            wanted.beam,
            wanted.k,
            table.start,
            table.rows.as_ptr(),
            table.rows.len(),
            queries.as_ptr(),
            queries.len(),
            words.as_mut_ptr(),
            words.len(),
            floats.as_mut_ptr(),
            floats.len(),
        )
    };
    let ffi::Report {
        number,
        queries,
        asked,
        found,
        whole,
    } = told;
    match number {
        0 => Ok(Report { queries, asked, found, whole }),
        number => Err(Refusal(number)),
    }
}
