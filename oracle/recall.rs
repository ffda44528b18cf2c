//! Document 02's 1/13 in the order of 3/13, written plainly from their text: all n distances, sorted and cut to k; and what a report counts.
//! 000 has neither.
use crate::ours::{Recall, Report};
use diskann::probe;

/// The k nearest of all entries, by distance, then the higher id.
pub fn nearest(dim: usize, vectors: &[u8], k: usize, query: &[u8]) -> Vec<(u32, f32)> {
    let mut all: Vec<(u32, f32)> = vectors.chunks(dim).zip(0..).map(|(v, id)| (id, probe::distance(query, v))).collect();
    all.sort_by(|a, b| a.1.total_cmp(&b.1).then(b.0.cmp(&a.0)));
    all.truncate(k);
    all
}

/// What a search brings: 000's answers in our order, of which there are as many as the beam holds, cut to k.
fn brought(c: Recall, query: &[u8]) -> Vec<(u32, f32)> {
    let mut found = probe::search(probe::Search {
        dim: c.dim,
        vectors: c.vectors,
        degree: c.degree,
        table: c.table,
        query,
        start: c.start,
        beam: c.beam,
    });
    found.truncate(c.k);
    found
}

/// How many of the nearest the search brings, for each query.
pub fn hits(c: Recall) -> Vec<usize> {
    let of_one = |query: &[u8]| {
        let nearest = nearest(c.dim, c.vectors, c.k, query);
        brought(c, query).iter().filter(|a| nearest.iter().any(|b| a.0 == b.0)).count()
    };
    c.queries.chunks(c.dim).map(of_one).collect()
}

/// The four whole numbers of an accepted report.
pub fn report(c: Recall, hits: &[usize]) -> Report {
    let each = c.k.min(c.n);
    let whole = hits.iter().filter(|&&h| h == each).count();
    Report { number: 0, queries: hits.len(), asked: hits.len() * each, found: hits.iter().sum(), whole }
}
