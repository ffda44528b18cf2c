//! What a beam brings and costs: the recall of ten by the report itself, what a lookup with that beam expands and measures, and its time beside an exhaustive
//! search's.
//!
//!     recall N QUERIES REPEATS
mod clock;
#[allow(dead_code)]
mod data;
#[path = "../oracle/ours.rs"]
#[allow(dead_code)]
mod ours;

use clock::best;
use data::{built, input, Input, DIM, PARAMS};
use ours::{Exhaustive, Recall, Search};
use std::hint::black_box;

const K: usize = 10;
const BEAMS: [usize; 8] = [1, 4, 10, 16, 32, 64, 128, 256];

struct Lent {
    words: Vec<u32>,
    floats: Vec<f32>,
    ids: [u32; K],
    dists: [f32; K],
}

/// The report of all queries, and of a lookup, over all queries: entries expanded, distances worked out, and the time, in us.
fn with_beam(i: &Input, table: &[u32], queries: &[u8], beam: usize, repeats: usize, lent: &mut Lent) -> (ours::Report, [f64; 3]) {
    let (n, degree, start, vectors) = (i.n, PARAMS.degree, i.start, &i.vectors[..]);
    let call = Recall { n, dim: DIM, vectors, degree, beam, k: K, start, table, queries };
    let report = ours::report(call, &mut lent.words, &mut lent.floats);
    assert_eq!(report.number, 0);
    let mut lookup = |query: &[u8]| {
        let call = Search { n, dim: DIM, vectors, degree, beam, k: K, start, table, query };
        black_box(ours::lookup(black_box(call), &mut lent.words, &mut lent.floats, &mut lent.ids, &mut lent.dists))
    };
    let (mut expanded, mut measured) = (0, 0);
    for query in &i.queries {
        let answer = lookup(query);
        expanded += answer.expanded;
        measured += answer.measured;
    }
    let time = best(repeats, || {
        for query in &i.queries {
            lookup(query);
        }
    });
    (report, [expanded as f64, measured as f64, time * 1e6].map(|all| all / i.queries.len() as f64))
}

/// The time of an exhaustive search, in us; a tenth of the queries is enough for it.
fn exhausted(i: &Input, repeats: usize, lent: &mut Lent) -> f64 {
    let queries = &i.queries[..i.queries.len().div_ceil(10)];
    let time = best(repeats, || {
        for query in queries {
            let call = Exhaustive { n: i.n, dim: DIM, vectors: &i.vectors, k: K, query };
            black_box(ours::exhaustive(black_box(call), &mut lent.ids, &mut lent.dists));
        }
    });
    time * 1e6 / queries.len() as f64
}

fn main() {
    let args: Vec<usize> = std::env::args().skip(1).map(|a| a.parse().expect("recall N QUERIES REPEATS")).collect();
    let [n, queries, repeats] = args[..] else { panic!("recall N QUERIES REPEATS") };
    println!("n {n}, dim {DIM}, degree 64, build beam 128, alpha 1.2, extra seeds 1; k {K}; {queries} queries, best of {repeats}");
    let i = input(n, queries);
    let table = built(&i);
    let mut lent = Lent { words: vec![0; n + 1_024], floats: vec![0.0; 1_024], ids: [0; K], dists: [0.0; K] };
    let all = i.queries.concat();
    println!(
        "{:>10} {:>9} {:>9} {:>9} {:>9} {:>9} {:>9} {:>12}",
        "beam", "asked", "found", "whole", "recall", "expanded", "measured", "lookup, us"
    );
    for beam in BEAMS {
        let (r, [expanded, measured, time]) = with_beam(&i, &table, &all, beam, repeats, &mut lent);
        let recall = r.found as f64 / r.asked as f64;
        println!("{beam:>10} {:>9} {:>9} {:>9} {recall:>9.4} {expanded:>9.1} {measured:>9.1} {time:>12.3}", r.asked, r.found, r.whole);
    }
    let time = exhausted(&i, repeats, &mut lent);
    println!("{:>10} {:>9} {:>9} {:>9} {:>9} {:>9} {n:>9} {time:>12.3}", "exhaustive", "", "", "", "1.0000", "");
}
