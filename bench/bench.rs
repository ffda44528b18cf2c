//! The proved library and 000 in one binary, on one thread, over the same tables: first that they agree, then the time of each.
//!
//!     bench N QUERIES REPEATS [search | distance]
//!
//! A search has beam 128 and asks for 128 answers, as many as 000 gives. With `search` it is all that is measured, over a table that only the library builds;
//! with `distance` a distance is.
mod clock;
#[allow(dead_code)]
mod data;
#[path = "../oracle/ours.rs"]
#[allow(dead_code)]
mod ours;
#[allow(dead_code)]
mod unchecked;

use clock::best;
use data::{built, flat, input, Generator, Input, DIM, PARAMS};
use diskann::probe::{self, Bytes, Counted};
use ours::DONE;
use std::hint::black_box;

const BEAM: usize = 128;
const K: usize = 128;

fn line(what: &str, ours: f64, theirs: f64, unit: &str) {
    println!("{what:<28} ours {ours:>12.3} {unit}   000 {theirs:>12.3} {unit}   ratio {:.3}", ours / theirs);
}

/// One distance after another of vectors that lie side by side, once both are known to give the same.
fn distances(what: &str, vectors: &[u8], repeats: usize) {
    let pairs: Vec<(&[u8], &[u8])> = vectors.chunks(DIM).zip(vectors.chunks(DIM).skip(1)).take(1_000).collect();
    let over = |distance: fn(&[u8], &[u8]) -> f32| {
        best(repeats.max(20), || {
            for &(a, b) in &pairs {
                black_box(distance(black_box(a), black_box(b)));
            }
        })
    };
    assert!(pairs.iter().all(|&(a, b)| ours::distance(a, b).distance == probe::distance(a, b)), "a distance");
    let ours = over(|a, b| ours::distance(a, b).distance);
    let theirs = over(probe::distance);
    let each = 1e9 / pairs.len() as f64;
    line(what, ours * each, theirs * each, "ns");
}

/// Distances of the entries, none of whose samples is saturated, and of the same with a tenth of them at 255.
fn all_distances(i: &Input, repeats: usize) {
    distances("one distance of 64 bytes", &i.vectors, repeats);
    let mut g = Generator(5);
    let clipped: Vec<u8> = i.vectors.iter().map(|&x| if g.below(10) == 0 { 255 } else { x }).collect();
    distances("  a tenth of them 255", &clipped, repeats);
}

/// The wide and the closed table of both, once they are known to be one.
fn builds(i: &Input, repeats: usize) -> (Vec<u32>, Vec<u32>) {
    let (n, width) = (i.n, ours::slack(PARAMS.degree));
    let call = ours::Build { n, dim: DIM, vectors: &i.vectors, params: PARAMS, start: i.start, order: &i.order, seeds: &i.seeds };
    let theirs = || probe::Build {
        n,
        dim: DIM,
        vectors: &i.vectors,
        params: probe::Params { degree: PARAMS.degree, beam: PARAMS.beam, alpha: PARAMS.alpha, extra: PARAMS.extra },
        start: i.start,
        order: &i.order,
        seeds: &i.seeds,
        rows: i.rows.clone(),
    };
    let opening = flat(&i.rows, PARAMS.degree);
    let (mut wide, mut closed) = (vec![0; n * width], vec![0; n * PARAMS.degree]);
    let (mut words, mut floats) = (vec![0; 6 * n + 32_768], vec![0.0; 4 * n + 1_024]);
    let ours = best(repeats, || assert_eq!(ours::build(call, &opening, &mut wide, &mut closed, &mut words, &mut floats), DONE));
    let mut built = (vec![], vec![]);
    let fed = (0..repeats).map(|_| theirs()).collect::<Vec<_>>();
    let mut fed = fed.into_iter();
    let time = best(repeats, || built = probe::build(fed.next().unwrap(), Bytes));
    assert!(wide == flat(&built.0, width) && closed == flat(&built.1, PARAMS.degree), "the tables");
    line("build", ours, time, "s ");
    if n <= 10_000 {
        probe::build(theirs(), Counted);
        println!("{:<28} 000 {}", "  distances of a build", probe::distances());
    }
    (wide, closed)
}

/// The test of the build rule on a wide table: an empty batch with a word of room too little, which is refused by 10, so after the whole
/// of the checks before it. First a table whose rows are full, drawn as opening rows are, then the one that was built.
fn rule(i: &Input, built: &mut [u32], repeats: usize) {
    let (n, width) = (i.n, ours::slack(PARAMS.degree));
    let mut g = Generator(1);
    let mut opened = flat(&(0..n).map(|k| g.row(k, n, width)).collect::<Vec<_>>(), width);
    let call = ours::Build { n, dim: DIM, vectors: &i.vectors, params: PARAMS, start: i.start, order: &[], seeds: &[] };
    let (mut words, mut floats) = (vec![0; 6 * n + 32_767], vec![0.0; 4 * n + 1_024]);
    for (what, wide) in [("the build rule, full rows", &mut opened[..]), ("the build rule, rows built", built)] {
        let bytes = std::mem::size_of_val(wide) as f64;
        assert_eq!(ours::batch(call, wide, &mut words, &mut floats).number, 10);
        let time = best(repeats.max(20), || {
            black_box(ours::batch(call, black_box(wide), &mut words, &mut floats));
        });
        println!("{what:<28} ours {:>12.3} us   {:.1} bytes a ns", time * 1e6, bytes / time / 1e9);
    }
}

type Found = fn(ours::Search, &mut [u32], &mut [f32], &mut [u32], &mut [f32]) -> ours::Answer;

fn searches(i: &Input, table: &[u32], repeats: usize) {
    let (n, degree, start, vectors) = (i.n, PARAMS.degree, i.start, &i.vectors[..]);
    let (mut words, mut floats) = (vec![0; n + 512], vec![0.0; 512]);
    let (mut ids, mut dists) = (vec![0; K], vec![0.0; K]);
    let mut call = |search: Found, beam: usize, query: &[u8]| {
        let call = ours::Search { n, dim: DIM, vectors, degree, beam, k: K, start, table, query };
        black_box(search(call, &mut words, &mut floats, &mut ids, &mut dists))
    };
    let theirs = |query| probe::Search { dim: DIM, vectors, degree, table, query, start, beam: BEAM };
    agree(i, theirs, table);
    let asked = i.queries.len() as f64;
    // refused by 11, so after the whole of the checks before it, the pass over the table for 8 among them
    let long = vec![0; DIM + 1];
    assert_eq!(call(ours::search, BEAM, &long).number, 11);
    let mut each_query = |search: Found, beam: usize| {
        best(repeats, || {
            for query in &i.queries {
                call(search, beam, query);
            }
        })
    };
    let [looked_up, whole, accepted] = [ours::lookup as Found, ours::search, unchecked::search].map(|search| each_query(search, BEAM));
    // with beam 1 nothing is expanded: what is left is the clearing of the room, and the start's distance
    let cleared = each_query(ours::lookup, 1);
    let checks = best(repeats, || {
        for _ in &i.queries {
            call(ours::search, BEAM, &long);
        }
    });
    let time = best(repeats, || i.queries.iter().for_each(|q| drop(black_box(probe::found(theirs(q), Bytes)))));
    let each = 1e6 / asked;
    line("lookup, whole call", looked_up * each, time * each, "us");
    line("search, whole call", whole * each, time * each, "us");
    line("search on accepted input", accepted * each, time * each, "us");
    println!("{:<28} {:.3}", "  lookup of accepted search", looked_up / accepted);
    println!("{:<28} ours {:>12.3} us", "  the clearing alone", cleared * each);
    let bytes = std::mem::size_of_val(table) as f64;
    println!("{:<28} ours {:>12.3} us   {:.1} bytes a ns", "  the checks alone", checks * each, bytes * asked / checks / 1e9);
}

/// Both give the same answers to each query, and the same counts, and so do the lookup and the search without its checks. Prints the mean of the counts.
fn agree<'a>(i: &'a Input, theirs: impl Fn(&'a [u8]) -> probe::Search<'a>, table: &[u32]) {
    let n = i.n;
    let (mut expanded, mut measured) = (0, 0);
    for query in &i.queries {
        let expected = probe::walk(theirs(query));
        for search in [ours::search as Found, ours::lookup, unchecked::search] {
            let call =
                ours::Search { n, dim: DIM, vectors: &i.vectors, degree: PARAMS.degree, beam: BEAM, k: K, start: i.start, table, query };
            let (mut words, mut floats) = (vec![0; n + 512], vec![0.0; 512]);
            let (mut ids, mut dists) = (vec![0; K], vec![0.0; K]);
            let answer = search(call, &mut words, &mut floats, &mut ids, &mut dists);
            let pairs = ids.into_iter().zip(dists).take(answer.count);
            assert!(answer.number == 0 && pairs.eq(expected.answers.iter().copied()), "the answers");
            assert_eq!((answer.expanded, answer.measured), (expected.expanded, expected.measured), "the counts");
        }
        expanded += expected.expanded;
        measured += expected.measured;
    }
    for (what, all) in [("  rows of a search", expanded), ("  distances of a search", measured)] {
        println!("{what:<28} 000 {:.1}", all as f64 / i.queries.len() as f64);
    }
}

fn main() {
    let args: Vec<String> = std::env::args().skip(1).collect();
    let numbers: Vec<usize> = args.iter().take(3).map(|a| a.parse().expect("bench N QUERIES REPEATS [search | distance]")).collect();
    let [n, queries, repeats] = numbers[..] else { panic!("bench N QUERIES REPEATS [search | distance]") };
    println!("n {n}, dim {DIM}, degree 64, build beam 128, alpha 1.2, extra seeds 1; search beam {BEAM}, k {K}; {queries} queries, best of {repeats}");
    let i = input(n, queries);
    assert_eq!(i.start as usize, probe::medoid(n, DIM, &i.vectors, &i.pivots), "the start");
    match args.get(3).map(String::as_str) {
        Some("search") => return searches(&i, &built(&i), repeats),
        Some(_) => return all_distances(&i, repeats),
        None => all_distances(&i, repeats),
    }
    let (mut wide, closed) = builds(&i, repeats.min(if n > 2_000 { 2 } else { 5 }));
    rule(&i, &mut wide, repeats);
    searches(&i, &closed, repeats);
}
