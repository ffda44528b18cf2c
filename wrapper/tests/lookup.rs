//! A build from drawn rows, order, seeds and pivots, and searches and reports of the table that it leaves.

mod lent;

use fjalgrout::{distance, medoid, Generator, Params, PADDING};
use lent::{line_build, line_search, reported, vectors, Build, Nearest, Search};

const DIM: usize = 16;

/// Crossings around ten centres, and a build over them, all from one generator.
fn drawn_build(n: usize, params: Params, seed: u64) -> Build {
    let mut generator = Generator::new(seed);
    let centres: Vec<u32> = (0..10 * DIM).map(|_| generator.draw(236)).collect();
    let bytes: Vec<u8> = (0..n * DIM)
        .map(|i| (centres[i / DIM % 10 * DIM + i % DIM] + generator.draw(20)) as u8)
        .collect();
    let (mut pivots, mut order, mut seeds, mut opening) = ([0; 8], vec![0; n], vec![0; n * params.extra], vec![0; n * params.degree]);
    generator.pivots(n, &mut pivots).unwrap();
    let start = medoid(vectors(n, DIM, &bytes), &pivots).unwrap();
    generator.order(n, &mut order).unwrap();
    for group in seeds.chunks_mut(params.extra) {
        generator.seeds(n, start, params.extra, group).unwrap();
    }
    generator.rows(n, params.degree, &mut opening).unwrap();
    Build {
        n,
        dim: DIM,
        bytes,
        params,
        start,
        order,
        seeds,
        opening,
        wide: vec![],
        short: [0; 4],
    }
}

/// The build rule: distinct ids below n, not its own, then only padding.
fn is_lawful(n: usize, degree: usize, table: &[u32]) -> bool {
    table.chunks(degree).enumerate().all(|(i, row)| {
        let many = row.iter().take_while(|&&word| word != PADDING).count();
        let (ids, rest) = row.split_at(many);
        let distinct = ids.iter().enumerate().all(|(j, id)| !ids[..j].contains(id));
        distinct && ids.iter().all(|&id| (id as usize) < n && id as usize != i) && rest.iter().all(|&word| word == PADDING)
    })
}

/// Every answer by distance, then the higher id, from a walk over all entries.
fn all_answers(bytes: &[u8], query: &[u8]) -> Vec<(u32, f32)> {
    let mut answers: Vec<_> = bytes.chunks(DIM).enumerate().map(|(i, v)| (i as u32, distance(v, query).unwrap())).collect();
    answers.sort_by(|a, b| a.1.total_cmp(&b.1).then(b.0.cmp(&a.0)));
    answers
}

/// By distance, then the higher id.
fn is_listed(answers: &[(u32, f32)]) -> bool {
    answers.windows(2).all(|w| w[0].1 < w[1].1 || (w[0].1 == w[1].1 && w[0].0 > w[1].0))
}

/// Some of the entries, each a little moved.
fn queries(build: &Build) -> Vec<Vec<u8>> {
    let moved = |entry: &[u8]| {
        let mut query = entry.to_vec();
        query[0] ^= 3;
        query
    };
    build.bytes.chunks(DIM).step_by(37).map(moved).collect()
}

fn search_of(build: &Build, rows: &[u32], beam: usize, k: usize, query: Vec<u8>) -> Search {
    Search {
        n: build.n,
        dim: DIM,
        bytes: build.bytes.clone(),
        degree: build.params.degree,
        beam,
        k,
        start: build.start,
        rows: rows.to_vec(),
        query,
        short: [0; 4],
    }
}

#[test]
fn the_line_is_built_and_searched() {
    let rows = line_build().table().unwrap();
    assert!(is_lawful(4, 2, &rows));
    let search = Search { rows, ..line_search(38, 4, 4) };
    assert_eq!(search.answers(), Ok(vec![(3, 4.0), (2, 64.0), (1, 324.0), (0, 784.0)]));
}

#[test]
fn a_built_table_finds_the_nearest() {
    let params = Params {
        degree: 12,
        beam: 32,
        extra: 2,
        ..Params::default()
    };
    let (n, seed) = (600, 7);
    let build = drawn_build(n, params, seed);
    let rows = build.table().unwrap();
    assert!(is_lawful(n, params.degree, &rows));
    assert_eq!(drawn_build(n, params, seed).table().unwrap(), rows, "the same draws give the same table");
    for query in queries(&build) {
        let search = search_of(&build, &rows, 64, 5, query.clone());
        let (found, all) = (search.answers().unwrap(), all_answers(&build.bytes, &query));
        assert_eq!(found.len(), 5);
        assert!(is_listed(&found));
        assert!(found.iter().all(|answer| all.contains(answer)), "each answer has its own distance");
        assert_eq!(found[0], all[0], "the nearest");
    }
}

fn nearest_of(build: &Build, k: usize, query: Vec<u8>) -> Nearest {
    Nearest {
        n: build.n,
        dim: DIM,
        bytes: build.bytes.clone(),
        k,
        query,
        short: [0; 2],
    }
}

/// Samples of two values, so that most distances have an equal. A smaller k cuts the list of a greater one, also within a run of equals.
#[test]
fn equals_of_a_built_table() {
    let params = Params {
        degree: 8,
        beam: 16,
        extra: 1,
        ..Params::default()
    };
    let mut build = drawn_build(200, params, 5);
    build.bytes.iter_mut().for_each(|sample| *sample %= 2);
    let rows = build.table().unwrap();
    let mut divided = 0;
    for query in queries(&build) {
        let found = search_of(&build, &rows, 64, 64, query.clone()).answers().unwrap();
        assert!(is_listed(&found));
        let all = all_answers(&build.bytes, &query);
        for k in 1..found.len() {
            assert_eq!(search_of(&build, &rows, 64, k, query.clone()).answers().unwrap(), found[..k]);
            assert_eq!(nearest_of(&build, k, query.clone()).answers().unwrap(), all[..k]);
            divided += usize::from(found[k - 1].1 == found[k].1);
        }
    }
    assert!(divided > 0, "no cut divides equals");
}

/// A report's numbers are those of its searches and exhaustive searches, counted here; and an exhaustive search has the front of all answers.
#[test]
fn a_report_of_a_built_table() {
    let params = Params {
        degree: 4,
        beam: 8,
        extra: 1,
        ..Params::default()
    };
    let build = drawn_build(400, params, 11);
    let rows = build.table().unwrap();
    for (beam, k) in [(1, 1), (4, 10), (10, 10), (40, 10), (256, 256)] {
        let (mut found, mut whole) = (0, 0);
        for query in queries(&build) {
            let nearest = nearest_of(&build, k, query.clone()).answers().unwrap();
            assert_eq!(nearest, all_answers(&build.bytes, &query)[..k]);
            let brought = search_of(&build, &rows, beam, k, query).answers().unwrap();
            let hits = brought.iter().filter(|answer| nearest.contains(answer)).count();
            found += hits;
            whole += usize::from(hits == k);
        }
        let told = reported(&search_of(&build, &rows, beam, k, queries(&build).concat())).unwrap();
        let many = queries(&build).len();
        assert_eq!((told.queries, told.asked, told.found, told.whole), (many, many * k, found, whole));
    }
}

#[test]
fn drawn_slices() {
    let mut generator = Generator::new(77);
    let mut order = [PADDING; 12];
    generator.order(10, &mut order).unwrap();
    assert_eq!(order[10..], [PADDING; 2]);
    let mut sorted = order[..10].to_vec();
    sorted.sort_unstable();
    assert!(sorted.into_iter().eq(0..10));
    let mut seeds = [PADDING; 4];
    generator.seeds(4, 2, 3, &mut seeds).unwrap();
    assert_eq!(seeds[3], PADDING);
    seeds[..3].sort_unstable();
    assert_eq!(seeds[..3], [0, 1, 3]);
    let mut pivots = [PADDING; 9];
    generator.pivots(3, &mut pivots).unwrap();
    assert!(pivots[..3].iter().all(|&id| id < 3) && pivots[3..].iter().all(|&id| id == PADDING));
    let mut rows = [0; 40];
    generator.rows(5, 8, &mut rows).unwrap();
    assert!(is_lawful(5, 8, &rows));
    let state = generator.state;
    generator.rows(1, 8, &mut rows[..8]).unwrap();
    assert_eq!((generator.state, &rows[..8]), (state, &[PADDING; 8][..]), "a single entry draws nothing");
}
