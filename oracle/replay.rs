//! Makes the fixed list of cases that crates/test_replay replays: `stdin`, and from 000's answers alone `stdout`. The proved library takes no part in it.
//! crates/test_calls/src/lib.rt says what a case is. `oracle/list` compiles and runs it.
#[allow(dead_code)]
mod cases;
#[allow(dead_code)]
mod ours;
#[allow(dead_code)]
mod tally;
use cases::*;
use diskann::probe;
use ours::{slack, Params, PAD};
use std::fmt::Write;

// As crates/test_calls lends them.
const LENT: u32 = 77;
const WORDS: usize = 36_000;
const FLOATS: usize = 3_100;
const TABLE: usize = 6_000;
const ANSWERS: usize = 300;
/// As `named_alpha` of crates/test_calls has them, whose next is for other cases: 0 to 8 are accepted, 9 to 11 refused.
const ALPHAS: [f32; 12] = [f32::NAN, -3.0, 0.5, 1.0, 1.2, 1.25, 2.0, 3.7, 4.0, 4.0000005, f32::INFINITY, 100.0];
const DISTANCE: usize = 0;
const MEDOID: usize = 1;
const SEARCH: usize = 2;
const BUILD: usize = 3;
const BATCH: usize = 4;
const CLOSE: usize = 5;
const OPEN: usize = 6;

/// A call with all that is lent; what a kind does not take is 0 or empty.
#[derive(Clone, Default)]
struct Case {
    kind: usize,
    n: usize,
    dim: usize,
    degree: usize,
    beam: usize,
    alpha: usize,
    extra: usize,
    start: u32,
    k: usize,
    wide: usize,
    closed: usize,
    words: usize,
    floats: usize,
    ids: usize,
    dists: usize,
    vectors: Vec<u8>,
    query: Vec<u8>,
    list: Vec<u32>,
    seeds: Vec<u32>,
    table: Vec<u32>,
}

/// What a call leaves: the answer's fields, and what is written at the front of each lent slice.
#[derive(Default)]
struct Left {
    number: u32,
    count: usize,
    id: u32,
    distance: f32,
    expanded: usize,
    measured: usize,
    wide: Vec<u32>,
    closed: Vec<u32>,
    ids: Vec<u32>,
    dists: Vec<u32>,
    words: usize,
    floats: usize,
}

/// 16,777,619 times the sum so far and the word, modulo 2^32.
fn sum(words: &[u32]) -> u32 {
    words.iter().fold(2_166_136_261, |s: u32, &w| s.wrapping_add(w).wrapping_mul(16_777_619))
}

fn over(front: &[u32], len: usize) -> u32 {
    let mut all = front.to_vec();
    all.resize(len, LENT);
    sum(&all)
}

fn line(c: &Case, l: &Left) -> String {
    let mut s = format!("{} {} {} 0 {} {} {} ", l.number, l.count, l.id, l.distance, l.expanded, l.measured);
    let room = [over(&vec![0; l.words], WORDS), over(&vec![0; l.floats], FLOATS)];
    let sums: Vec<u32> = match c.kind {
        SEARCH => vec![over(&l.ids, ANSWERS), over(&l.dists, ANSWERS), room[0], room[1]],
        BUILD => vec![over(&l.wide, TABLE), over(&l.closed, TABLE), room[0], room[1]],
        BATCH => vec![sum(if l.number == 0 { &l.wide } else { &c.table }), room[0], room[1]],
        CLOSE => vec![over(&l.closed, TABLE), room[0], room[1]],
        OPEN => vec![over(&l.wide, TABLE)],
        _ => vec![],
    };
    sums.iter().for_each(|x| write!(s, "{x} ").unwrap());
    s + "\n"
}

fn text(c: &Case) -> String {
    assert!(
        c.vectors.len() <= 4_096 && c.query.len() <= 300 && c.list.len() <= 1_024 && c.seeds.len() <= 1_024,
        "a list is longer than test_calls has room for"
    );
    assert!(
        c.table.len().max(c.wide).max(c.closed) <= TABLE && c.words <= WORDS && c.floats <= FLOATS && c.ids.max(c.dists) <= ANSWERS,
        "a slice is longer than test_calls has room for"
    );
    let vectors: Vec<u32> = c.vectors.iter().map(|&b| b as u32).collect();
    let query: Vec<u32> = c.query.iter().map(|&b| b as u32).collect();
    let lists = [&vectors, &query, &c.list, &c.seeds, &c.table];
    let numbers = [
        c.kind,
        c.n,
        c.dim,
        c.degree,
        c.beam,
        c.alpha,
        c.extra,
        c.start as usize,
        c.k,
        c.wide,
        c.closed,
        c.words,
        c.floats,
        c.ids,
        c.dists,
    ];
    let mut all: Vec<u32> = numbers.iter().map(|&x| x.min(u32::MAX as usize) as u32).collect();
    all.extend(lists.iter().map(|l| l.len() as u32));
    lists.iter().for_each(|l| all.extend(l.iter()));
    let words: Vec<String> = all.iter().map(|&w| if w == PAD { "-".into() } else { w.to_string() }).collect();
    words.join(" ") + "\n"
}

/// The lists that cases.rs makes, small enough for a text; alpha one of the twelve.
fn data_of(r: &mut Rng, n: usize, most: usize) -> (Data, usize) {
    loop {
        let mut d = data(r, n);
        if n * d.dim > most || n * slack(d.params.degree) > most {
            continue;
        }
        d = d.clipped(r);
        let alpha = r.below(9);
        d.params.alpha = ALPHAS[alpha];
        return (d, alpha);
    }
}

fn case_of(kind: usize, d: &Data, alpha: usize) -> Case {
    let Params { degree, beam, extra, .. } = d.params;
    Case {
        kind,
        n: d.n,
        dim: d.dim,
        degree,
        beam,
        alpha,
        extra,
        start: d.start,
        vectors: d.vectors.clone(),
        words: 6 * d.n + 32_768,
        floats: 4 * d.n + 1_024,
        ..Case::default()
    }
}

/// 000's wide and closed rows.
fn built(d: &Data, order: &[u32], seeds: &[u32], rows: Vec<Vec<u32>>) -> (Vec<Vec<u32>>, Vec<Vec<u32>>) {
    let params = probe::Params { degree: d.params.degree, beam: d.params.beam, alpha: d.params.alpha, extra: d.params.extra };
    probe::build(probe::Build { n: d.n, dim: d.dim, vectors: &d.vectors, params, start: d.start, order, seeds, rows }, probe::Bytes)
}

fn distance(r: &mut Rng) -> (Case, Left) {
    let len = r.pick(&[1, 2, 7, 8, 9, 16, 64, 255, 256]);
    let (vectors, query) = pair(r, len);
    let distance = probe::distance(&vectors, &query);
    (Case { kind: DISTANCE, vectors, query, ..Case::default() }, Left { distance, ..Left::default() })
}

fn medoid(r: &mut Rng, n: usize, most: usize) -> (Case, Left) {
    let (d, alpha) = data_of(r, n, most);
    let pivots: Vec<u32> = (0..1 + r.below(8)).map(|_| r.below(n) as u32).collect();
    let id = probe::medoid(n, d.dim, &d.vectors, &pivots) as u32;
    (Case { list: pivots, ..case_of(MEDOID, &d, alpha) }, Left { id, ..Left::default() })
}

fn search(r: &mut Rng, n: usize, most: usize) -> (Case, Left) {
    let (d, alpha) = data_of(r, n, most);
    let table = searched(r, n, d.params.degree);
    let beam = match r.below(5) {
        0 => 0,
        1 => 256,
        _ => 1 + r.below(40),
    };
    let query = query(r, &d);
    let walk = probe::walk(probe::Search {
        dim: d.dim,
        vectors: &d.vectors,
        degree: d.params.degree,
        table: &table,
        query: &query,
        start: d.start,
        beam,
    });
    let k = beam.max(1);
    let c = Case { beam, k, query, table, words: n + 512, floats: 512, ids: k, dists: k, ..case_of(SEARCH, &d, alpha) };
    let l = Left {
        count: walk.answers.len(),
        expanded: walk.expanded,
        measured: walk.measured,
        ids: walk.answers.iter().map(|p| p.0).collect(),
        dists: walk.answers.iter().map(|p| p.1 as u32).collect(),
        words: c.words,
        floats: c.floats,
        ..Left::default()
    };
    (c, l)
}

fn build_on(r: &mut Rng, d: &Data, alpha: usize) -> (Case, Left) {
    let (n, degree, s) = (d.n, d.params.degree, slack(d.params.degree));
    let opening = rows(r, n, degree.min(n - 1));
    let (list, seeds) = (r.shuffled(n), seeds(r, d, n));
    let (wide, closed) = built(d, &list, &seeds, opening.clone());
    let c = Case { list, seeds, table: flat(&opening, degree), wide: n * s, closed: n * degree, ..case_of(BUILD, d, alpha) };
    let l = Left { wide: flat(&wide, s), closed: flat(&closed, degree), words: c.words, floats: c.floats, ..Left::default() };
    (c, l)
}

fn build(r: &mut Rng, n: usize, most: usize) -> (Case, Left) {
    let (d, alpha) = data_of(r, n, most);
    build_on(r, &d, alpha)
}

/// Two runs of the order; few values, so that some rows are named by many and are pruned in the merge. One sample in so many is at 255, or none: were
/// all of them, a pruned row would have one id, and nothing would show that it was pruned.
fn large_build(r: &mut Rng, n: usize, one_in: Option<usize>) -> (Case, Left) {
    let mut d = data(r, n);
    d.dim = 1 + r.below(3);
    d.vectors = (0..n * d.dim).map(|_| if r.below(4) == 0 { r.next() as u8 } else { r.pick(&[10, 11, 12, 200]) }).collect();
    if let Some(one_in) = one_in {
        saturate(r, &mut d.vectors, one_in);
    }
    let alpha = r.pick(&[3, 4, 4, 6]);
    d.params = Params { degree: 4 + r.below(4), beam: 4 + r.below(20), alpha: ALPHAS[alpha], extra: r.below(2) };
    let (c, l) = build_on(r, &d, alpha);
    // the merge leaves ids rising, but for a row that it pruned
    let pruned = l.wide.chunks(slack(c.degree)).filter(|row| row.windows(2).any(|p| p[0] > p[1])).count();
    assert!(pruned > 0, "no row was longer than the slack");
    println!("{n} entries, degree {}: {pruned} rows pruned in the merge", c.degree);
    (c, l)
}

fn batch(r: &mut Rng, n: usize, most: usize) -> (Case, Left) {
    let (d, alpha) = data_of(r, n, most);
    let s = slack(d.params.degree);
    let table = rows(r, n, s.min(n - 1));
    let count = match r.below(4) {
        0 => n,
        1 => 0,
        _ => r.below(n + 1),
    };
    let list = r.distinct(count, n, &[]);
    let seeds = seeds(r, &d, list.len());
    let wide = built(&d, &list, &seeds, table.clone()).0;
    let c = Case { list, seeds, table: flat(&table, s), ..case_of(BATCH, &d, alpha) };
    let l = Left { wide: flat(&wide, s), words: c.words, floats: c.floats, ..Left::default() };
    (c, l)
}

fn close(r: &mut Rng, n: usize, most: usize) -> (Case, Left) {
    let (d, alpha) = data_of(r, n, most);
    let (degree, s) = (d.params.degree, slack(d.params.degree));
    let table = rows(r, n, s.min(n - 1));
    let closed = built(&d, &[], &[], table.clone()).1;
    let c = Case { beam: 1_000, extra: 99, table: flat(&table, s), closed: n * degree, ..case_of(CLOSE, &d, alpha) };
    let l = Left { closed: flat(&closed, degree), words: c.words, floats: c.floats, ..Left::default() };
    (c, l)
}

fn open(r: &mut Rng, n: usize, most: usize) -> (Case, Left) {
    let (d, alpha) = data_of(r, n, most);
    let (degree, s) = (d.params.degree, slack(d.params.degree));
    let opening = rows(r, n, degree.min(n - 1));
    let wide = built(&d, &[], &[], opening.clone()).0;
    (Case { table: flat(&opening, degree), wide: n * s, ..case_of(OPEN, &d, alpha) }, Left { wide: flat(&wide, s), ..Left::default() })
}

/// Spoils a case so that the number's row of 01's table holds, and no lower one; false where the kind has no such refusal or the case no place for it.
fn spoil(r: &mut Rng, c: &mut Case, number: u32) -> bool {
    let (n, degree) = (c.n, c.degree);
    match (number, c.kind) {
        (1, DISTANCE) => {
            c.vectors = vec![9; r.pick(&[0, 257])];
        }
        (11, DISTANCE) => {
            c.query.push(1);
        }
        (_, DISTANCE) => return false,
        (1, MEDOID | SEARCH | BUILD | BATCH | CLOSE) => {
            c.dim = r.pick(&[0, 257]);
        }
        (2, MEDOID | SEARCH | BUILD | BATCH | CLOSE) => match r.below(3) {
            0 => c.n = r.pick(&[0, 65_537]),
            1 => c.vectors.push(3),
            _ => {
                c.vectors.pop();
            }
        },
        (2, OPEN) => {
            c.n = r.pick(&[0, 65_537]);
        }
        (3, SEARCH | BUILD | BATCH | CLOSE | OPEN) => {
            c.degree = r.pick(&[0, 65]);
        }
        (4, SEARCH | BUILD | BATCH) => {
            c.beam = r.pick(&[257, 100_000]);
        }
        (5, BUILD | BATCH | CLOSE) => {
            c.alpha = 9 + r.below(3);
        }
        (6, SEARCH | BUILD | BATCH) => {
            c.start = r.pick(&[n as u32, PAD]);
        }
        (7, BUILD | BATCH) => {
            if r.below(3) == 0 {
                c.extra = r.pick(&[17, n])
            } else if c.seeds.is_empty() || r.below(2) == 0 {
                c.seeds.push(0)
            } else {
                let i = r.below(c.seeds.len());
                c.seeds[i] = r.pick(&[n as u32, c.start]);
            }
        }
        (8, SEARCH) => {
            if r.below(2) == 0 {
                c.table.push(PAD)
            } else {
                let i = r.below(c.table.len());
                c.table[i] = n as u32
            }
        }
        (8, BUILD | OPEN) => match r.below(3) {
            0 => c.wide += 1,
            1 => c.table.push(PAD),
            _ => {
                let i = r.below(c.table.len());
                c.table[i] = r.pick(&[n as u32, (i / degree) as u32])
            }
        },
        (8, CLOSE) => match r.below(3) {
            0 => c.closed -= 1,
            1 => c.table.push(PAD),
            _ => {
                let i = r.below(c.table.len());
                c.table[i] = r.pick(&[n as u32, (i / slack(degree)) as u32])
            }
        },
        (8, BATCH) => {
            if r.below(2) == 0 {
                c.table.push(PAD)
            } else {
                let i = r.below(c.table.len());
                c.table[i] = r.pick(&[n as u32, (i / slack(degree)) as u32])
            }
        }
        (9, BUILD) => {
            if r.below(2) == 0 || n == 1 {
                c.list[0] = n as u32
            } else {
                c.list[0] = c.list[n - 1]
            }
        }
        (9, BATCH) => {
            if c.list.is_empty() {
                return false;
            }
            if c.list.len() == 1 || r.below(2) == 0 {
                c.list[0] = n as u32
            } else {
                c.list[0] = c.list[1]
            }
        }
        (10, SEARCH) => match r.below(4) {
            0 => c.words -= 1,
            1 => c.floats -= 1,
            2 => c.ids -= 1,
            _ => c.dists -= 1,
        },
        (10, BUILD | BATCH | CLOSE) => {
            if r.below(2) == 0 {
                c.words -= 1
            } else {
                c.floats -= 1
            }
        }
        (11, SEARCH) => {
            c.query.push(7);
        }
        (12, MEDOID) => match r.below(3) {
            0 => c.list.clear(),
            1 => c.list = vec![0; 9],
            _ => c.list[0] = n as u32,
        },
        _ => return false,
    }
    true
}

type Kind = fn(&mut Rng, usize, usize) -> (Case, Left);
const KINDS: [Kind; 7] = [|r, _, _| distance(r), medoid, search, build, batch, close, open];

fn main() {
    let dir = std::env::args().nth(1).expect("replay FOLDER");
    // with this seed every call that works out distances has cases of each share of samples at 255
    let mut r = Rng(2_330);
    let mut all: Vec<(Case, Left)> = Vec::new();
    for (kind, many) in [(DISTANCE, 20), (MEDOID, 30), (SEARCH, 40), (BUILD, 60), (BATCH, 40), (CLOSE, 20), (OPEN, 10)] {
        for i in 0..many {
            let n = 1 + r.below(if i % 10 == 9 { 40 } else { 13 });
            all.push(KINDS[kind](&mut r, n, if i % 10 == 0 { 900 } else { 200 }));
        }
    }
    for (n, one_in) in [(260, None), (300, Some(10)), (340, None), (380, Some(2)), (420, None), (512, Some(10))] {
        all.push(large_build(&mut r, n, one_in));
    }
    // every refusal of every call twice, and then pairs of faults: the lower number is returned
    for kind in DISTANCE..=OPEN {
        for first in 1..=12 {
            for second in [first, first, first + 1 + r.below(11) as u32] {
                let n = 2 + r.below(6);
                let mut c = KINDS[kind](&mut r, n, 60).0;
                if (second == first || spoil(&mut r, &mut c, second)) && spoil(&mut r, &mut c, first) {
                    all.push((c, Left { number: first, ..Left::default() }));
                }
            }
        }
    }
    let stdin: String = format!("{}\n", all.len()) + &all.iter().map(|(c, _)| text(c)).collect::<String>();
    let stdout: String = all.iter().map(|(c, l)| line(c, l)).collect();
    let done = all.iter().filter(|(_, l)| l.number == 0).count();
    let words = stdin.split_whitespace().count();
    let saturated = all.iter().filter(|(c, _)| c.vectors.contains(&255) || c.query.contains(&255)).count();
    assert!(words <= 65_536, "more words than test_calls reads");
    println!("{} cases, {done} done and {} refused, {words} words in {} bytes", all.len(), all.len() - done, stdin.len());
    println!("{saturated} of them with samples at 255");
    std::fs::write(format!("{dir}/stdin"), stdin).unwrap();
    std::fs::write(format!("{dir}/stdout"), stdout).unwrap();
}
