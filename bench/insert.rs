//! A capped insert into a full beam, ours beside 000's `insert_capped`, in one binary on one thread: first that both keep the same items, then the
//! time of each.
//!
//!     insert REPEATS
//!
//! A run is a full beam and as many items as it holds. They come in one after another, each at a place that is drawn, all places alike, so that each time
//! the worst leaves. A run is one call on either side, and begins with a copy of the full beam, which is counted. Ours is the function that a walk calls,
//! compiled by itself: in the library the compiler takes it into the walk. A third beam tells what the second shift costs: 000's, but moved once.
mod clock;
#[allow(dead_code)]
mod data;
#[path = "../oracle/ours.rs"]
#[allow(dead_code)]
mod ours;
#[allow(dead_code)]
mod unchecked;

use clock::best;
use data::Generator;
use diskann::probe::{Beam, Candidates};
use std::hint::black_box;
use std::iter::repeat;

/// The greatest distance, document 01.
const FARTHEST: usize = 16_646_400;
const RUNS: usize = 64;

/// A distance, and an id.
type Item = (u32, u32);

/// The best first.
struct Run {
    full: Vec<Item>,
    coming: Vec<Item>,
    kept: Vec<Item>,
}

impl Run {
    fn new(g: &mut Generator, cap: usize) -> Run {
        let full: Vec<Item> = (0..cap).map(|i| ((FARTHEST / cap * (i + 1)) as u32, i as u32)).collect();
        let (mut kept, mut coming) = (full.clone(), vec![]);
        while coming.len() < cap {
            let at = g.below(cap);
            let nearer = if at == 0 { 0 } else { kept[at - 1].0 };
            let between = (kept[at].0 - nearer) as usize;
            // two neighbours with no distance between them: another place
            if between > 1 {
                let item = (nearer + 1 + g.below(between - 1) as u32, (cap + coming.len()) as u32);
                kept.insert(at, item);
                kept.pop();
                coming.push(item);
            }
        }
        Run { full, coming, kept }
    }
}

/// Our key of an item whose row is still to be walked.
fn key(&(dist, id): &Item) -> u64 {
    u64::from(dist) << 32 | u64::from(2 * id + 1)
}

fn keys(items: &[Item]) -> Vec<u64> {
    items.iter().map(key).chain(repeat(u64::MAX)).take(256).collect()
}

/// The time of all runs by our walk's inserts, once they are known to keep what they should.
fn ours(runs: &[Run], cap: usize, repeats: usize) -> f64 {
    struct Given {
        full: Vec<u64>,
        bound: u64,
        ids: Vec<u32>,
        dists: Vec<u32>,
    }
    let given = |r: &Run| {
        let (dists, ids) = r.coming.iter().copied().unzip();
        Given { full: keys(&r.full), bound: u64::from(r.full[cap - 1].0) << 32, ids, dists }
    };
    let given: Vec<Given> = runs.iter().map(given).collect();
    let mut beam = keys(&[]);
    let insert = |beam: &mut [u64], g: &Given| {
        beam[..cap].copy_from_slice(&g.full[..cap]);
        black_box(unchecked::meet(beam, cap, cap, g.bound, &g.ids, &g.dists));
    };
    for (g, run) in given.iter().zip(runs) {
        insert(&mut beam, g);
        assert!(beam == keys(&run.kept), "what our beam keeps");
    }
    best(repeats, || given.iter().for_each(|g| insert(&mut beam, g)))
}

/// The same by 000's `insert_capped`.
fn theirs(runs: &[Run], cap: usize, repeats: usize) -> f64 {
    let given = |r: &Run| (Candidates::of(r.full.iter().rev().copied()), Candidates::of(r.coming.iter().copied()));
    let given: Vec<(Candidates, Candidates)> = runs.iter().map(given).collect();
    let mut beam = Beam::default();
    let insert = |beam: &mut Beam, (full, coming): &(Candidates, Candidates)| {
        beam.fill(full);
        beam.insert_each(coming, cap);
    };
    for (g, run) in given.iter().zip(runs) {
        insert(&mut beam, g);
        assert!(beam.items().rev().eq(run.kept.iter().copied()), "what 000's beam keeps");
    }
    best(repeats, || given.iter().for_each(|g| insert(&mut beam, g)))
}

/// 000's items, in its order and with its way to a place, but moved once: over the worst.
#[inline(never)]
fn insert_once(beam: &mut [(f32, u32)], coming: &[(f32, u32)]) {
    for &(dist, id) in coming {
        if dist < beam[0].0 {
            let at = beam.partition_point(|x| x.0 > dist || (x.0.to_bits() == dist.to_bits() && x.1 > id));
            beam.copy_within(1..at, 0);
            beam[at - 1] = (dist, id);
        }
    }
}

fn moved_once(runs: &[Run], cap: usize, repeats: usize) -> f64 {
    let floats = |items: &[Item]| items.iter().map(|&(dist, id)| (dist as f32, id)).collect::<Vec<_>>();
    let worst_first = |items: &[Item]| floats(items).into_iter().rev().collect::<Vec<_>>();
    let given: Vec<_> = runs.iter().map(|r| (worst_first(&r.full), floats(&r.coming))).collect();
    let mut beam = vec![(0.0, 0); cap];
    let insert = |beam: &mut [(f32, u32)], (full, coming): &(Vec<(f32, u32)>, Vec<(f32, u32)>)| {
        beam.copy_from_slice(full);
        insert_once(beam, coming);
    };
    for (g, run) in given.iter().zip(runs) {
        insert(&mut beam, g);
        assert!(beam == worst_first(&run.kept), "what a beam that is moved once keeps");
    }
    best(repeats, || given.iter().for_each(|g| insert(&mut beam, black_box(g))))
}

fn main() {
    let repeats = std::env::args().nth(1).and_then(|a| a.parse().ok()).expect("insert REPEATS");
    println!("a capped insert into a full beam, at any place: {RUNS} beams, as many inserts into each as it holds, best of {repeats}");
    for cap in [128, 256] {
        let mut g = Generator(cap as u64);
        let runs: Vec<Run> = (0..RUNS).map(|_| Run::new(&mut g, cap)).collect();
        let each = 1e9 / (RUNS * cap) as f64;
        let (ours, theirs) = (ours(&runs, cap, repeats) * each, theirs(&runs, cap, repeats) * each);
        let what = format!("one insert, beam {cap}");
        println!("{what:<28} ours {ours:>12.3} ns   000 {theirs:>12.3} ns   ratio {:.3}", ours / theirs);
        println!("{:<28} {:>17.3} ns", "  000's beam, moved once", moved_once(&runs, cap, repeats) * each);
    }
}
