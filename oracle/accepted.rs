//! Accepted calls, each beside 000 on the same input: the answer, every lent word, and nothing else altered.
use crate::cases::*;
use crate::lent::{pattern, reads, with, Lent};
use crate::must;
use crate::ours::{self, slack, Answer, Candidate, Params, DONE};
use crate::recall;
use crate::tally::{note, note_if};
use diskann::probe::{self, Walk};
use std::cmp::Ordering;

fn params(p: Params) -> probe::Params {
    probe::Params { degree: p.degree, beam: p.beam, alpha: p.alpha, extra: p.extra }
}

/// Words beyond the stated room are lent too, and must stay as they are.
const MORE: usize = 3;

/// The room of a batch, close or whole build.
struct Room {
    words: Lent<u32>,
    floats: Lent<f32>,
}

fn room(r: &mut Rng, n: usize) -> Room {
    Room { words: pattern(r, 6 * n + 32_768 + MORE), floats: pattern(r, 4 * n + 1_024 + MORE) }
}

impl Room {
    fn cleared(&self, n: usize) -> bool {
        self.words.cleared(6 * n + 32_768) && self.floats.cleared(4 * n + 1_024)
    }
}

pub fn distance(r: &mut Rng, _: usize) {
    let len = r.pick(&[1, 2, 7, 8, 9, 15, 16, 17, 31, 32, 63, 64, 65, 255, 256]);
    let (a, b) = pair(r, len);
    note(format!("length {len}"));
    note_silent(&a, &b);
    let got = reads(&[&a, &b], &[], || ours::distance(&a, &b));
    must(ours::same(got, Answer { distance: probe::distance(&a, &b), ..DONE }), "distance");
}

pub fn medoid(r: &mut Rng, n: usize) {
    let mut d = data(r, n);
    let near = r.below(4) == 0;
    if near {
        (d.dim, d.vectors) = near_scores(r, n);
    }
    let d = d.clipped(r);
    note_if(near && !d.saturated, "scores a rounding apart");
    let pivots: Vec<u32> = (0..1 + r.below(8)).map(|_| r.below(n) as u32).collect();
    note_if(n == 1, "n 1");
    note_if(d.dim == 1, "dim 1");
    note_if(d.dim == 256, "dim 256");
    note(format!("{} pivots", pivots.len()));
    let want = probe::medoid(n, d.dim, &d.vectors, &pivots) as u32;
    let got = reads(&[&d.vectors], &[&pivots], || ours::medoid(n, d.dim, &d.vectors, &pivots));
    must(ours::same(got, Answer { id: want, ..DONE }), "medoid");
}

/// The calls that search: alone, with a run of records beside the two outputs, or without a pass over the table.
#[derive(Clone, Copy, PartialEq)]
enum Call {
    Search,
    Records,
    Lookup,
}

/// What a search wrote, or left.
struct Searched {
    answer: Answer,
    words: Lent<u32>,
    floats: Lent<f32>,
    ids: Lent<u32>,
    dists: Lent<f32>,
    run: Lent<Candidate>,
}

/// One call on room and outputs of no meaning.
fn call_on(r: &mut Rng, call: Call, s: ours::Search) -> Searched {
    let most = s.k.min(s.beam.max(1));
    let (mut words, mut floats) = (pattern(r, s.n + 512 + MORE), pattern(r, 512 + MORE));
    let (mut ids, mut dists) = (pattern(r, most + MORE), pattern(r, most + MORE));
    let mut run = pattern(r, most + MORE);
    let answer = reads(&[s.vectors, s.query], &[s.table], || match call {
        Call::Search => ours::search(s, words.lend(), floats.lend(), ids.lend(), dists.lend()),
        Call::Records => ours::records(s, words.lend(), floats.lend(), ids.lend(), dists.lend(), run.lend()),
        Call::Lookup => ours::lookup(s, words.lend(), floats.lend(), ids.lend(), dists.lend()),
    });
    Searched { answer, words, floats, ids, dists, run }
}

/// 000's own answers, as many as the beam holds, in our order, and its counts.
fn walk_of_000(d: &Data, table: &[u32], query: &[u8], beam: usize) -> Walk {
    let (n, dim, degree, start) = (d.n, d.dim, d.params.degree, d.start);
    // 000 would follow a word that is no id, so it has the table as lookup reads it: the table itself, where every word is one or padding
    let read = cleaned(n, table);
    let walk = probe::walk(probe::Search { dim, vectors: &d.vectors, degree, table: &read, query, start, beam });
    note_if(walk.expanded == 0, "nothing expanded");
    note_if(walk.measured > beam.max(1), "more measured than the beam holds");
    note_if(n > 1 && walk.measured == n, "every entry measured");
    note_silent(query, &d.vectors);
    walk
}

/// One call, whose answers must be the first k of 000's, and its counts 000's.
fn call_beside(r: &mut Rng, call: Call, given: ours::Search, walk: &Walk) {
    let (want_ids, want_dists): (Vec<u32>, Vec<f32>) = walk.answers.iter().copied().take(given.k).unzip();
    let records = want_ids.iter().zip(&want_dists).map(|(&id, &distance)| Candidate { id, distance });
    let want_run: Vec<Candidate> = records.filter(|_| call == Call::Records).collect();
    let want = Answer { count: want_ids.len(), expanded: walk.expanded, measured: walk.measured, ..DONE };
    let got = call_on(r, call, given);
    must(ours::same(got.answer, want), "search: answer");
    must(got.ids.begins(&want_ids) && got.dists.begins(&want_dists), "search: answers, and nothing beyond them");
    must(got.run.begins(&want_run), "search: records, and nothing beyond them");
    must(got.words.cleared(given.n + 512) && got.floats.cleared(512), "search: room");
}

fn search_on(r: &mut Rng, d: &Data, table: &[u32], call: Call) {
    let (n, dim, degree, start) = (d.n, d.dim, d.params.degree, d.start);
    let beam = match r.below(5) {
        0 => 0,
        1 => 256,
        _ => 1 + r.below(40),
    };
    let query = query(r, d);
    let walk = walk_of_000(d, table, &query, beam);
    let want = &walk.answers;
    // k = beam is 000's own answer; another k cuts that list, and of equals at the cut the higher ids stay
    let k = match r.below(4) {
        0 => r.below(beam + 3),
        1 => 100_000,
        _ => beam.max(1),
    };
    note_if(beam == 0, "search beam 0");
    note_if(beam == 256, "search beam 256");
    note_if(k == 0, "k 0");
    note_if(k >= beam.max(1), "k as the beam or above");
    note_if(want.len() == beam, "as many answers as the beam");
    note_if(want.windows(2).any(|w| w[0].1 == w[1].1), "equal distances among answers");
    let given = ours::Search { n, dim, vectors: &d.vectors, degree, beam, k, start, table, query: &query };
    call_beside(r, call, given, &walk);
}

fn any_search(r: &mut Rng, n: usize, call: Call) {
    let d = data(r, n).clipped(r);
    let table = searched(r, n, d.params.degree);
    note_limits(&d);
    search_on(r, &d, &table, call);
}

/// A search of any words that the search rule admits.
pub fn search(r: &mut Rng, n: usize) {
    any_search(r, n, Call::Search);
}

/// The same, with the run of records.
pub fn records(r: &mut Rng, n: usize) {
    any_search(r, n, Call::Records);
}

/// A lookup in any words at all, or in words that the search rule admits: then a search has the same answers, since both have 000's.
pub fn lookup(r: &mut Rng, n: usize) {
    let d = data(r, n).clipped(r);
    let degree = d.params.degree;
    let table = if r.below(4) == 0 { searched(r, n, degree) } else { strayed(r, n, degree) };
    note_limits(&d);
    let lawful = is_searchable(n, &table);
    note(if lawful { "a lawful table" } else { "stray words" });
    search_on(&mut Rng(r.0), &d, &table, Call::Lookup);
    if lawful {
        search_on(r, &d, &table, Call::Search);
    }
}

fn note_asked(n: usize, k: usize) {
    note_if(k == 1, "k 1");
    note_if(k == 256, "k 256");
    note_if(k == n, "k = n");
    note_if(k > n, "k above n");
    note_if(k < n, "k below n");
}

/// The k nearest of all entries, beside all distances sorted and cut.
pub fn exhaustive(r: &mut Rng, n: usize) {
    let d = data_for_all(r, n).clipped(r);
    let n = d.n;
    let (k, query) = (nearest_asked(r, n), query(r, &d));
    let all = recall::nearest(d.dim, &d.vectors, n, &query);
    note_limits(&d);
    note_asked(n, k);
    note_silent(&query, &d.vectors);
    note_if(all.windows(2).take(k).any(|w| w[0].1 == w[1].1), "equal distances among the nearest");
    note_if(k < n && all[k - 1].1 == all[k].1, "equal distances at the cut");
    exhaustive_beside(r, &d, k, &query);
}

fn exhaustive_beside(r: &mut Rng, d: &Data, k: usize, query: &[u8]) {
    let (n, dim) = (d.n, d.dim);
    let (want_ids, want_dists): (Vec<u32>, Vec<f32>) = recall::nearest(dim, &d.vectors, k, query).into_iter().unzip();
    let more = r.below(3) * MORE;
    let (mut ids, mut dists) = (pattern(r, k.min(n) + more), pattern(r, k.min(n) + more));
    let call = ours::Exhaustive { n, dim, vectors: &d.vectors, k, query };
    let got = reads(&[&d.vectors, query], &[], || ours::exhaustive(call, ids.lend(), dists.lend()));
    must(ours::same(got, Answer { count: k.min(n), ..DONE }), "exhaustive: answer");
    must(ids.begins(&want_ids) && dists.begins(&want_dists), "exhaustive: the nearest, and nothing beyond them");
}

/// A table that leads far: the rows of `searched`, or rows that each name the next entry, so that a search finds its way.
fn led(r: &mut Rng, d: &Data) -> Vec<u32> {
    let (n, degree) = (d.n, d.params.degree);
    let mut table = searched(r, n, degree);
    if r.below(2) == 0 {
        (0..n).for_each(|i| table[i * degree] = ((i + 1) % n) as u32);
    }
    table
}

/// How many of the nearest a search of each query brings, beside 000's own answers and all distances sorted and cut.
pub fn report(r: &mut Rng, n: usize) {
    let d = data_for_all(r, n).clipped(r);
    let (n, dim, degree, start) = (d.n, d.dim, d.params.degree, d.start);
    let table = led(r, &d);
    let k = nearest_asked(r, n);
    let beam = match r.below(6) {
        0 => 0,
        1 => 256,
        2 => k,
        3 => k - 1,
        _ => 1 + r.below(40),
    };
    let count = match r.below(6) {
        0 => 0,
        1 => 1,
        _ => 2 + r.below(if n > 200 { 8 } else { 16 }),
    };
    let queries: Vec<u8> = (0..count).flat_map(|_| query(r, &d)).collect();
    let call = ours::Recall { n, dim, vectors: &d.vectors, degree, beam, k, start, table: &table, queries: &queries };
    let hits = recall::hits(call);
    let want = recall::report(call, &hits);
    note_limits(&d);
    note_asked(n, k);
    note_if(beam == 0, "search beam 0");
    note_if(beam == 256, "search beam 256");
    note_if(beam < k, "a beam below k");
    note_if(count == 0, "no queries");
    note_if(count == 1, "one query");
    note_if(want.whole > 0, "a query with all found");
    note_if(hits.contains(&0), "a query with none found");
    note_if(hits.iter().any(|h| h + 1 == k.min(n)), "a query with one missing");
    report_beside(r, call, want);
}

fn report_beside(r: &mut Rng, call: ours::Recall, want: ours::Report) {
    let n = call.n;
    let more = r.below(3) * MORE;
    let (mut words, mut floats) = (pattern(r, n + 1_024 + more), pattern(r, 1_024 + more));
    let got = reads(&[call.vectors, call.queries], &[call.table], || ours::report(call, words.lend(), floats.lend()));
    must(got == want, "report: the four numbers");
    must(words.cleared(n + 1_024) && floats.cleared(1_024), "report: room");
}

/// At its limits, or one that mostly fills.
fn tied_beam(r: &mut Rng, n: usize) -> usize {
    match r.below(12) {
        0 => 0,
        1 => 1,
        2 => 2,
        3 => 256,
        _ => 2 + r.below(n.min(60)),
    }
}

/// Below the beam, as it, or above it, a third each; below, half of them cut what 000 found.
fn tied_k(r: &mut Rng, beam: usize, found: usize) -> usize {
    match r.below(6) {
        0 => r.below(beam.max(1)),
        1 => r.below(found),
        2 | 3 => beam.max(1),
        4 => beam.max(1) + 1 + r.below(3),
        _ => r.pick(&[257, 100_000, usize::MAX]),
    }
}

fn note_ties(listed: &[(u32, f32)], beam: usize, k: usize) {
    let equal = |w: &[(u32, f32)]| w.iter().all(|p| p.1 == w[0].1);
    note(match k.cmp(&beam.max(1)) {
        Ordering::Less => "k below the beam",
        Ordering::Equal => "k at the beam",
        Ordering::Greater => "k above the beam",
    });
    note_if(k == 0, "k 0");
    note_if(beam == 0, "search beam 0");
    note_if(beam == 1, "search beam 1");
    note_if(beam == 256, "search beam 256");
    note_if(listed.len() == beam, "as many answers as the beam");
    note_if(k > 0 && k < listed.len() && equal(&listed[k - 1..=k]), "the cut divides equals");
    note_if(listed.windows(3).any(equal), "a run of three or more equals");
    note_if(listed.len() > 1 && equal(listed), "all answers equally far");
}

/// Data full of equals: every call that lists answers, and the report of one query, on the same input.
pub fn ties(r: &mut Rng, n: usize) {
    let d = tied(r, n);
    let (n, dim, degree, start) = (d.n, d.dim, d.params.degree, d.start);
    let table = led(r, &d);
    let query = tied_query(r, &d);
    let beam = tied_beam(r, n);
    let walk = walk_of_000(&d, &table, &query, beam);
    let k = tied_k(r, beam, walk.answers.len());
    note_limits(&d);
    note_ties(&walk.answers, beam, k);
    let given = ours::Search { n, dim, vectors: &d.vectors, degree, beam, k, start, table: &table, query: &query };
    [Call::Search, Call::Records, Call::Lookup].into_iter().for_each(|call| call_beside(r, call, given, &walk));
    // the other two take no k but 1 to 256
    let k = k.clamp(1, 256);
    let all = recall::nearest(dim, &d.vectors, n, &query);
    note_if(k < n && all[k - 1].1 == all[k].1, "the cut of all entries divides equals");
    exhaustive_beside(r, &d, k, &query);
    let call = ours::Recall { n, dim, vectors: &d.vectors, degree, beam, k, start, table: &table, queries: &query };
    report_beside(r, call, recall::report(call, &recall::hits(call)));
}

pub fn batch(r: &mut Rng, n: usize) {
    let d = data(r, n).clipped(r);
    let count = match r.below(4) {
        0 => n.min(256),
        1 if n < 200 => 0,
        _ => r.below(n.min(256) + 1),
    };
    batch_beside(r, &d, count);
}

/// A batch of so many nodes, on rows of any length.
fn batch_beside(r: &mut Rng, d: &Data, count: usize) {
    let (n, s) = (d.n, slack(d.params.degree));
    let rows = rows(r, n, s.min(n - 1));
    let nodes = r.distinct(count, n, &[]);
    let seeds = seeds(r, d, nodes.len());
    note_build_limits(d);
    note_if(count == 0, "batch of no nodes");
    note_if(count == 256, "batch of 256");
    let mut wide = with(r, &flat(&rows, s), n * s);
    let b =
        probe::Build { n, dim: d.dim, vectors: &d.vectors, params: params(d.params), start: d.start, order: &nodes, seeds: &seeds, rows };
    let (want, _) = probe::build(b, probe::Bytes);
    probe::forget_close();
    let mut room = room(r, n);
    let call = ours::Build { n, dim: d.dim, vectors: &d.vectors, params: d.params, start: d.start, order: &nodes, seeds: &seeds };
    let got = reads(&[&d.vectors], &[&nodes, &seeds], || ours::batch(call, wide.lend(), room.words.lend(), room.floats.lend()));
    must(ours::same(got, DONE), "batch: answer");
    must(wide.begins(&flat(&want, s)), "batch: wide table");
    must(room.cleared(n), "batch: room");
}

pub fn open(r: &mut Rng, n: usize) {
    let degree = r.pick(&[1, 2, 3, 10, 33, 63, 64]);
    let s = slack(degree);
    let opening = rows(r, n, degree.min(n - 1));
    note_if(n == 1, "n 1");
    note(format!("degree {degree}"));
    // 000 copies its opening rows as they are, so its wide table is these rows
    let mut wide = pattern(r, n * s);
    let closed = flat(&opening, degree);
    let got = reads(&[], &[&closed], || ours::open(n, degree, &closed, wide.lend()));
    must(ours::same(got, DONE), "open: answer");
    must(wide.begins(&flat(&opening, s)), "open: wide table");
}

pub fn close(r: &mut Rng, n: usize) {
    let d = data(r, n).clipped(r);
    let (degree, s) = (d.params.degree, slack(d.params.degree));
    let rows = rows(r, n, s.min(n - 1));
    note_limits(&d);
    note_alpha(d.params.alpha);
    let wide = flat(&rows, s);
    let b = probe::Build { n, dim: d.dim, vectors: &d.vectors, params: params(d.params), start: d.start, order: &[], seeds: &[], rows };
    let (_, want) = probe::build(b, probe::Bytes);
    let mut closed = pattern(r, n * degree);
    let mut room = room(r, n);
    // close ignores the record's beam and extra seeds
    let odd = Params { beam: r.next() as usize, extra: r.next() as usize, ..d.params };
    let call = ours::Close { n, dim: d.dim, vectors: &d.vectors, params: odd, wide: &wide };
    let got = reads(&[&d.vectors], &[&wide], || ours::close(call, closed.lend(), room.words.lend(), room.floats.lend()));
    must(ours::same(got, DONE), "close: answer");
    must(closed.begins(&flat(&want, degree)), "close: closed table");
    must(room.cleared(n), "close: room");
}

pub fn build(r: &mut Rng, n: usize) {
    let d = data(r, n).clipped(r);
    build_beside(r, &d);
}

/// A whole build, and a search of what it built.
fn build_beside(r: &mut Rng, d: &Data) {
    let (n, degree, s) = (d.n, d.params.degree, slack(d.params.degree));
    let rows = rows(r, n, degree.min(n - 1));
    let opening = flat(&rows, degree);
    let order = r.shuffled(n);
    let seeds = seeds(r, d, n);
    note_build_limits(d);
    let b =
        probe::Build { n, dim: d.dim, vectors: &d.vectors, params: params(d.params), start: d.start, order: &order, seeds: &seeds, rows };
    let (want_wide, want_closed) = probe::build(b, probe::Bytes);
    let (mut wide, mut closed) = (pattern(r, n * s), pattern(r, n * degree));
    let mut room = room(r, n);
    let call = ours::Build { n, dim: d.dim, vectors: &d.vectors, params: d.params, start: d.start, order: &order, seeds: &seeds };
    let lent = || ours::build(call, &opening, wide.lend(), closed.lend(), room.words.lend(), room.floats.lend());
    let got = reads(&[&d.vectors], &[&order, &seeds, &opening], lent);
    must(ours::same(got, DONE), "build: answer");
    must(wide.begins(&flat(&want_wide, s)), "build: wide table");
    must(closed.begins(&flat(&want_closed, degree)), "build: closed table");
    must(room.cleared(n), "build: room");
    let table = closed.lend().to_vec();
    search_on(r, d, &table, Call::Search);
    search_on(r, d, &table, Call::Lookup);
}

/// As many searches as a call can make: 16 extra seeds for each node. A batch of all entries, or of 256, and a build, which has two to four runs in
/// a large case: the marks of one run are then those of the next.
pub fn walks(r: &mut Rng, n: usize) {
    let n = if n > 200 { 257 + r.below(700) } else { 17 + r.below(30) };
    let mut d = data(r, n).clipped(r);
    d.params.extra = 16;
    d.params.beam = r.pick(&[0, 1, 2, 8, 24]);
    note_if(n > 512, "a build of three runs or more");
    batch_beside(r, &d, n.min(256));
    build_beside(r, &d);
}
