//! Refused calls: an accepted call with one or two faults. The lower number is returned, and nothing that was lent differs.
//! 000 has no refusals, so what is expected here is document 01's table, with 14 and the queries of 11 from 1/13.
use crate::cases::*;
use crate::lent::{pattern, reads, with, Lent};
use crate::must;
use crate::ours::{self, slack, Answer, Params, Report, DONE, PAD};
use crate::tally::note;

/// The lowest number among the faults made so far; 0 before the first.
#[derive(Default)]
struct Lowest(u32);

impl Lowest {
    fn fault(&mut self, number: u32) {
        note(format!("fault {number:>2}"));
        self.0 = if self.0 == 0 { number } else { number.min(self.0) };
    }

    fn check(&self, got: Answer, kept: bool) {
        note(format!("refused {:>2}", self.0));
        must(ours::same(got, Answer { number: self.0, ..DONE }), "refusal: number");
        must(kept, "refusal: nothing lent differs");
    }

    fn check_report(&self, got: Report, kept: bool) {
        note(format!("refused {:>2}", self.0));
        must(got == Report { number: self.0, queries: 0, asked: 0, found: 0, whole: 0 }, "refusal: number");
        must(kept, "refusal: nothing lent differs");
    }
}

/// A word more, or a word fewer.
fn other(r: &mut Rng, len: usize) -> usize {
    if r.below(2) == 0 {
        len + 1
    } else {
        len - 1
    }
}

/// What batch, close, whole build, medoid and search share; each call takes the faults that concern it.
struct Shared {
    n: usize,
    dim: usize,
    vectors: Vec<u8>,
    /// The right length of the vectors. A second fault must not undo a first, so each is made from what is right.
    bytes: usize,
    params: Params,
    start: u32,
}

fn shared(d: &Data) -> Shared {
    Shared { n: d.n, dim: d.dim, vectors: d.vectors.clone(), bytes: d.vectors.len(), params: d.params, start: d.start }
}

impl Shared {
    fn fault(&mut self, r: &mut Rng, number: u32, low: &mut Lowest) {
        let n = self.n;
        match number {
            1 => self.dim = r.pick(&[0, 257, usize::MAX]),
            2 => match r.below(2) {
                0 => self.n = r.pick(&[0, 65_537, usize::MAX]),
                _ => self.vectors.resize(other(r, self.bytes), 0),
            },
            3 => self.params.degree = r.pick(&[0, 65, usize::MAX]),
            4 => self.params.beam = r.pick(&[257, usize::MAX]),
            5 => self.params.alpha = f32::from_bits(r.pick(&[0x4080_0001, 0x7F80_0000, 0x42C8_0000])),
            6 => self.start = r.pick(&[n as u32, u32::MAX]),
            _ => unreachable!("a fault of one call alone"),
        }
        low.fault(number);
    }
}

/// Too many a node, too few or too many in all, or one that may not stand in its group.
fn spoil_seeds(r: &mut Rng, d: &Data, s: &mut Shared, seeds: &mut Vec<u32>, nodes: usize) {
    let extra = d.params.extra;
    let right = nodes * extra;
    let i = r.below(seeds.len());
    match r.below(4) {
        0 if right > 0 => seeds.resize(other(r, right), 0),
        1 if !seeds.is_empty() => seeds[i] = r.pick(&[d.n as u32, d.start, u32::MAX]),
        2 if extra > 1 && seeds.len() == right => seeds[i / extra * extra] = seeds[i / extra * extra + 1],
        _ => s.params.extra = r.pick(&[17, d.n, usize::MAX]),
    }
}

/// An entry that breaks the build rule: not below n, its own row's, a repeat, or behind padding.
fn spoil_row(r: &mut Rng, n: usize, width: usize, table: &mut [u32]) {
    if table.is_empty() {
        return;
    }
    let i = r.below(table.len());
    let row = i / width * width;
    match r.below(4) {
        0 => table[i] = n as u32,
        1 if i > row && table[i - 1] != PAD => table[i] = table[i - 1],
        // a table that is also too short may end within the row
        2 if i + 1 < row + width && table.get(i + 1).is_some_and(|&word| word != PAD) => table[i] = PAD,
        _ => table[i] = (i / width) as u32,
    }
}

/// A build's stated room, or a word less of either kind.
fn room(r: &mut Rng, n: usize, short: bool) -> (Lent<u32>, Lent<f32>) {
    let (mut words, mut floats) = (6 * n + 32_768, 4 * n + 1_024);
    match r.below(2) {
        _ if !short => {}
        0 => words -= 1,
        _ => floats -= 1,
    }
    (pattern(r, words), pattern(r, floats))
}

pub fn distance(r: &mut Rng, _: usize) {
    let first = r.pick(&[0, 1, 64, 256, 257, 1_000]);
    let lengths = [0, 1, 64, 255, 256, 257, first];
    let refused = |second: &usize| first == 0 || first > 256 || first != *second;
    let second = r.pick(&lengths.into_iter().filter(refused).collect::<Vec<_>>());
    let (a, b) = (vec![7; first], vec![9; second]);
    let mut low = Lowest::default();
    if first == 0 || first > 256 {
        low.fault(1);
    }
    if first != second {
        low.fault(11);
    }
    low.check(reads(&[&a, &b], &[], || ours::distance(&a, &b)), true);
}

pub fn medoid(r: &mut Rng, n: usize) {
    let d = data(r, n);
    let mut s = shared(&d);
    let mut pivots: Vec<u32> = (0..1 + r.below(8)).map(|_| r.below(n) as u32).collect();
    let mut low = Lowest::default();
    for _ in 0..1 + r.below(2) {
        match r.pick(&[1, 2, 12]) {
            12 => {
                match r.below(3) {
                    0 => pivots.clear(),
                    1 => pivots = vec![0; r.pick(&[9, 10, 100])],
                    _ => pivots.push(r.pick(&[n as u32, u32::MAX])),
                }
                low.fault(12);
            }
            number => s.fault(r, number, &mut low),
        }
    }
    low.check(reads(&[&s.vectors], &[&pivots], || ours::medoid(s.n, s.dim, &s.vectors, &pivots)), true);
}

pub fn batch(r: &mut Rng, n: usize) {
    // a batch of 257 distinct nodes needs as many entries
    let many = r.below(12) == 0;
    let n = if many { 257 + r.below(40) } else { n };
    let d = data(r, n);
    let width = slack(d.params.degree);
    let mut table = flat(&rows(r, n, width.min(n - 1)), width);
    let count = if many { 257 } else { 1 + r.below(n) };
    let mut nodes = r.distinct(count, n, &[]);
    let mut seeds = seeds(r, &d, nodes.len());
    let mut s = shared(&d);
    let mut short = false;
    let mut low = Lowest::default();
    if many {
        low.fault(9);
        note("257 nodes");
    }
    for _ in 0..1 + r.below(2) {
        match 1 + r.below(10) as u32 {
            7 => {
                spoil_seeds(r, &d, &mut s, &mut seeds, count);
                low.fault(7);
            }
            8 => {
                match r.below(2) {
                    0 => spoil_row(r, n, width, &mut table),
                    _ => table.resize(other(r, n * width), PAD),
                }
                low.fault(8);
            }
            9 => {
                let i = r.below(nodes.len());
                nodes[i] = if nodes.len() > 1 && r.below(2) == 0 { nodes[(i + 1) % nodes.len()] } else { n as u32 };
                low.fault(9);
            }
            10 => {
                short = true;
                low.fault(10);
            }
            number => s.fault(r, number, &mut low),
        }
    }
    let mut wide = with(r, &table, table.len());
    let (mut words, mut floats) = room(r, n, short);
    let call = ours::Build { n: s.n, dim: s.dim, vectors: &s.vectors, params: s.params, start: s.start, order: &nodes, seeds: &seeds };
    let got = reads(&[&s.vectors], &[&nodes, &seeds], || ours::batch(call, wide.lend(), words.lend(), floats.lend()));
    low.check(got, wide.kept() && words.kept() && floats.kept());
}

pub fn open(r: &mut Rng, n: usize) {
    let degree = 1 + r.below(64);
    let mut opening = flat(&rows(r, n, degree.min(n - 1)), degree);
    let (mut count, mut wide_len, mut given) = (n, n * slack(degree), degree);
    let mut low = Lowest::default();
    for _ in 0..1 + r.below(2) {
        match r.below(5) {
            0 => {
                count = r.pick(&[0, 65_537, usize::MAX]);
                low.fault(2);
            }
            1 => {
                given = r.pick(&[0, 65, usize::MAX]);
                low.fault(3);
            }
            2 => {
                spoil_row(r, n, degree, &mut opening);
                low.fault(8);
            }
            3 => {
                opening.resize(other(r, n * degree), PAD);
                low.fault(8);
            }
            _ => {
                wide_len = other(r, n * slack(degree));
                low.fault(8);
            }
        }
    }
    let mut wide = pattern(r, wide_len);
    let got = reads(&[], &[&opening], || ours::open(count, given, &opening, wide.lend()));
    low.check(got, wide.kept());
}

pub fn close(r: &mut Rng, n: usize) {
    let d = data(r, n);
    let (degree, width) = (d.params.degree, slack(d.params.degree));
    let mut wide = flat(&rows(r, n, width.min(n - 1)), width);
    let mut closed_len = n * degree;
    let mut s = shared(&d);
    // 4 and 7 do not concern close
    s.params.beam = r.next() as usize;
    s.params.extra = r.next() as usize;
    let mut short = false;
    let mut low = Lowest::default();
    for _ in 0..1 + r.below(2) {
        match r.pick(&[1, 2, 3, 5, 8, 10]) {
            8 => {
                match r.below(3) {
                    0 => spoil_row(r, n, width, &mut wide),
                    1 => wide.resize(other(r, n * width), PAD),
                    _ => closed_len = other(r, n * degree),
                }
                low.fault(8);
            }
            10 => {
                short = true;
                low.fault(10);
            }
            number => s.fault(r, number, &mut low),
        }
    }
    let mut closed = pattern(r, closed_len);
    let (mut words, mut floats) = room(r, n, short);
    let call = ours::Close { n: s.n, dim: s.dim, vectors: &s.vectors, params: s.params, wide: &wide };
    let got = reads(&[&s.vectors], &[&wide], || ours::close(call, closed.lend(), words.lend(), floats.lend()));
    low.check(got, closed.kept() && words.kept() && floats.kept());
}

pub fn build(r: &mut Rng, n: usize) {
    let d = data(r, n);
    let (degree, width) = (d.params.degree, slack(d.params.degree));
    let mut opening = flat(&rows(r, n, degree.min(n - 1)), degree);
    let mut order = r.shuffled(n);
    let mut seeds = seeds(r, &d, n);
    let (mut wide_len, mut closed_len) = (n * width, n * degree);
    let mut s = shared(&d);
    let mut short = false;
    let mut low = Lowest::default();
    for _ in 0..1 + r.below(2) {
        match 1 + r.below(10) as u32 {
            7 => {
                spoil_seeds(r, &d, &mut s, &mut seeds, n);
                low.fault(7);
            }
            8 => {
                match r.below(4) {
                    0 => spoil_row(r, n, degree, &mut opening),
                    1 => opening.resize(other(r, n * degree), PAD),
                    2 => wide_len = other(r, n * width),
                    _ => closed_len = other(r, n * degree),
                }
                low.fault(8);
            }
            9 => {
                match r.below(3) {
                    0 if order.len() > 1 => order[0] = order[order.len() - 1],
                    1 if !order.is_empty() => order[0] = n as u32,
                    _ => drop(order.pop()),
                }
                low.fault(9);
            }
            10 => {
                short = true;
                low.fault(10);
            }
            number => s.fault(r, number, &mut low),
        }
    }
    let (mut wide, mut closed) = (pattern(r, wide_len), pattern(r, closed_len));
    let (mut words, mut floats) = room(r, n, short);
    let call = ours::Build { n: s.n, dim: s.dim, vectors: &s.vectors, params: s.params, start: s.start, order: &order, seeds: &seeds };
    let lent = || ours::build(call, &opening, wide.lend(), closed.lend(), words.lend(), floats.lend());
    let got = reads(&[&s.vectors], &[&order, &seeds, &opening], lent);
    low.check(got, wide.kept() && closed.kept() && words.kept() && floats.kept());
}

#[derive(Clone, Copy, PartialEq)]
enum Call {
    Search,
    Records,
    Lookup,
}

pub fn search(r: &mut Rng, n: usize) {
    any_search(r, n, Call::Search);
}

pub fn records(r: &mut Rng, n: usize) {
    any_search(r, n, Call::Records);
}

/// 8 concerns the table's length alone; and where every word is lawful, a search is refused by the same number.
pub fn lookup(r: &mut Rng, n: usize) {
    any_search(r, n, Call::Lookup);
}

fn any_search(r: &mut Rng, n: usize, call: Call) {
    let d = data(r, n);
    let degree = d.params.degree;
    let stray = call == Call::Lookup && r.below(2) == 0;
    let mut table = if stray { strayed(r, n, degree) } else { searched(r, n, degree) };
    let mut query = query(r, &d);
    let mut s = shared(&d);
    s.params.beam = r.below(30);
    let k = 1 + r.below(30);
    let most = k.min(s.params.beam.max(1));
    let (mut words_len, mut floats_len, mut ids_len, mut dists_len, mut run_len) = (n + 512, 512, most, most, most);
    let mut low = Lowest::default();
    for _ in 0..1 + r.below(2) {
        match r.pick(&[1, 2, 3, 4, 6, 8, 10, 11]) {
            8 => {
                let i = r.below(table.len());
                match r.below(2) {
                    0 if !table.is_empty() && call != Call::Lookup => table[i] = r.pick(&[n as u32, u32::MAX - 1]),
                    _ => table.resize(other(r, n * degree), PAD),
                }
                low.fault(8);
            }
            10 => {
                match r.below(4 + usize::from(call == Call::Records)) {
                    0 => words_len = n + 511,
                    1 => floats_len = 511,
                    2 => ids_len = most - 1,
                    3 => dists_len = most - 1,
                    _ => run_len = most - 1,
                }
                low.fault(10);
            }
            11 => {
                query.resize(other(r, d.dim), 0);
                low.fault(11);
            }
            number => s.fault(r, number, &mut low),
        }
    }
    let given = ours::Search {
        n: s.n,
        dim: s.dim,
        vectors: &s.vectors,
        degree: s.params.degree,
        beam: s.params.beam,
        k,
        start: s.start,
        table: &table,
        query: &query,
    };
    let mut refuse = |call: Call| {
        let (mut words, mut floats) = (pattern(r, words_len), pattern(r, floats_len));
        let (mut ids, mut dists) = (pattern(r, ids_len), pattern(r, dists_len));
        let mut run = pattern(r, run_len);
        let got = reads(&[&s.vectors, &query], &[&table], || match call {
            Call::Search => ours::search(given, words.lend(), floats.lend(), ids.lend(), dists.lend()),
            Call::Records => ours::records(given, words.lend(), floats.lend(), ids.lend(), dists.lend(), run.lend()),
            Call::Lookup => ours::lookup(given, words.lend(), floats.lend(), ids.lend(), dists.lend()),
        });
        low.check(got, words.kept() && floats.kept() && ids.kept() && dists.kept() && run.kept());
    };
    refuse(call);
    if call == Call::Lookup && is_searchable(s.n, &table) {
        note("a lawful table");
        refuse(Call::Search);
    }
}

/// An unlawful k. Above n it asks for no more room than n, and 0 asks for none.
fn bad_k(r: &mut Rng) -> usize {
    r.pick(&[0, 257, 65_536, usize::MAX])
}

pub fn exhaustive(r: &mut Rng, n: usize) {
    let d = data_for_all(r, n);
    let (n, mut k, mut query) = (d.n, nearest_asked(r, d.n), query(r, &d));
    let mut s = shared(&d);
    let mut low = Lowest::default();
    let mut short = None;
    for _ in 0..1 + r.below(2) {
        match r.pick(&[1, 2, 10, 11, 14]) {
            10 => {
                short = Some(r.below(2));
                low.fault(10);
            }
            11 => {
                query.resize(other(r, d.dim), 0);
                low.fault(11);
            }
            14 => {
                k = bad_k(r);
                low.fault(14);
            }
            number => s.fault(r, number, &mut low),
        }
    }
    // no output is too short for k 0
    if short.is_some() && k == 0 {
        k = 257;
    }
    let lent = |which| k.min(n) - usize::from(short == Some(which));
    let (mut ids, mut dists) = (pattern(r, lent(0)), pattern(r, lent(1)));
    // a fault in n alters what is asked for: then 2 comes first
    let call = ours::Exhaustive { n: s.n, dim: s.dim, vectors: &s.vectors, k, query: &query };
    let got = reads(&[&s.vectors, &query], &[], || ours::exhaustive(call, ids.lend(), dists.lend()));
    low.check(got, ids.kept() && dists.kept());
}

/// Queries that are refused: a byte more or fewer, so no multiple of dim, or one more than there may be.
fn bad_queries(r: &mut Rng, d: &Data, queries: &mut Vec<u8>, count: usize) {
    let right = count * d.dim;
    match r.below(16) {
        0 if d.dim < 9 => {
            note("65,536 queries");
            queries.resize(65_536 * d.dim, 0);
        }
        _ if d.dim == 1 => queries.resize(65_536 + r.below(2), 0),
        _ if right > 0 => queries.resize(other(r, right), 0),
        _ => queries.resize(1 + r.below(d.dim - 1), 0),
    }
}

pub fn report(r: &mut Rng, n: usize) {
    let d = data_for_all(r, n);
    let (n, degree) = (d.n, d.params.degree);
    let mut table = searched(r, n, degree);
    let (mut k, count) = (nearest_asked(r, n), r.below(5));
    let mut queries: Vec<u8> = (0..count).flat_map(|_| query(r, &d)).collect();
    let mut s = shared(&d);
    s.params.beam = r.below(30);
    let (mut words_len, mut floats_len) = (n + 1_024, 1_024);
    let mut low = Lowest::default();
    for _ in 0..1 + r.below(2) {
        match r.pick(&[1, 2, 3, 4, 6, 8, 10, 11, 14]) {
            8 => {
                let i = r.below(table.len());
                match r.below(2) {
                    0 if !table.is_empty() => table[i] = r.pick(&[n as u32, u32::MAX - 1]),
                    _ => table.resize(other(r, n * degree), PAD),
                }
                low.fault(8);
            }
            10 => {
                match r.below(2) {
                    0 => words_len = n + r.pick(&[1_023, 512]),
                    _ => floats_len = r.pick(&[1_023, 512]),
                }
                low.fault(10);
            }
            11 => {
                bad_queries(r, &d, &mut queries, count);
                low.fault(11);
            }
            14 => {
                k = bad_k(r);
                low.fault(14);
            }
            number => s.fault(r, number, &mut low),
        }
    }
    let given = ours::Recall {
        n: s.n,
        dim: s.dim,
        vectors: &s.vectors,
        degree: s.params.degree,
        beam: s.params.beam,
        k,
        start: s.start,
        table: &table,
        queries: &queries,
    };
    let (mut words, mut floats) = (pattern(r, words_len), pattern(r, floats_len));
    let got = reads(&[&s.vectors, &queries], &[&table], || ours::report(given, words.lend(), floats.lend()));
    low.check_report(got, words.kept() && floats.kept());
}

/// The number of a table: each of 2, 3 and 8 by one fault or two, and 0 by none.
pub fn fit(r: &mut Rng, n: usize) {
    let degree = 1 + r.below(64);
    let mut table = searched(r, n, degree);
    let (mut count, mut given) = (n, degree);
    let mut low = Lowest::default();
    for _ in 0..r.below(3) {
        match r.below(4) {
            0 => {
                count = r.pick(&[0, 65_537, usize::MAX]);
                low.fault(2);
            }
            1 => {
                given = r.pick(&[0, 65, usize::MAX]);
                low.fault(3);
            }
            2 if !table.is_empty() => {
                let i = r.below(table.len());
                table[i] = r.pick(&[n as u32, u32::MAX - 1]);
                low.fault(8);
            }
            _ => {
                table.resize(other(r, n * degree), PAD);
                low.fault(8);
            }
        }
    }
    low.check(reads(&[], &[&table], || ours::fit(count, given, &table)), true);
}
