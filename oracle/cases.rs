//! Random inputs around document 01's boundaries: many equal vectors and distances, samples at 255, rows of every length, limits touched.
use crate::ours::{Params, PAD};
use crate::tally::{note, note_if};
use diskann::probe;

pub struct Rng(pub u64);

impl Rng {
    pub fn next(&mut self) -> u64 {
        self.0 = self.0.wrapping_add(0x9E37_79B9_7F4A_7C15);
        let mut z = self.0;
        z = (z ^ (z >> 30)).wrapping_mul(0xBF58_476D_1CE4_E5B9);
        z = (z ^ (z >> 27)).wrapping_mul(0x94D0_49BB_1331_11EB);
        z ^ (z >> 31)
    }

    pub fn below(&mut self, m: usize) -> usize {
        (self.next() % m.max(1) as u64) as usize
    }

    pub fn pick<T: Copy>(&mut self, from: &[T]) -> T {
        from[self.below(from.len())]
    }

    /// k distinct numbers below n, none of `not`.
    pub fn distinct(&mut self, k: usize, n: usize, not: &[u32]) -> Vec<u32> {
        let mut out: Vec<u32> = Vec::new();
        let room = n - not.iter().filter(|&&x| (x as usize) < n).count();
        while out.len() < k.min(room) {
            let x = self.below(n) as u32;
            if !not.contains(&x) && !out.contains(&x) {
                out.push(x);
            }
        }
        out
    }

    pub fn shuffled(&mut self, n: usize) -> Vec<u32> {
        let mut v: Vec<u32> = (0..n as u32).collect();
        for i in (1..n).rev() {
            v.swap(i, self.below(i + 1));
        }
        v
    }
}

/// Not a number, 0.5, 1.0, 1.2, 1.25, 2.0, 4.0, minus infinity, -0.0, 3.7.
const ALPHAS: [u32; 10] =
    [0x7FC0_0000, 0x3F00_0000, 0x3F80_0000, 0x3F99_999A, 0x3FA0_0000, 0x4000_0000, 0x4080_0000, 0xFF80_0000, 0x8000_0000, 0x406C_CCCD];

pub struct Data {
    pub n: usize,
    pub dim: usize,
    pub vectors: Vec<u8>,
    pub params: Params,
    pub start: u32,
    /// Samples were set to 255, so a drawn query may have some too.
    pub saturated: bool,
}

impl Data {
    /// In a third of the cases with samples at 255; what draws vectors of its own does so before. Refused calls work out no distance and do without.
    pub fn clipped(mut self, r: &mut Rng) -> Data {
        self.saturated = clip(r, &mut self.vectors);
        note_silent(&self.vectors[..self.dim], &self.vectors);
        self
    }
}

/// One sample in so many at 255, drawn sample by sample, and one at least.
pub fn saturate(r: &mut Rng, samples: &mut [u8], one_in: usize) {
    samples[r.below(samples.len())] = 255;
    samples.iter_mut().filter(|_| r.below(one_in) == 0).for_each(|sample| *sample = 255);
}

/// Samples at 255 say nothing (5/13). In a third of the cases a tenth of them, half or all are, each as often; whether this is such a case.
pub fn clip(r: &mut Rng, samples: &mut [u8]) -> bool {
    let (one_in, what) = match r.below(9) {
        0 => (10, "a tenth of the samples at 255"),
        1 => (2, "half of the samples at 255"),
        2 => (1, "every sample at 255"),
        _ => return false,
    };
    saturate(r, samples, one_in);
    note(what);
    true
}

/// A drawn query of such a case: half of them have samples at 255 too, of a share of their own.
fn clip_query(r: &mut Rng, query: &mut [u8]) {
    if r.below(2) == 0 {
        let one_in = r.pick(&[10, 2, 1]);
        saturate(r, query, one_in);
        note("a drawn query with samples at 255");
    }
}

/// Whether an entry is another vector than this one and yet at distance 0 of it: they differ only where one of them is 255.
pub fn note_silent(vector: &[u8], entries: &[u8]) {
    let silent = |entry: &[u8]| entry != vector && probe::distance(vector, entry) == 0.0;
    note_if(entries.chunks(vector.len()).any(silent), "unequal vectors at distance 0");
}

/// Two vectors of a length, half of them as far apart as samples below 255 allow. One is clipped as entries are, the other as their query.
pub fn pair(r: &mut Rng, len: usize) -> (Vec<u8>, Vec<u8>) {
    let extremes = r.below(2) == 0;
    let mut bytes = || -> Vec<u8> { (0..len).map(|_| if extremes { r.pick(&[0, 254]) } else { r.next() as u8 }).collect() };
    let (mut entry, mut query) = (bytes(), bytes());
    if clip(r, &mut entry) {
        clip_query(r, &mut query);
    }
    if r.below(2) == 0 {
        (entry, query)
    } else {
        (query, entry)
    }
}

/// How many entries: 1 to 40, or 250 to 1,500 with many about 750, where pools are cut.
pub fn size(r: &mut Rng, large: bool) -> usize {
    match (large, r.below(4)) {
        (false, _) => 1 + r.below(40),
        (true, 0 | 1) => 749 + r.below(7),
        (true, 2) => 900 + r.below(601),
        (true, _) => 250 + r.below(1_251),
    }
}

fn alpha(r: &mut Rng) -> f32 {
    if r.below(4) > 0 {
        return f32::from_bits(r.pick(&ALPHAS));
    }
    let any = f32::from_bits(r.next() as u32);
    if any > 4.0 {
        1.2
    } else {
        any
    }
}

/// Samples from few values in half of the cases, so that distances are equal; some vectors are copies of others.
fn scattered(r: &mut Rng, n: usize) -> (usize, Vec<u8>) {
    let dim = match r.below(6) {
        0 => 1,
        1 => 2,
        2 => 1 + r.below(8),
        3 => 64,
        4 => 1 + r.below(40),
        _ => r.pick(&[16, 33, 128, 255, 256]),
    };
    let values: Vec<u8> = match r.below(4) {
        // the most that two samples can add: 255 would add nothing
        0 => vec![0, 254],
        1 => vec![100, 101, 102, 103, 110],
        _ => (0..=255).collect(),
    };
    let mut vectors: Vec<u8> = (0..n * dim).map(|_| r.pick(&values)).collect();
    for _ in 0..r.below(n) / 2 {
        let (a, b) = (r.below(n), r.below(n));
        vectors.copy_within(a * dim..(a + 1) * dim, b * dim);
    }
    (dim, vectors)
}

/// Nearly all entries in one heap, and a few far off, each in a direction of its own and often equally far. A pool's last entries are then
/// those that pruning keeps, so one place more or less at the cut shows in the row.
fn heap_and_far(r: &mut Rng, n: usize) -> (usize, Vec<u8>) {
    let dim = r.pick(&[3, 8, 64, 64]);
    let mut vectors = vec![0; n * dim];
    for i in 0..n {
        vectors[i * dim] = r.below(40) as u8;
        vectors[i * dim + 1] = r.below(40) as u8;
    }
    for _ in 0..1 + r.below(6) {
        let far = r.below(n) * dim;
        vectors[far + 2 + r.below(dim - 2)] = 254;
        if r.below(2) == 0 {
            vectors[far..far + 2].fill(20);
        }
    }
    (dim, vectors)
}

/// Two heaps as far apart as samples below 255 allow, two samples of each entry one off. Sums of such distances pass 2^24 and differ by less than a
/// rounding, so that the order in which they are added decides which is least.
pub fn near_scores(r: &mut Rng, n: usize) -> (usize, Vec<u8>) {
    let dim = 256;
    let mut vectors = Vec::with_capacity(n * dim);
    for i in 0..n {
        let high = r.below(2) == 0;
        vectors.resize((i + 1) * dim, if high { 254 } else { 0 });
        for _ in 0..2 {
            vectors[i * dim + r.below(dim)] = if high { 253 } else { 1 };
        }
    }
    (dim, vectors)
}

pub fn data(r: &mut Rng, n: usize) -> Data {
    let far = n > 200 && r.below(5) > 0;
    let (dim, vectors) = if far { heap_and_far(r, n) } else { scattered(r, n) };
    let degree = match r.below(4) {
        _ if far => r.pick(&[24, 64, 64, 64]),
        0 => 1 + r.below(4),
        1 => 64,
        _ => 1 + r.below(16),
    };
    let beam = match r.below(6) {
        _ if far && r.below(4) > 0 => 256,
        0 => 0,
        1 => 1,
        2 => 256,
        _ => 1 + r.below(24),
    };
    // seventeen searches for each node of a large case would take most of the run, so few large cases have them
    let extra = match r.below(8) {
        0 => 16,
        _ if n > 200 => r.below(3),
        _ => r.below(17),
    };
    let alpha = if far && r.below(2) == 0 { 1.2 } else { alpha(r) };
    let params = Params { degree, beam, alpha, extra: extra.min(n - 1) };
    let start = r.below(n) as u32;
    Data { n, dim, vectors, params, start, saturated: false }
}

/// As `data`, for the calls that look at every entry: up to 3,000 in a large case and in some small ones more than k may be; in a third of the
/// cases any dimension at all, with the samples of few values, so that most distances have an equal.
pub fn data_for_all(r: &mut Rng, n: usize) -> Data {
    let n = match r.below(12) {
        _ if n > 200 => 250 + r.below(2_751),
        0 => 250 + r.below(300),
        _ => n,
    };
    let mut d = data(r, n);
    if r.below(3) == 0 {
        d.dim = 1 + r.below(256);
        let values: Vec<u8> = (0..1 + r.below(4)).map(|_| r.next() as u8).collect();
        d.vectors = (0..n * d.dim).map(|_| r.pick(&values)).collect();
    }
    d
}

/// Data full of equal distances: samples of one to three values, and in half of the cases few different vectors, down to one; in a third of the cases
/// samples at 255 besides, so that copies differ and are as far as before or nearer. In a few small cases there are more entries than any beam holds.
pub fn tied(r: &mut Rng, n: usize) -> Data {
    let n = match r.below(60) {
        0 if n < 200 => 257 + r.below(60),
        _ => n,
    };
    let dim = match r.below(8) {
        0..=2 => 1,
        3 => 2,
        4 => r.pick(&[16, 64]),
        5 if r.below(8) == 0 => r.pick(&[255, 256]),
        _ => 1 + r.below(8),
    };
    // an even step, so that halfway between two values there is a sample as far from the one as from the other
    let (step, many) = (2 + 2 * r.below(30), r.pick(&[1, 2, 2, 2, 3, 3, 3, 3]));
    let first = r.below(255 - 2 * step);
    let mut vectors: Vec<u8> = (0..n * dim).map(|_| (first + step * r.below(many)) as u8).collect();
    let different = match r.below(8) {
        0 => 1,
        1..=3 => 2 + r.below(3),
        _ => n,
    };
    for i in different..n {
        let from = r.below(different) * dim;
        vectors.copy_within(from..from + dim, i * dim);
    }
    note(["one value of samples", "two values of samples", "three values of samples"][many - 1]);
    let degree = match r.below(4) {
        0 => 1 + r.below(2),
        1 if n < 200 => 64,
        _ => 2 + r.below(8),
    };
    let params = Params { degree, beam: 0, alpha: 1.0, extra: 0 };
    let start = r.below(n) as u32;
    let d = Data { n, dim, vectors, params, start, saturated: false }.clipped(r);
    note_if(n > 1 && d.vectors[dim..] == d.vectors[..(n - 1) * dim], "all vectors equal");
    d
}

/// An entry; halfway between two, sample by sample, and at 255 where one of them is, so that it is as far from the one as from the other; or any bytes.
pub fn tied_query(r: &mut Rng, d: &Data) -> Vec<u8> {
    let (kind, a, b) = (r.below(8), r.below(d.n) * d.dim, r.below(d.n) * d.dim);
    let halfway = |i| match (d.vectors[a + i], d.vectors[b + i]) {
        (255, _) | (_, 255) => 255,
        (x, y) => ((usize::from(x) + usize::from(y)) / 2) as u8,
    };
    let mut query: Vec<u8> = match kind {
        0..=2 => d.vectors[a..a + d.dim].to_vec(),
        3..=6 => (0..d.dim).map(halfway).collect(),
        _ => (0..d.dim).map(|_| r.next() as u8).collect(),
    };
    // samples at 255 add nothing to either distance, so what lies halfway still does
    if d.saturated && kind > 2 {
        clip_query(r, &mut query);
    }
    let is_entry = d.vectors.chunks(d.dim).any(|v| v == query);
    note(if is_entry { "the query is an entry" } else { "the query is no entry" });
    query
}

/// How many of the nearest: at its limits, about n, or few.
pub fn nearest_asked(r: &mut Rng, n: usize) -> usize {
    match r.below(7) {
        0 => 1,
        1 => 256,
        2 => n.min(256),
        3 => (n + 1).min(256),
        4 => 1 + r.below(256),
        _ => 1 + r.below(n.min(20)),
    }
}

/// What a case touches of document 01's limits.
pub fn note_limits(d: &Data) {
    let p = d.params;
    note_if(d.n == 1, "n 1");
    note_if(d.n > 751, "n above 751");
    note_if(d.dim == 1, "dim 1");
    note_if(d.dim == 256, "dim 256");
    note_if(p.degree == 1, "degree 1");
    note_if(p.degree == 64, "degree 64");
}

/// And of those of a build.
pub fn note_build_limits(d: &Data) {
    let p = d.params;
    note_limits(d);
    note_if(p.beam == 0, "beam 0");
    note_if(p.beam == 256, "beam 256");
    note_if(p.extra == 0, "extra seeds 0");
    note_if(p.extra == 16, "extra seeds 16");
    note_alpha(p.alpha);
}

pub fn note_alpha(alpha: f32) {
    note(match alpha {
        a if a.is_nan() => "alpha not a number",
        a if a < 1.0 => "alpha below 1",
        1.0 => "alpha 1.0",
        1.2 => "alpha 1.2",
        4.0 => "alpha 4.0",
        _ => "alpha another",
    });
}

/// Rows of the build rule, of lengths 0 up to `most`.
pub fn rows(r: &mut Rng, n: usize, most: usize) -> Vec<Vec<u32>> {
    let row = |i| {
        let k = match r.below(3) {
            0 => most,
            1 => 0,
            _ => r.below(most + 1),
        };
        r.distinct(k, n, &[i as u32])
    };
    (0..n).map(row).collect()
}

pub fn flat(rows: &[Vec<u32>], width: usize) -> Vec<u32> {
    let padded = |row: &Vec<u32>| {
        let mut words = row.clone();
        words.resize(width, PAD);
        words
    };
    rows.iter().flat_map(padded).collect()
}

/// Any words that the search rule admits: padding anywhere, repeats, own ids.
pub fn searched(r: &mut Rng, n: usize, degree: usize) -> Vec<u32> {
    let word = |_| if r.below(4) == 0 { PAD } else { r.below(n) as u32 };
    (0..n * degree).map(word).collect()
}

/// Any words at all: a third of them no ids, from n itself up to the last before padding.
pub fn strayed(r: &mut Rng, n: usize, degree: usize) -> Vec<u32> {
    let lawful = searched(r, n, degree);
    let stray = |word| match r.below(12) {
        0 => n as u32,
        1 => (n + r.below(2 * n)) as u32,
        2 => PAD - 1,
        3 => (r.next() as u32).max(n as u32),
        _ => word,
    };
    lawful.into_iter().map(stray).collect()
}

/// A table as lookup reads it.
pub fn cleaned(n: usize, table: &[u32]) -> Vec<u32> {
    table.iter().map(|&word| if (word as usize) < n { word } else { PAD }).collect()
}

/// Whether every word is padding or an id below n.
pub fn is_searchable(n: usize, table: &[u32]) -> bool {
    table.iter().all(|&word| word == PAD || (word as usize) < n)
}

/// Groups of seeds for so many nodes.
pub fn seeds(r: &mut Rng, d: &Data, count: usize) -> Vec<u32> {
    (0..count).flat_map(|_| r.distinct(d.params.extra, d.n, &[d.start])).collect()
}

/// An entry, or any bytes.
pub fn query(r: &mut Rng, d: &Data) -> Vec<u8> {
    if r.below(3) == 0 {
        let i = r.below(d.n);
        return d.vectors[i * d.dim..(i + 1) * d.dim].to_vec();
    }
    let mut query: Vec<u8> = (0..d.dim).map(|_| r.next() as u8).collect();
    if d.saturated {
        clip_query(r, &mut query);
    }
    query
}
