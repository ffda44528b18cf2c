//! What is measured on: entries of 64 bytes in clusters, drawn by document 01's generator, and so are opening rows, order, seeds and pivots. The
//! parameters are 000's defaults: degree 64, beam 128, alpha 1.2, one extra seed.
use crate::ours::{self, Params, PAD};

pub const DIM: usize = 64;
pub const PARAMS: Params = Params { degree: 64, beam: 128, alpha: 1.2, extra: 1 };

/// Document 01, part 10.
pub struct Generator(pub u64);

impl Generator {
    pub fn below(&mut self, m: usize) -> usize {
        self.0 = self.0.wrapping_mul(6_364_136_223_846_793_005).wrapping_add(1_442_695_040_888_963_407);
        (((self.0 >> 32) * m as u64) >> 32) as usize
    }

    /// Opening row i: one draw, then ids in a run from there.
    pub fn row(&mut self, i: usize, n: usize, degree: usize) -> Vec<u32> {
        let r = self.below(n - 1);
        (0..degree.min(n - 1)).map(|j| ((i + 1 + (r + j) % (n - 1)) % n) as u32).collect()
    }

    fn order(&mut self, n: usize) -> Vec<u32> {
        let mut order: Vec<u32> = (0..n as u32).collect();
        for i in (1..n).rev() {
            order.swap(i, self.below(i + 1));
        }
        order
    }

    /// A group of one seed: the first from r on that is not the start.
    fn seed(&mut self, n: usize, start: u32) -> u32 {
        let r = self.below(n) as u32;
        if r == start {
            (r + 1) % n as u32
        } else {
            r
        }
    }
}

/// Cluster centres; an entry or a query is a centre with each sample moved by -12 to 12.
struct Clusters(Vec<u8>);

impl Clusters {
    fn new(g: &mut Generator, count: usize) -> Clusters {
        Clusters((0..count * DIM).map(|_| 16 + g.below(224) as u8).collect())
    }

    fn entry(&self, g: &mut Generator) -> Vec<u8> {
        let c = g.below(self.0.len() / DIM);
        self.0[c * DIM..(c + 1) * DIM].iter().map(|&x| x - 12 + g.below(25) as u8).collect()
    }
}

pub struct Input {
    pub n: usize,
    pub vectors: Vec<u8>,
    pub queries: Vec<Vec<u8>>,
    pub pivots: Vec<u32>,
    pub start: u32,
    pub order: Vec<u32>,
    pub seeds: Vec<u32>,
    pub rows: Vec<Vec<u32>>,
}

pub fn input(n: usize, queries: usize) -> Input {
    let mut g = Generator(n as u64);
    let clusters = Clusters::new(&mut g, (n / 100).max(8));
    let vectors: Vec<u8> = (0..n).flat_map(|_| clusters.entry(&mut g)).collect();
    let queries = (0..queries).map(|_| clusters.entry(&mut g)).collect();
    let pivots: Vec<u32> = (0..8).map(|_| g.below(n) as u32).collect();
    let start = ours::medoid(n, DIM, &vectors, &pivots).id;
    let rows = (0..n).map(|i| g.row(i, n, PARAMS.degree)).collect();
    let order = g.order(n);
    let seeds = (0..n).map(|_| g.seed(n, start)).collect();
    Input { n, vectors, queries, pivots, start, order, seeds, rows }
}

pub fn flat(rows: &[Vec<u32>], width: usize) -> Vec<u32> {
    rows.iter().flat_map(|row| row.iter().copied().chain(std::iter::repeat(PAD)).take(width)).collect()
}

/// The closed table of a whole build, by the proved library.
pub fn built(i: &Input) -> Vec<u32> {
    let n = i.n;
    let call = ours::Build { n, dim: DIM, vectors: &i.vectors, params: PARAMS, start: i.start, order: &i.order, seeds: &i.seeds };
    let opening = flat(&i.rows, PARAMS.degree);
    let (mut wide, mut closed) = (vec![0; n * ours::slack(PARAMS.degree)], vec![0; n * PARAMS.degree]);
    let (mut words, mut floats) = (vec![0; 6 * n + 32_768], vec![0.0; 4 * n + 1_024]);
    assert_eq!(ours::build(call, &opening, &mut wide, &mut closed, &mut words, &mut floats), ours::DONE);
    closed
}
