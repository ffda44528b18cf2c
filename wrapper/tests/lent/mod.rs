//! A search, exhaustive too, a report, a build, a batch and a close with all that they are lent: each slice holds a pattern, and guard words behind the room that is asked for.
#![allow(dead_code)]

use fjalgrout::{
    batch, build, build_room, close, exhaustive, fit, lookup, most_answers, most_nearest, report, report_room, search, search_records, search_room, slack,
    Candidate, Found, Params, Refusal, Report, Scratch, Table, Vectors, Wanted, PADDING,
};

pub const LINE: [u8; 4] = [10, 20, 30, 40];
pub const LINE_ROWS: [u32; 8] = [1, PADDING, 0, 2, 1, 3, 2, PADDING];
pub const LINE_WIDE: [u32; 12] = [1, PADDING, PADDING, 0, 2, PADDING, 1, 3, PADDING, 2, PADDING, PADDING];
pub const PATTERN: u32 = 0x5A5A_5A5A;
const GUARDS: usize = 4;

pub fn vectors(n: usize, dim: usize, bytes: &[u8]) -> Vectors<'_> {
    Vectors { n, dim, bytes }
}

fn words(count: usize) -> Vec<u32> {
    vec![PATTERN; count + GUARDS]
}

fn holds_pattern(words: &[u32]) -> bool {
    words.iter().all(|&word| word == PATTERN)
}

/// The bits of a float at a place: NaNs, quiet and signalling, of both signs and with payloads, and a plain number. No contract tells one NaN from
/// another; here they are compared by their bits.
fn odd(place: usize) -> u32 {
    [0x7FA0_0001, 0xFF80_0001, 0x7FC1_2345, PATTERN, u32::MAX][place % 5]
}

fn floats(count: usize) -> Vec<f32> {
    (0..count + GUARDS).map(|place| f32::from_bits(odd(place))).collect()
}

fn bits(floats: &[f32]) -> Vec<u32> {
    floats.iter().map(|f| f.to_bits()).collect()
}

/// From a place on, the floats are as they were.
fn odd_from(place: usize, floats: &[f32]) -> bool {
    bits(floats)[place..].iter().enumerate().all(|(i, &word)| word == odd(place + i))
}

fn is_zero(words: &[u32]) -> bool {
    words.iter().all(|&word| word == 0)
}

#[derive(Clone, Debug)]
pub struct Search {
    pub n: usize,
    pub dim: usize,
    pub bytes: Vec<u8>,
    pub degree: usize,
    pub beam: usize,
    pub k: usize,
    pub start: u32,
    pub rows: Vec<u32>,
    pub query: Vec<u8>,
    /// How much is taken away from the words, the floats, the ids and the distances.
    pub short: [usize; 4],
}

pub fn line_search(query: u8, beam: usize, k: usize) -> Search {
    Search {
        n: 4,
        dim: 1,
        bytes: LINE.to_vec(),
        degree: 2,
        beam,
        k,
        start: 0,
        rows: LINE_ROWS.to_vec(),
        query: vec![query],
        short: [0; 4],
    }
}

/// Which of the calls that search.
enum Asked<'a> {
    Search,
    Lookup,
    Records(&'a mut [Candidate]),
}

impl Search {
    /// By the search; and where it takes the table, or refuses before it looks at its words, the lookup must do the same.
    pub fn answers(&self) -> Result<Vec<(u32, f32)>, Refusal> {
        let given = self.given(Asked::Search);
        if given != Err(Refusal(8)) || fit(self.n, self.degree, &self.rows).is_ok() {
            assert_eq!(self.given(Asked::Lookup), given, "the lookup");
        }
        given.map(|(_, answers)| answers)
    }

    pub fn looked_up(&self) -> Result<Vec<(u32, f32)>, Refusal> {
        self.given(Asked::Lookup).map(|(_, answers)| answers)
    }

    /// With a run of so many records, which is looked at too.
    pub fn answers_in(&self, run: usize) -> Result<Vec<(u32, f32)>, Refusal> {
        let mut records: Vec<Candidate> = floats(run).into_iter().map(|distance| Candidate { id: PATTERN, distance }).collect();
        let given = self.given(Asked::Records(&mut records[..run])).map(|(_, answers)| answers);
        let answers = given.clone().unwrap_or_default();
        let (ids, distances): (Vec<u32>, Vec<f32>) = records.iter().map(|c| (c.id, c.distance)).unzip();
        assert!(answers.iter().zip(&records).all(|(a, c)| *a == (c.id, c.distance)), "the answers as records");
        assert!(
            holds_pattern(&ids[answers.len()..]) && odd_from(answers.len(), &distances),
            "records beyond the answers"
        );
        given
    }

    /// How many entries were expanded and how many measured: by the lookup, and where a search takes the table, by it and with records too.
    pub fn counts(&self) -> (usize, usize) {
        let by = |asked| self.given(asked).map(|(found, _)| (found.expanded, found.measured)).unwrap();
        let counts = by(Asked::Lookup);
        if fit(self.n, self.degree, &self.rows).is_ok() {
            let mut run = vec![Candidate { id: 0, distance: 0.0 }; most_answers(self.beam, self.k)];
            assert_eq!(by(Asked::Search), counts, "the search");
            assert_eq!(by(Asked::Records(&mut run)), counts, "the search with records");
        }
        counts
    }

    /// What holds of every search. A beam of two or more has room behind the start, so that the start is expanded.
    fn is_bounded(&self, found: Found) -> bool {
        let Found { count, expanded, measured } = found;
        count.max(expanded).max(1) <= measured && measured <= self.n.min(1 + self.degree * expanded) && (expanded == 0) == (self.beam < 2)
    }

    /// What the call returns and its answers, once every word that it was lent has been looked at.
    fn given(&self, asked: Asked) -> Result<(Found, Vec<(u32, f32)>), Refusal> {
        let n = self.bytes.len() / self.dim.clamp(1, 256);
        let (room, most) = (search_room(n), most_answers(self.beam, self.k));
        let (mut w, mut f, mut ids, mut dists) = (words(room.words), floats(room.floats), words(most), floats(most));
        let scratch = Scratch {
            words: &mut w[..room.words - self.short[0]],
            floats: &mut f[..room.floats - self.short[1]],
        };
        let table = Table {
            degree: self.degree,
            start: self.start,
            rows: &self.rows,
        };
        let wanted = Wanted { beam: self.beam, k: self.k };
        let out = (&mut ids[..most - self.short[2]], &mut dists[..most - self.short[3]]);
        let v = vectors(self.n, self.dim, &self.bytes);
        let given = match asked {
            Asked::Search => search(v, table, wanted, &self.query, scratch, out.0, out.1),
            Asked::Lookup => lookup(v, table, wanted, &self.query, scratch, out.0, out.1),
            Asked::Records(run) => search_records(v, table, wanted, &self.query, scratch, out.0, out.1, run),
        };
        assert!(given.map_or(true, |found| self.is_bounded(found)), "the counts' bounds");
        let count = given.map_or(0, |found| found.count);
        assert!(holds_pattern(&ids[count..]) && odd_from(count, &dists), "outputs beyond the answers");
        let used = if given.is_ok() { (room.words, room.floats) } else { (0, 0) };
        assert!(is_zero(&w[..used.0]) && is_zero(&bits(&f[..used.1])), "room left zero");
        assert!(
            holds_pattern(&w[used.0..]) && odd_from(used.1, &f),
            "scratch beyond the room, or of a refused call"
        );
        given.map(|found| (found, ids.into_iter().zip(dists).take(count).collect()))
    }
}

#[derive(Clone, Debug)]
pub struct Nearest {
    pub n: usize,
    pub dim: usize,
    pub bytes: Vec<u8>,
    pub k: usize,
    pub query: Vec<u8>,
    /// How much is taken away from the ids and the distances.
    pub short: [usize; 2],
}

pub fn line_nearest(query: u8, k: usize) -> Nearest {
    Nearest {
        n: 4,
        dim: 1,
        bytes: LINE.to_vec(),
        k,
        query: vec![query],
        short: [0; 2],
    }
}

impl Nearest {
    /// The answers of the call, once every word that it was lent has been looked at.
    pub fn answers(&self) -> Result<Vec<(u32, f32)>, Refusal> {
        let most = most_nearest(self.bytes.len() / self.dim.clamp(1, 256), self.k);
        let (mut ids, mut dists) = (words(most), floats(most));
        let v = vectors(self.n, self.dim, &self.bytes);
        let out = (&mut ids[..most - self.short[0]], &mut dists[..most - self.short[1]]);
        let given = exhaustive(v, self.k, &self.query, out.0, out.1);
        let count = *given.as_ref().unwrap_or(&0);
        assert!(holds_pattern(&ids[count..]) && odd_from(count, &dists), "outputs beyond the answers");
        given.map(|count| ids.into_iter().zip(dists).take(count).collect())
    }
}

/// A report over a search's vectors and table, whose query holds all the queries; of what is taken away, the first two count.
pub fn reported(s: &Search) -> Result<Report, Refusal> {
    let room = report_room(s.bytes.len() / s.dim.clamp(1, 256));
    let (mut w, mut f) = (words(room.words), floats(room.floats));
    let scratch = Scratch {
        words: &mut w[..room.words - s.short[0]],
        floats: &mut f[..room.floats - s.short[1]],
    };
    let table = Table {
        degree: s.degree,
        start: s.start,
        rows: &s.rows,
    };
    let given = report(vectors(s.n, s.dim, &s.bytes), table, Wanted { beam: s.beam, k: s.k }, &s.query, scratch);
    let used = if given.is_ok() { (room.words, room.floats) } else { (0, 0) };
    assert!(is_zero(&w[..used.0]) && is_zero(&bits(&f[..used.1])), "room left zero");
    assert!(
        holds_pattern(&w[used.0..]) && odd_from(used.1, &f),
        "scratch beyond the room, or of a refused call"
    );
    given
}

/// What is called with a [`Build`]: a whole build of its opening rows; or a batch, with the order for its nodes, or a close, of its wide rows.
#[derive(Clone, Copy, Debug, PartialEq, Eq)]
pub enum Call {
    Whole,
    Batch,
    Close,
}

#[derive(Clone, Debug)]
pub struct Build {
    pub n: usize,
    pub dim: usize,
    pub bytes: Vec<u8>,
    pub params: Params,
    pub start: u32,
    pub order: Vec<u32>,
    pub seeds: Vec<u32>,
    pub opening: Vec<u32>,
    pub wide: Vec<u32>,
    /// How much is taken away from the wide table, the closed one, the words and the floats.
    pub short: [usize; 4],
}

pub fn line_build() -> Build {
    Build {
        n: 4,
        dim: 1,
        bytes: LINE.to_vec(),
        params: Params {
            degree: 2,
            beam: 8,
            alpha: 1.2,
            extra: 1,
        },
        start: 0,
        order: vec![3, 1, 0, 2],
        seeds: vec![1, 2, 3, 1],
        opening: LINE_ROWS.to_vec(),
        wide: LINE_WIDE.to_vec(),
        short: [0; 4],
    }
}

impl Build {
    /// The closed table of a whole build.
    pub fn table(&self) -> Result<Vec<u32>, Refusal> {
        self.given(Call::Whole)
    }

    /// What the call writes, closed table or, for a batch, wide one, once every word that it was lent has been looked at.
    pub fn given(&self, call: Call) -> Result<Vec<u32>, Refusal> {
        let n = self.opening.len() / self.params.degree.clamp(1, 64);
        let (room, wide_words, closed_words) = (build_room(n), n * slack(self.params.degree), n * self.params.degree);
        let (mut w, mut f, mut wide, mut closed) = (words(room.words), floats(room.floats), words(wide_words), words(closed_words));
        if call != Call::Whole {
            wide = self.wide.iter().copied().chain(words(0)).collect();
        }
        let (wide_end, wide_before) = (wide.len() - GUARDS - self.short[0], wide.clone());
        let scratch = Scratch {
            words: &mut w[..room.words - self.short[2]],
            floats: &mut f[..room.floats - self.short[3]],
        };
        let tables = (&mut wide[..wide_end], &mut closed[..closed_words - self.short[1]]);
        let v = vectors(self.n, self.dim, &self.bytes);
        let given = match call {
            Call::Whole => build(v, self.params, self.start, &self.order, &self.seeds, &self.opening, tables.0, tables.1, scratch),
            Call::Batch => batch(v, self.params, self.start, &self.order, &self.seeds, tables.0, scratch),
            Call::Close => close(v, self.params, tables.0, tables.1, scratch),
        };
        let done = given.is_ok();
        let written = |by: [Call; 2], count: usize| if done && by.contains(&call) { count } else { 0 };
        let (wide_used, closed_used) = (written([Call::Whole, Call::Batch], wide_end), written([Call::Whole, Call::Close], closed_words));
        let used = if done { (room.words, room.floats) } else { (0, 0) };
        assert!(is_zero(&w[..used.0]) && is_zero(&bits(&f[..used.1])), "room left zero");
        assert!(
            wide[wide_used..] == wide_before[wide_used..] && holds_pattern(&closed[closed_used..]),
            "words beyond a table, or of a refused call"
        );
        assert!(
            holds_pattern(&w[used.0..]) && odd_from(used.1, &f),
            "scratch beyond the room, or of a refused call"
        );
        wide.truncate(wide_words);
        closed.truncate(closed_words);
        given.map(|()| if call == Call::Batch { wide } else { closed })
    }
}
