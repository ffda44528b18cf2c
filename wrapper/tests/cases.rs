//! The cases of docs/01-scope.md that a public call shows, with their outcomes; those of recall, 1/13; of equal distances, as 3/13 lists them; of saturated
//! samples, 5/13; and a search's counts, 10/13.

mod lent;

use fjalgrout::{batch, build, build_room, distance, medoid, slack, Generator, Params, Refusal, Report, Scratch, PADDING};
use lent::{line_nearest, line_search, reported, vectors, Nearest, Search, LINE};

#[test]
fn distances() {
    assert_eq!(distance(&[0], &[254]), Ok(64_516.0));
    assert_eq!(distance(&[0; 256], &[254; 256]), Ok(16_516_096.0));
    assert_eq!(distance(&[0; 257], &[254; 257]), Err(Refusal(1)));
}

/// A sample that is 255 in either vector adds nothing, wherever it stands; the others add what they did.
#[test]
fn saturated_samples() {
    assert_eq!(distance(&[0], &[255]), Ok(0.0));
    assert_eq!(distance(&[0, 3, 255], &[255, 7, 9]), Ok(16.0));
    assert_eq!(distance(&[255; 256], &[0; 256]), Ok(0.0));
    for dim in [1, 15, 16, 17, 31, 32, 64, 100, 256] {
        for place in 0..dim {
            let with = |sample, base| {
                let mut vector = vec![base; dim];
                vector[place] = sample;
                vector
            };
            let rest = dim as f32 - 1.0;
            assert_eq!(distance(&with(255, 0), &vec![1; dim]), Ok(rest));
            assert_eq!(distance(&vec![0; dim], &with(255, 1)), Ok(rest));
            assert_eq!(distance(&with(255, 0), &with(255, 1)), Ok(rest));
            assert_eq!(distance(&vec![0; dim], &with(254, 1)), Ok(rest + 64_516.0));
        }
    }
    assert_eq!(line_search(255, 4, 4).answers(), Ok(vec![(3, 0.0), (2, 0.0), (1, 0.0), (0, 0.0)]));
}

#[test]
fn the_line() {
    assert_eq!(line_search(38, 2, 2).answers(), Ok(vec![(3, 4.0), (2, 64.0)]));
    assert_eq!(line_search(38, 1, 2).answers(), Ok(vec![(0, 784.0)]));
    assert_eq!(line_search(38, 0, 2).answers(), Ok(vec![(0, 784.0)]));
    assert_eq!(line_search(38, 8, 8).answers(), Ok(vec![(3, 4.0), (2, 64.0), (1, 324.0), (0, 784.0)]));
    assert_eq!(line_search(25, 4, 4).answers(), Ok(vec![(2, 25.0), (1, 25.0), (3, 225.0), (0, 225.0)]));
    assert_eq!(line_search(38, 2, 0).answers(), Ok(vec![]));
}

/// The line with its last entry moved to the query.
fn bent(beam: usize, k: usize) -> Search {
    Search {
        bytes: vec![10, 20, 30, 25],
        ..line_search(25, beam, k)
    }
}

/// A word that is no id below n reads as padding: the row goes on behind it, and where it stood for the way on, the rest is out of reach.
#[test]
fn a_stray_word_in_a_lookup() {
    let mut call = line_search(38, 8, 8);
    let all = vec![(3, 4.0), (2, 64.0), (1, 324.0), (0, 784.0)];
    assert_eq!(call.looked_up(), Ok(all.clone()));
    call.rows[2] = 7;
    assert_eq!(call.looked_up(), Ok(all));
    call.rows[3] = 4;
    assert_eq!(call.looked_up(), Ok(vec![(1, 324.0), (0, 784.0)]));
    assert_eq!(call.counts(), (2, 2));
    call.rows.fill(PADDING - 1);
    assert_eq!(call.looked_up(), Ok(vec![(0, 784.0)]));
    assert_eq!(call.counts(), (1, 1));
}

/// Entry 3 at 0 is missed: the walk stops before it.
#[test]
fn an_entry_that_is_missed() {
    assert_eq!(bent(2, 2).answers(), Ok(vec![(2, 25.0), (1, 25.0)]));
}

/// Entries expanded, and measured. k alters neither.
#[test]
fn what_a_search_takes() {
    assert_eq!(line_search(38, 2, 2).counts(), (4, 4));
    assert_eq!(line_search(38, 2, 0).counts(), (4, 4));
    assert_eq!(line_search(38, 1, 2).counts(), (0, 1));
    assert_eq!(line_search(38, 0, 2).counts(), (0, 1));
    // entry 3 fills the beam as its worst: it is not expanded
    assert_eq!(line_search(25, 4, 4).counts(), (3, 4));
    // entry 2 is measured and not expanded, entry 3 neither
    assert_eq!(bent(2, 2).counts(), (2, 3));
    assert_eq!(bent(8, 1).counts(), (4, 4));
}

/// A k above the beam brings no more than the beam, though the rows lead to four.
#[test]
fn more_asked_than_the_beam() {
    assert_eq!(bent(1, 8).answers(), Ok(vec![(0, 225.0)]));
    assert_eq!(bent(8, 8).answers(), Ok(vec![(3, 0.0), (2, 25.0), (1, 25.0), (0, 225.0)]));
}

/// The line and query 25, cut at every k: within the first run of equals, behind it, within the second, and above the beam; by search, lookup and as records.
#[test]
fn equals_at_the_cut() {
    let all = [(2, 25.0), (1, 25.0), (3, 225.0), (0, 225.0)];
    for k in 0..=5 {
        let want = Ok(all[..k.min(4)].to_vec());
        assert_eq!(line_search(25, 4, k).answers(), want, "k {k}");
        assert_eq!(line_search(25, 4, k).answers_in(5), want, "records, k {k}");
    }
}

/// Four equal vectors: one run. A beam of 2 is full with entries 0 and 1, and an equal does not come in.
#[test]
fn all_vectors_equal() {
    let alike = |beam, k| Search {
        bytes: vec![20; 4],
        ..line_search(20, beam, k)
    };
    assert_eq!(alike(4, 4).answers(), Ok(vec![(3, 0.0), (2, 0.0), (1, 0.0), (0, 0.0)]));
    assert_eq!(alike(4, 2).answers(), Ok(vec![(3, 0.0), (2, 0.0)]));
    assert_eq!(alike(2, 2).answers(), Ok(vec![(1, 0.0), (0, 0.0)]));
    let nearest = Nearest {
        bytes: vec![20; 4],
        ..line_nearest(20, 2)
    };
    assert_eq!(nearest.answers(), Ok(vec![(3, 0.0), (2, 0.0)]));
}

/// Entries 0 and 1 are as far from 25, and 2 is there. Entry 0 leads to both others, which lead nowhere.
const BESIDES: [u8; 4] = [20, 30, 25, 40];

fn besides(beam: usize, k: usize) -> Search {
    let mut rows = vec![PADDING; 8];
    rows[..2].copy_from_slice(&[1, 2]);
    Search {
        bytes: BESIDES.to_vec(),
        rows,
        ..line_search(25, beam, k)
    }
}

/// A full beam keeps the lower id of two equals, as 000 does, though answers have the higher first, and so has the search of all entries.
#[test]
fn what_a_full_beam_keeps() {
    let all = vec![(2, 0.0), (1, 25.0), (0, 25.0)];
    assert_eq!(besides(2, 2).answers(), Ok(vec![all[0], all[2]]));
    assert_eq!(besides(3, 3).answers(), Ok(all.clone()));
    assert_eq!(besides(3, 2).answers(), Ok(all[..2].to_vec()));
    let nearest = Nearest {
        bytes: BESIDES.to_vec(),
        ..line_nearest(25, 2)
    };
    assert_eq!(nearest.answers(), Ok(all[..2].to_vec()));
    // entry 0 is as near as 1 and is not among the nearest
    assert_eq!(reported(&besides(2, 2)), counts(1, 2, 1, 0));
    assert_eq!(reported(&besides(3, 2)), counts(1, 2, 2, 1));
}

#[test]
fn the_nearest_of_the_line() {
    assert_eq!(line_nearest(38, 2).answers(), Ok(vec![(3, 4.0), (2, 64.0)]));
    assert_eq!(line_nearest(25, 2).answers(), Ok(vec![(2, 25.0), (1, 25.0)]));
    let all = vec![(2, 25.0), (1, 25.0), (3, 225.0), (0, 225.0)];
    // of equals at the cut the higher id; k as n, and above it
    assert_eq!(line_nearest(25, 1).answers(), Ok(all[..1].to_vec()));
    assert_eq!(line_nearest(25, 3).answers(), Ok(all[..3].to_vec()));
    assert_eq!(line_nearest(25, 4).answers(), Ok(all.clone()));
    assert_eq!(line_nearest(25, 256).answers(), Ok(all));
    let missed = Nearest {
        bytes: vec![10, 20, 30, 25],
        ..line_nearest(25, 2)
    };
    assert_eq!(missed.answers(), Ok(vec![(3, 0.0), (2, 25.0)]));
}

/// The line with queries 25 and 38.
fn line_report(beam: usize, k: usize) -> Search {
    Search {
        query: vec![25, 38],
        ..line_search(0, beam, k)
    }
}

fn counts(queries: usize, asked: usize, found: usize, whole: usize) -> Result<Report, Refusal> {
    Ok(Report { queries, asked, found, whole })
}

#[test]
fn the_report_of_the_line() {
    // with beam 1 only the start is found, which is not asked for; with beam 4 all
    assert_eq!(reported(&line_report(1, 2)), counts(2, 4, 0, 0));
    assert_eq!(reported(&line_report(0, 2)), counts(2, 4, 0, 0));
    assert_eq!(reported(&line_report(4, 2)), counts(2, 4, 4, 2));
    // k above n asks for n; a beam below k
    assert_eq!(reported(&line_report(8, 9)), counts(2, 8, 8, 2));
    assert_eq!(reported(&line_report(2, 4)), counts(2, 8, 4, 0));
    assert_eq!(reported(&bent(2, 2)), counts(1, 2, 1, 0));
}

/// No queries, and as many as there may be.
#[test]
fn queries_at_their_limits() {
    let of = |count: usize| {
        reported(&Search {
            query: vec![25; count],
            ..line_report(4, 3)
        })
    };
    assert_eq!(of(0), counts(0, 0, 0, 0));
    assert_eq!(of(65_535), counts(65_535, 196_605, 196_605, 65_535));
    assert_eq!(of(65_536), Err(Refusal(11)));
}

#[test]
fn recall_is_a_share() {
    let recall = |beam, k| reported(&line_report(beam, k)).unwrap().recall();
    assert_eq!((recall(4, 2), recall(2, 4), recall(1, 2)), (1.0, 0.5, 0.0));
    let none = Search {
        query: vec![],
        ..line_report(1, 2)
    };
    assert_eq!(reported(&none).unwrap().recall(), 1.0, "nothing was asked");
}

/// Scores 900, 500, 500, 900.
#[test]
fn the_medoid_of_the_line() {
    assert_eq!(medoid(vectors(4, 1, &LINE), &[0, 3]), Ok(1));
}

#[test]
fn the_first_draw() {
    let mut generator = Generator::new(0);
    assert_eq!(generator.draw(100), 7);
    assert_eq!(generator.state, 1_442_695_040_888_963_407);
    assert_eq!(generator.draw(0), 0);
}

#[test]
fn the_defaults() {
    let defaults = Params {
        degree: 64,
        beam: 128,
        alpha: 1.2,
        extra: 1,
    };
    assert_eq!(Params::default(), defaults);
}

/// The row that a batch of node 0 alone leaves, where its row named every other entry; degree 4. The merge sorts it by id, so that what pruning took is
/// seen here, and not in which order.
fn pruned(n: usize, bytes: &[u8], alpha: f32) -> Vec<u32> {
    let params = Params {
        degree: 4,
        beam: 0,
        alpha,
        extra: 0,
    };
    let mut wide = vec![PADDING; n * slack(4)];
    for id in 1..n {
        wide[id - 1] = id as u32;
    }
    let (mut words, mut floats) = (vec![0; build_room(n).words], vec![0.0; build_room(n).floats]);
    let scratch = Scratch {
        words: &mut words,
        floats: &mut floats,
    };
    assert_eq!(batch(vectors(n, 2, bytes), params, 0, &[0], &[], &mut wide, scratch), Ok(()));
    wide[..slack(4)].iter().copied().take_while(|&word| word != PADDING).collect()
}

#[test]
fn pruning() {
    let four = [0, 0, 20, 0, 11, 18, 0, 30];
    assert_eq!(pruned(4, &four, 1.0), [1, 3]);
    assert_eq!(pruned(4, &four, 1.2), [1, 2, 3]);
    assert_eq!(pruned(4, &four, f32::NAN), [1, 3]);
    assert_eq!(pruned(4, &four, 0.5), [1, 3]);
    assert_eq!(pruned(3, &[0, 0, 10, 0, 5, 9], 1.0), [1, 2]);
}

fn one_entry(alpha: f32, extra: usize) -> Result<Vec<u32>, Refusal> {
    let params = Params {
        degree: 2,
        beam: 4,
        alpha,
        extra,
    };
    let (mut wide, mut closed) = ([5; 3], [5; 2]);
    let (mut words, mut floats) = (vec![5; build_room(1).words], vec![5.0; build_room(1).floats]);
    let scratch = Scratch {
        words: &mut words,
        floats: &mut floats,
    };
    build(
        vectors(1, 1, &[9]),
        params,
        0,
        &[0],
        &vec![0; extra],
        &[PADDING; 2],
        &mut wide,
        &mut closed,
        scratch,
    )?;
    Ok(closed.to_vec())
}

#[test]
fn a_single_entry() {
    assert_eq!(one_entry(1.2, 1), Err(Refusal(7)));
    assert_eq!(one_entry(1.2, 0), Ok(vec![PADDING; 2]));
    assert_eq!(one_entry(4.0, 0), Ok(vec![PADDING; 2]));
    assert_eq!(one_entry(f32::from_bits(4.0f32.to_bits() + 1), 0), Err(Refusal(5)));
}
