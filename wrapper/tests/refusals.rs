//! Refusals: each number, pairs of faults for their order, and that a refused call changes nothing (tests/lent looks at every lent word).

mod lent;

use fjalgrout::{
    build_room, distance, fit, medoid, most_answers, most_nearest, open, report_room, search_room, slack, Generator, Params, Refusal, Room, PADDING,
};
use lent::{line_build, line_nearest, line_search, reported, vectors, Build, Call, Nearest, Search, LINE, LINE_ROWS, LINE_WIDE};

#[test]
fn distance_refuses() {
    assert_eq!(distance(&[], &[]), Err(Refusal(1)));
    assert_eq!(distance(&[0; 257], &[0]), Err(Refusal(1)));
    assert_eq!(distance(&[0; 4], &[0; 5]), Err(Refusal(11)));
}

#[test]
fn medoid_refuses() {
    assert_eq!(medoid(vectors(4, 0, &LINE), &[0]), Err(Refusal(1)));
    assert_eq!(medoid(vectors(3, 1, &LINE), &[0]), Err(Refusal(2)));
    for pivots in [&[][..], &[0; 9], &[0, 4]] {
        assert_eq!(medoid(vectors(4, 1, &LINE), pivots), Err(Refusal(12)));
    }
}

/// The number that a search of the line gives once it is changed, and the same search with a run of records.
fn searched(change: impl Fn(&mut Search)) -> u32 {
    let mut call = line_search(38, 2, 2);
    change(&mut call);
    assert_eq!(call.answers_in(2), call.answers());
    call.answers().map_or_else(|refusal| refusal.0, |_| 0)
}

#[test]
fn search_refuses() {
    assert_eq!(searched(|_| ()), 0);
    assert_eq!(searched(|s| s.dim = 0), 1);
    assert_eq!(searched(|s| s.dim = 257), 1);
    assert_eq!(searched(|s| s.n = 0), 2);
    assert_eq!(searched(|s| s.n = 65_537), 2);
    assert_eq!(searched(|s| s.n = usize::MAX), 2);
    assert_eq!(searched(|s| s.bytes.truncate(3)), 2);
    assert_eq!(searched(|s| s.degree = 0), 3);
    assert_eq!(searched(|s| s.degree = 65), 3);
    assert_eq!(searched(|s| s.beam = 257), 4);
    assert_eq!(searched(|s| s.start = 4), 6);
    assert_eq!(searched(|s| s.rows.truncate(7)), 8);
    assert_eq!(searched(|s| s.rows[5] = 4), 8);
    assert_eq!(searched(|s| s.rows[7] = PADDING - 1), 8);
    for i in 0..4 {
        assert_eq!(searched(|s| s.short[i] = 1), 10);
    }
    assert_eq!(searched(|s| s.query.clear()), 11);
}

/// The search rule: padding in front, repeats and own ids are harmless.
#[test]
fn search_accepts() {
    assert_eq!(searched(|s| s.rows[0..2].copy_from_slice(&[PADDING, 1])), 0);
    assert_eq!(searched(|s| s.rows[0..2].copy_from_slice(&[0, 0])), 0);
}

/// The same of a lookup: 8 concerns the table's length alone.
#[test]
fn lookup_refuses() {
    let looked_up = |change: fn(&mut Search)| {
        let mut call = line_search(38, 2, 2);
        change(&mut call);
        call.looked_up().map_or_else(|refusal| refusal.0, |_| 0)
    };
    assert_eq!(looked_up(|s| s.rows.truncate(7)), 8);
    assert_eq!(looked_up(|s| s.rows.push(0)), 8);
    assert_eq!(looked_up(|s| s.rows[5] = 4), 0);
    assert_eq!(looked_up(|s| s.rows.fill(PADDING - 1)), 0);
    assert_eq!(looked_up(|s| (s.rows, s.start) = (vec![9; 7], 4)), 6);
    assert_eq!(looked_up(|s| (s.rows, s.short) = (vec![9; 7], [1; 4])), 8);
    assert_eq!(looked_up(|s| (s.rows, s.query) = (vec![9; 8], vec![])), 11);
}

#[test]
fn fit_refuses() {
    assert_eq!(fit(4, 2, &LINE_ROWS), Ok(()));
    assert_eq!(fit(0, 2, &LINE_ROWS), Err(Refusal(2)));
    assert_eq!(fit(65_537, 0, &[]), Err(Refusal(2)));
    assert_eq!(fit(usize::MAX, 64, &[]), Err(Refusal(2)));
    assert_eq!(fit(4, 0, &[]), Err(Refusal(3)));
    assert_eq!(fit(4, 65, &LINE_ROWS), Err(Refusal(3)));
    assert_eq!(fit(4, 2, &LINE_ROWS[..7]), Err(Refusal(8)));
    assert_eq!(fit(4, 2, &[1, PADDING, 0, 2, 1, 4, 2, PADDING]), Err(Refusal(8)));
    assert_eq!(fit(4, 2, &[PADDING, 0, 0, 0, 1, PADDING, 3, 3]), Ok(()));
}

#[test]
fn the_lower_of_two_numbers() {
    assert_eq!(searched(|s| (s.dim, s.start) = (0, 9)), 1);
    assert_eq!(searched(|s| (s.n, s.degree) = (0, 0)), 2);
    assert_eq!(searched(|s| (s.degree, s.beam) = (0, 257)), 3);
    assert_eq!(searched(|s| (s.beam, s.start) = (257, 4)), 4);
    assert_eq!(searched(|s| (s.start, s.rows[0]) = (4, 4)), 6);
    assert_eq!(searched(|s| (s.rows[0], s.short) = (4, [1; 4])), 8);
    assert_eq!(searched(|s| (s.short, s.query) = ([0, 0, 0, 1], vec![])), 10);
}

/// The run of records: refused also when it is short, by the lower number of two.
#[test]
fn records_refuse() {
    let mut call = line_search(38, 2, 2);
    assert_eq!(call.answers_in(1), Err(Refusal(10)));
    assert_eq!(call.answers_in(3), Ok(vec![(3, 4.0), (2, 64.0)]));
    call.start = 4;
    assert_eq!(call.answers_in(0), Err(Refusal(6)));
}

#[test]
fn exhaustive_refuses() {
    let number = |change: fn(&mut Nearest)| {
        let mut call = line_nearest(38, 2);
        change(&mut call);
        call.answers().map_or_else(|refusal| refusal.0, |_| 0)
    };
    assert_eq!(number(|_| ()), 0);
    assert_eq!(number(|e| e.dim = 0), 1);
    assert_eq!(number(|e| e.dim = 257), 1);
    assert_eq!(number(|e| e.n = 0), 2);
    assert_eq!(number(|e| e.n = 65_537), 2);
    assert_eq!(number(|e| e.n = usize::MAX), 2);
    assert_eq!(number(|e| e.bytes.truncate(3)), 2);
    assert_eq!(number(|e| e.short = [1, 0]), 10);
    assert_eq!(number(|e| e.short = [0, 1]), 10);
    assert_eq!(number(|e| e.query.clear()), 11);
    assert_eq!(number(|e| e.query.push(1)), 11);
    assert_eq!(number(|e| e.k = 0), 14);
    assert_eq!(number(|e| e.k = 257), 14);
    assert_eq!(number(|e| e.k = usize::MAX), 14);
    // two faults: the lower number
    assert_eq!(number(|e| (e.dim, e.k) = (257, 0)), 1);
    assert_eq!(number(|e| (e.n, e.query) = (0, vec![])), 2);
    assert_eq!(number(|e| (e.short, e.query) = ([1, 0], vec![])), 10);
    assert_eq!(number(|e| (e.k, e.short) = (257, [0, 1])), 10);
    assert_eq!(number(|e| (e.k, e.query) = (257, vec![])), 11);
}

#[test]
fn report_refuses() {
    let number = |change: fn(&mut Search)| {
        let mut call = line_search(38, 2, 2);
        change(&mut call);
        reported(&call).map_or_else(|refusal| refusal.0, |_| 0)
    };
    assert_eq!(number(|_| ()), 0);
    assert_eq!(number(|s| s.dim = 0), 1);
    assert_eq!(number(|s| s.dim = 257), 1);
    assert_eq!(number(|s| s.n = 65_537), 2);
    assert_eq!(number(|s| s.n = usize::MAX), 2);
    assert_eq!(number(|s| s.bytes.truncate(3)), 2);
    assert_eq!(number(|s| s.degree = 0), 3);
    assert_eq!(number(|s| s.degree = 65), 3);
    assert_eq!(number(|s| s.beam = 257), 4);
    assert_eq!(number(|s| s.start = 4), 6);
    assert_eq!(number(|s| s.rows.truncate(7)), 8);
    assert_eq!(number(|s| s.rows[5] = 4), 8);
    assert_eq!(number(|s| s.short[0] = 1), 10);
    assert_eq!(number(|s| s.short[1] = 1), 10);
    assert_eq!(number(|s| s.query = vec![0; 65_536]), 11);
    assert_eq!(number(|s| (s.n, s.dim, s.rows) = (2, 2, vec![1, 0, 0, 1])), 11);
    assert_eq!(number(|s| s.k = 0), 14);
    assert_eq!(number(|s| s.k = 257), 14);
    // two faults: the lower number
    assert_eq!(number(|s| (s.dim, s.k) = (0, 0)), 1);
    assert_eq!(number(|s| (s.n, s.degree) = (0, 0)), 2);
    assert_eq!(number(|s| (s.degree, s.beam) = (0, 257)), 3);
    assert_eq!(number(|s| (s.beam, s.start) = (257, 4)), 4);
    assert_eq!(number(|s| (s.start, s.rows[0]) = (4, 4)), 6);
    assert_eq!(number(|s| (s.rows[0], s.short) = (4, [1; 4])), 8);
    assert_eq!(number(|s| (s.short[1], s.query) = (1, vec![0; 65_536])), 10);
    assert_eq!(number(|s| (s.k, s.query) = (0, vec![0; 65_536])), 11);
}

/// The number that a call over the line gives once it is changed.
fn number(call: Call, change: impl Fn(&mut Build)) -> u32 {
    let mut line = line_build();
    change(&mut line);
    line.given(call).map_or_else(|refusal| refusal.0, |_| 0)
}

fn built(change: impl Fn(&mut Build)) -> u32 {
    number(Call::Whole, change)
}

#[test]
fn build_refuses() {
    assert_eq!(built(|_| ()), 0);
    assert_eq!(built(|b| b.dim = 257), 1);
    assert_eq!(built(|b| b.bytes.truncate(3)), 2);
    assert_eq!(built(|b| b.params.degree = 65), 3);
    assert_eq!(built(|b| b.params.beam = 257), 4);
    assert_eq!(built(|b| b.params.alpha = f32::from_bits(4.0f32.to_bits() + 1)), 5);
    assert_eq!(built(|b| b.params.alpha = f32::INFINITY), 5);
    assert_eq!(built(|b| b.start = 4), 6);
    assert_eq!(built(|b| b.params.extra = 17), 7);
    assert_eq!(built(|b| b.params.extra = 4), 7);
    assert_eq!(built(|b| b.seeds[2] = 0), 7);
    assert_eq!(built(|b| b.seeds[2] = 4), 7);
    assert_eq!(built(|b| b.seeds.truncate(3)), 7);
    assert_eq!(built(|b| (b.params.extra, b.seeds) = (2, vec![1, 2, 1, 2, 3, 3, 1, 2])), 7);
    assert_eq!(built(|b| b.opening[0] = 0), 8);
    assert_eq!(built(|b| b.opening[0..2].copy_from_slice(&[PADDING, 1])), 8);
    assert_eq!(built(|b| b.short[0] = 1), 8);
    assert_eq!(built(|b| b.short[1] = 1), 8);
    assert_eq!(built(|b| b.order[0] = 1), 9);
    assert_eq!(built(|b| b.order.truncate(3)), 9);
    assert_eq!(built(|b| b.short[2] = 1), 10);
    assert_eq!(built(|b| b.short[3] = 1), 10);
    assert_eq!(built(|b| (b.start, b.order[0]) = (4, 1)), 6);
    assert_eq!(built(|b| (b.order[0], b.short[2]) = (1, 1)), 9);
}

#[test]
fn batch_refuses() {
    let batched = |change: fn(&mut Build)| number(Call::Batch, change);
    assert_eq!(batched(|_| ()), 0);
    assert_eq!(batched(|b| (b.order, b.seeds) = (vec![], vec![])), 0);
    assert_eq!(batched(|b| b.params.beam = 257), 4);
    assert_eq!(batched(|b| b.start = 4), 6);
    assert_eq!(batched(|b| b.seeds.truncate(3)), 7);
    assert_eq!(batched(|b| b.seeds[2] = 0), 7);
    assert_eq!(batched(|b| (b.order, b.seeds) = (vec![0, 4], vec![1, 1])), 9);
    assert_eq!(batched(|b| (b.order, b.seeds) = (vec![1, 1], vec![1, 1])), 9);
}

#[test]
fn batch_and_close_refuse() {
    for call in [Call::Batch, Call::Close] {
        assert_eq!(number(call, |b| b.dim = 0), 1);
        assert_eq!(number(call, |b| b.dim = 257), 1);
        assert_eq!(number(call, |b| b.n = 0), 2);
        assert_eq!(number(call, |b| b.bytes.truncate(3)), 2);
        assert_eq!(number(call, |b| b.params.degree = 65), 3);
        assert_eq!(number(call, |b| b.params.alpha = f32::from_bits(4.0f32.to_bits() + 1)), 5);
        assert_eq!(number(call, |b| b.params.alpha = f32::INFINITY), 5);
        assert_eq!(number(call, |b| b.short[0] = 1), 8);
        assert_eq!(number(call, |b| b.wide[0] = 0), 8);
        assert_eq!(number(call, |b| b.wide[0..2].copy_from_slice(&[PADDING, 1])), 8);
        assert_eq!(number(call, |b| b.short[2] = 1), 10);
        assert_eq!(number(call, |b| b.short[3] = 1), 10);
    }
    assert_eq!(number(Call::Close, |b| b.short[1] = 1), 8);
}

#[test]
fn open_and_close() {
    let mut wide = [5; 12];
    assert_eq!(open(0, 2, &LINE_ROWS, &mut wide), Err(Refusal(2)));
    assert_eq!(open(4, 0, &LINE_ROWS, &mut wide), Err(Refusal(3)));
    assert_eq!(open(4, 2, &LINE_ROWS[..7], &mut wide), Err(Refusal(8)));
    assert_eq!(open(4, 2, &LINE_ROWS, &mut wide[..11]), Err(Refusal(8)));
    assert_eq!(wide, [5; 12]);
    assert_eq!(open(4, 2, &LINE_ROWS, &mut wide), Ok(()));
    assert_eq!(wide, LINE_WIDE);

    // Close ignores the record's beam and extra seeds.
    let mut closing = line_build();
    closing.params = Params {
        beam: 999,
        extra: 999,
        ..closing.params
    };
    assert_eq!(closing.given(Call::Close), Ok(LINE_ROWS.to_vec()));
}

/// A size that would not fit is the greatest, and the others are right.
#[test]
fn sizes_have_no_condition() {
    assert!((0..=65).all(|degree| slack(degree) == (13 * degree).div_ceil(10)));
    let greatest = Room {
        words: usize::MAX,
        floats: usize::MAX,
    };
    assert_eq!((slack(usize::MAX), build_room(usize::MAX)), (usize::MAX, greatest));
    assert_eq!(most_answers(usize::MAX, usize::MAX), usize::MAX);
    let room = |words, floats| Room { words, floats };
    assert_eq!(build_room(65_536), room(425_984, 263_168));
    // the floats of a search and of a report are as many whatever n is
    assert_eq!((search_room(4), search_room(65_536)), (room(516, 512), room(66_048, 512)));
    assert_eq!((report_room(4), report_room(65_536)), (room(1_028, 1_024), room(66_560, 1_024)));
    assert_eq!(
        (search_room(usize::MAX), report_room(usize::MAX)),
        (room(usize::MAX, 512), room(usize::MAX, 1_024))
    );
    assert_eq!((most_nearest(4, 3), most_nearest(4, 256), most_nearest(0, 1)), (3, 4, 0));
    let largest = (usize::MAX - 32_768) / 6;
    assert_eq!((build_room(largest).words, build_room(largest + 1).words), (6 * largest + 32_768, usize::MAX));
}

#[test]
fn draws_refuse() {
    let (mut generator, mut out) = (Generator::new(9), [5; 8]);
    assert_eq!(generator.rows(0, 2, &mut out), Err(Refusal(2)));
    assert_eq!(generator.rows(4, 65, &mut out), Err(Refusal(3)));
    assert_eq!(generator.rows(4, 2, &mut out[..7]), Err(Refusal(8)));
    assert_eq!(generator.seeds(65_537, 0, 1, &mut out), Err(Refusal(2)));
    assert_eq!(generator.seeds(4, 4, 1, &mut out), Err(Refusal(6)));
    assert_eq!(generator.seeds(4, 0, 4, &mut out), Err(Refusal(7)));
    assert_eq!(generator.seeds(65_536, 0, 17, &mut out), Err(Refusal(7)));
    assert_eq!(generator.seeds(4, 0, 3, &mut out[..2]), Err(Refusal(10)));
    assert_eq!(generator.order(0, &mut out), Err(Refusal(2)));
    assert_eq!(generator.order(8, &mut out[..7]), Err(Refusal(10)));
    assert_eq!(generator.pivots(0, &mut out), Err(Refusal(2)));
    assert_eq!(generator.pivots(5, &mut out[..4]), Err(Refusal(10)));
    assert_eq!((generator, out), (Generator::new(9), [5; 8]));
}
