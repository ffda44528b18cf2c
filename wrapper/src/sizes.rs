//! How many words a row, scratch and outputs have. A number that would not fit is `usize::MAX`: no slice is so long, and the call that it is for refuses
//! such an argument.

/// The padding word of a table.
pub const PADDING: u32 = u32::MAX;

/// How much scratch a call needs.
#[derive(Clone, Copy, Debug, PartialEq, Eq)]
pub struct Room {
    pub words: usize,
    pub floats: usize,
}

/// Slack, the words of a wide row: ceil(13 x degree / 10). A closed table has n x degree words, a wide table n x slack.
pub fn slack(degree: usize) -> usize {
    (degree / 10).saturating_mul(13).saturating_add((degree % 10 * 13).div_ceil(10))
}

/// Room for a batch, close or whole build.
pub fn build_room(n: usize) -> Room {
    Room {
        words: n.saturating_mul(6).saturating_add(32_768),
        floats: n.saturating_mul(4).saturating_add(1_024),
    }
}

/// Room for a search: the floats are as many whatever n is.
pub fn search_room(n: usize) -> Room {
    Room {
        words: n.saturating_add(512),
        floats: 512,
    }
}

/// Room for a report: a search's, and 512 more of each kind.
pub fn report_room(n: usize) -> Room {
    Room {
        words: n.saturating_add(1_024),
        floats: 1_024,
    }
}

/// The answers of an exhaustive search, and so the room that each of its two outputs must have: min(k, n).
pub fn most_nearest(n: usize, k: usize) -> usize {
    k.min(n)
}

/// The answers that each of a search's two outputs must have room for.
pub fn most_answers(beam: usize, k: usize) -> usize {
    k.min(beam.max(1))
}
