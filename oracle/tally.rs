//! Which boundaries the cases reached: for each kind of case, how many cases had each of the things that are noted.
use diskann::probe;
use std::cell::RefCell;
use std::collections::{BTreeMap, BTreeSet};

thread_local! {
    static CASE: RefCell<BTreeSet<String>> = const { RefCell::new(BTreeSet::new()) };
    static KIND: RefCell<BTreeMap<String, u64>> = const { RefCell::new(BTreeMap::new()) };
}

/// This case had such a thing; said twice, it counts once.
pub fn note(what: impl Into<String>) {
    CASE.with(|c| c.borrow_mut().insert(what.into()));
}

pub fn note_if(held: bool, what: &str) {
    if held {
        note(what);
    }
}

/// The case is over: what it noted, and what 000 was seen to do, is counted.
pub fn end_case() {
    let seen = probe::seen().into_iter().map(String::from);
    let noted = CASE.take().into_iter().chain(seen);
    KIND.with(|k| noted.for_each(|what| *k.borrow_mut().entry(what).or_default() += 1));
}

/// The kind is over: its counts.
pub fn end_kind() -> BTreeMap<String, u64> {
    KIND.take()
}
