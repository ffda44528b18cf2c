//! The proved library beside 000, in one process, on the same inputs.
//!
//!     beside SEED COUNT [KIND]    COUNT small cases of each kind, and COUNT / 400 large ones of the kinds that have them
//!     beside case CASE            one case again, by the number that a difference prints
//!
//! Prints how many cases of each kind reached which boundary. Ends with 1 at the first difference.
mod accepted;
mod cases;
mod lent;
mod ours;
mod recall;
mod refused;
mod tally;

use cases::Rng;
use std::cell::Cell;

thread_local! { static CASE: Cell<u64> = const { Cell::new(0) }; }

/// What must hold, or the run ends here with the number of the case.
pub fn must(held: bool, what: &str) {
    if !held {
        println!("DIFFERENCE in {what}; again by: oracle/run case {:#x}", CASE.get());
        std::process::exit(1);
    }
}

struct Kind {
    name: &'static str,
    run: fn(&mut Rng, usize),
    large: bool,
}

const KINDS: [Kind; 25] = [
    Kind { name: "distance", run: accepted::distance, large: false },
    Kind { name: "medoid", run: accepted::medoid, large: true },
    Kind { name: "search", run: accepted::search, large: true },
    Kind { name: "batch", run: accepted::batch, large: true },
    Kind { name: "open", run: accepted::open, large: true },
    Kind { name: "close", run: accepted::close, large: true },
    Kind { name: "build", run: accepted::build, large: true },
    Kind { name: "distance refused", run: refused::distance, large: false },
    Kind { name: "medoid refused", run: refused::medoid, large: false },
    Kind { name: "batch refused", run: refused::batch, large: false },
    Kind { name: "open refused", run: refused::open, large: false },
    Kind { name: "close refused", run: refused::close, large: false },
    Kind { name: "build refused", run: refused::build, large: false },
    Kind { name: "search refused", run: refused::search, large: false },
    Kind { name: "records", run: accepted::records, large: true },
    Kind { name: "records refused", run: refused::records, large: false },
    Kind { name: "lookup", run: accepted::lookup, large: true },
    Kind { name: "lookup refused", run: refused::lookup, large: false },
    Kind { name: "fit", run: refused::fit, large: true },
    Kind { name: "exhaustive", run: accepted::exhaustive, large: true },
    Kind { name: "exhaustive refused", run: refused::exhaustive, large: false },
    Kind { name: "report", run: accepted::report, large: true },
    Kind { name: "report refused", run: refused::report, large: false },
    Kind { name: "ties", run: accepted::ties, large: true },
    Kind { name: "walks", run: accepted::walks, large: true },
];

/// A case's number holds all that decides it: the run's seed, the kind, whether it is large, and its place.
const KIND_BIT: u32 = 27;
const LARGE: u64 = 1 << 26;

fn run_case(number: u64) {
    CASE.set(number);
    let kind = &KINDS[(number >> KIND_BIT) as usize % 32];
    let mut r = Rng(number);
    let n = cases::size(&mut r, number & LARGE != 0);
    (kind.run)(&mut r, n);
    tally::end_case();
}

fn run_kind(seed: u64, at: usize, count: u64) {
    let kind = &KINDS[at];
    let larges = if kind.large { count / 400 } else { 0 };
    let first = seed << 32 | (at as u64) << KIND_BIT;
    (0..larges).for_each(|i| run_case(first | LARGE | i));
    (0..count).for_each(|i| run_case(first | i));
    println!("{}: {count} small and {larges} large cases, no difference", kind.name);
    for (what, cases) in tally::end_kind() {
        println!("    {cases:>7} {what}");
    }
}

fn number(text: &str) -> u64 {
    let parsed = match text.strip_prefix("0x") {
        Some(digits) => u64::from_str_radix(digits, 16),
        None => text.parse(),
    };
    parsed.unwrap_or_else(|_| panic!("not a number: {text}"))
}

fn main() {
    let args: Vec<String> = std::env::args().skip(1).collect();
    match args.iter().map(String::as_str).collect::<Vec<_>>()[..] {
        ["case", case] => {
            run_case(number(case));
            println!("case {case}: no difference");
        }
        [seed, count, ref kind @ ..] if kind.len() < 2 => {
            let (seed, count) = (number(seed), number(count));
            assert!(seed < 1 << 32 && count < LARGE, "SEED is below 2^32, COUNT below 2^26");
            let asked = |at: &usize| kind.iter().all(|&name| name == KINDS[*at].name);
            let ran = (0..KINDS.len()).filter(asked).map(|at| run_kind(seed, at, count)).count();
            assert!(ran > 0, "no such kind");
            println!("seed {seed}: no difference");
        }
        _ => panic!("beside SEED COUNT [KIND], or beside case CASE"),
    }
}
