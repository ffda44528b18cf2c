//! What is lent to a call: filled with a pattern beforehand, with guard words behind it that are not lent, and compared afterwards.
use crate::cases::Rng;
use crate::must;
use crate::ours::Candidate;
use std::hint::black_box;

const GUARD: usize = 5;

/// A word of u32 or f32, or a record of both, compared by its bits.
pub trait Word: Copy {
    const ZERO: Self;
    fn bits(self) -> u64;
    /// One of no meaning.
    fn any(r: &mut Rng) -> Self;
}

impl Word for u32 {
    const ZERO: u32 = 0;
    fn bits(self) -> u64 {
        self.into()
    }
    fn any(r: &mut Rng) -> u32 {
        r.next() as u32
    }
}

impl Word for f32 {
    const ZERO: f32 = 0.0;
    fn bits(self) -> u64 {
        self.to_bits().into()
    }
    /// Half of them are NaNs, of either sign, quiet and signalling, with any payload: a contract tells no NaN from another, so the comparison must.
    fn any(r: &mut Rng) -> f32 {
        let bits = r.next() as u32;
        f32::from_bits(if r.below(2) == 0 { bits | 0x7F80_0000 } else { bits })
    }
}

impl Word for Candidate {
    const ZERO: Candidate = Candidate { id: 0, distance: 0.0 };
    fn bits(self) -> u64 {
        u64::from(self.id) << 32 | self.distance.bits()
    }
    fn any(r: &mut Rng) -> Candidate {
        Candidate { id: u32::any(r), distance: f32::any(r) }
    }
}

fn same<T: Word>(a: &[T], b: &[T]) -> bool {
    a.len() == b.len() && a.iter().zip(b).all(|(x, y)| x.bits() == y.bits())
}

pub struct Lent<T> {
    now: Vec<T>,
    was: Vec<T>,
}

/// `len` words of no meaning.
pub fn pattern<T: Word>(r: &mut Rng, len: usize) -> Lent<T> {
    with(r, &[], len)
}

/// `len` words that begin with these.
pub fn with<T: Word>(r: &mut Rng, first: &[T], len: usize) -> Lent<T> {
    let mut now = first.to_vec();
    now.extend((first.len()..len + GUARD).map(|_| T::any(r)));
    Lent { was: now.clone(), now }
}

impl<T: Word> Lent<T> {
    pub fn lend(&mut self) -> &mut [T] {
        let len = self.now.len() - GUARD;
        &mut self.now[..len]
    }

    /// No word differs.
    pub fn kept(&self) -> bool {
        same(&self.now, &self.was)
    }

    /// It begins with these words, and no other differs.
    pub fn begins(&self, words: &[T]) -> bool {
        same(&self.now[..words.len()], words) && same(&self.now[words.len()..], &self.was[words.len()..])
    }

    /// The first `room` words are zero, and no other differs.
    pub fn cleared(&self, room: usize) -> bool {
        self.begins(&vec![T::ZERO; room])
    }
}

/// A call that only reads these, which are compared too. The compiler may take a shared slice for unaltered, so it is not told that these are.
pub fn reads<A>(bytes: &[&[u8]], words: &[&[u32]], call: impl FnOnce() -> A) -> A {
    let before = (bytes.concat(), words.concat());
    let answer = call();
    must(before == (black_box(bytes).concat(), black_box(words).concat()), "what is only read");
    answer
}
