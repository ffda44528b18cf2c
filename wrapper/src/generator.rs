//! A generator of draws: one number, which each draw advances. A refused call leaves it as it was.

use crate::ffi::{self, Answer, Stepped};
use crate::{done, Refusal};

/// A generator of draws. Any state is one.
#[derive(Clone, Debug, PartialEq, Eq)]
pub struct Generator {
    pub state: u64,
}

impl Generator {
    pub fn new(state: u64) -> Self {
        Self { state }
    }

    fn take(&mut self, stepped: Stepped) -> Result<Answer, Refusal> {
        self.state = stepped.state;
        done(stepped.answer)
    }

    /// One draw below m, any m; 0 for m = 0.
    pub fn draw(&mut self, m: u32) -> u32 {
        // SAFETY: the call takes two numbers.
        let stepped = unsafe { ffi::fjalgrout_draw(self.state, m) };
        self.state = stepped.state;
        stepped.answer.draw
    }

    /// The opening rows: fills a whole closed table. Numbers 2, 3, 8.
    pub fn rows(&mut self, n: usize, degree: usize, table: &mut [u32]) -> Result<(), Refusal> {
        // SAFETY: address and length are those of a slice.
        let stepped = unsafe { ffi::fjalgrout_rows(self.state, n, degree, table.as_mut_ptr(), table.len()) };
        self.take(stepped).map(drop)
    }

    /// One group of `extra` seeds, from empty: distinct ids that are not the start. Numbers 2, 6, 7 (only its limits on extra seeds), 10.
    pub fn seeds(&mut self, n: usize, start: u32, extra: usize, out: &mut [u32]) -> Result<(), Refusal> {
        // SAFETY: address and length are those of a slice.
        let stepped = unsafe { ffi::fjalgrout_seeds(self.state, n, start, extra, out.as_mut_ptr(), out.len()) };
        self.take(stepped).map(drop)
    }

    /// An order: a permutation of 0..n-1 in the first n words. Numbers 2, 10.
    pub fn order(&mut self, n: usize, out: &mut [u32]) -> Result<(), Refusal> {
        // SAFETY: address and length are those of a slice.
        let stepped = unsafe { ffi::fjalgrout_order(self.state, n, out.as_mut_ptr(), out.len()) };
        self.take(stepped).map(drop)
    }

    /// The pivots: min(8, n) draws below n, which may repeat. Numbers 2, 10.
    pub fn pivots(&mut self, n: usize, out: &mut [u32]) -> Result<(), Refusal> {
        // SAFETY: address and length are those of a slice.
        let stepped = unsafe { ffi::fjalgrout_pivots(self.state, n, out.as_mut_ptr(), out.len()) };
        self.take(stepped).map(drop)
    }
}
