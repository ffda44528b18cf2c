//! What 000 uses of `rand`. The draws that matter are fed by the caller; what is drawn here is thrown away, and only has to let 000's loops end.
pub struct ThreadRng(u64);
pub fn thread_rng() -> ThreadRng {
    ThreadRng(0)
}
impl ThreadRng {
    pub fn gen_range(&mut self, r: std::ops::Range<usize>) -> usize {
        self.0 = self.0.wrapping_add(1);
        r.start + (self.0 as usize) % (r.end - r.start)
    }
}
pub mod prelude {
    pub trait SliceRandom {
        fn shuffle(&mut self, rng: &mut super::ThreadRng);
    }
    impl<T> SliceRandom for [T] {
        fn shuffle(&mut self, _: &mut super::ThreadRng) {}
    }
}
