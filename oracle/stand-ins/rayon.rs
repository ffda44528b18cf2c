//! What 000 uses of `rayon`, in plain order on one thread.
pub struct Par<I>(I);
impl<I: Iterator> Par<I> {
    pub fn map<B, F: FnMut(I::Item) -> B>(self, f: F) -> Par<std::iter::Map<I, F>> {
        Par(self.0.map(f))
    }
    pub fn enumerate(self) -> Par<std::iter::Enumerate<I>> {
        Par(self.0.enumerate())
    }
    pub fn map_init<S, B, N: Fn() -> S, F: Fn(&mut S, I::Item) -> B>(self, init: N, f: F) -> Par<std::vec::IntoIter<B>> {
        let mut s = init();
        Par(self.0.map(|x| f(&mut s, x)).collect::<Vec<B>>().into_iter())
    }
    pub fn reduce<N: Fn() -> I::Item, F: Fn(I::Item, I::Item) -> I::Item>(self, identity: N, f: F) -> I::Item {
        self.0.fold(identity(), f)
    }
    pub fn collect<C: FromIterator<I::Item>>(self) -> C {
        self.0.collect()
    }
}
pub mod prelude {
    use super::Par;
    pub trait IntoPar: IntoIterator + Sized {
        fn into_par_iter(self) -> Par<Self::IntoIter> {
            Par(self.into_iter())
        }
    }
    impl<I: IntoIterator> IntoPar for I {}
    pub trait ParRef<T> {
        fn par_iter(&self) -> Par<std::slice::Iter<'_, T>>;
    }
    impl<T> ParRef<T> for [T] {
        fn par_iter(&self) -> Par<std::slice::Iter<'_, T>> {
            Par(self.iter())
        }
    }
}
