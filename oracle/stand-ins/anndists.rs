//! What 000 uses of `anndists`: the trait of a distance.
pub mod prelude {
    pub trait Distance<T> {
        fn eval(&self, a: &[T], b: &[T]) -> f32;
    }
}
