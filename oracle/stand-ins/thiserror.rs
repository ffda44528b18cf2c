//! What 000 uses of `thiserror`: one derive macro.
pub use derives::Error;
