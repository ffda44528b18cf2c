//! What 000 uses of `serde`: two derive macros.
pub use derives::{Deserialize, Serialize};
