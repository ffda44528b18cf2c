//! What 000 uses of `log`: three macros, silent here.
#[macro_export]
macro_rules! debug { ($($t:tt)*) => { if false { let _ = format!($($t)*); } } }
#[macro_export]
macro_rules! info { ($($t:tt)*) => { if false { let _ = format!($($t)*); } } }
#[macro_export]
macro_rules! warn { ($($t:tt)*) => { if false { let _ = format!($($t)*); } } }
