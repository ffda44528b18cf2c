//! The derive macros that 000 names: of `serde` (nothing is serialised here) and of `thiserror` (written out for 000's one error type).
extern crate proc_macro;
use proc_macro::TokenStream;

#[proc_macro_derive(Serialize)]
pub fn serialize(_: TokenStream) -> TokenStream {
    TokenStream::new()
}

#[proc_macro_derive(Deserialize)]
pub fn deserialize(_: TokenStream) -> TokenStream {
    TokenStream::new()
}

#[proc_macro_derive(Error, attributes(error, from))]
pub fn error(_: TokenStream) -> TokenStream {
    "impl std::fmt::Display for DiskAnnError {
        fn fmt(&self, f: &mut std::fmt::Formatter<'_>) -> std::fmt::Result { write!(f, \"{:?}\", self) }
    }
    impl std::error::Error for DiskAnnError {}
    impl From<std::io::Error> for DiskAnnError { fn from(e: std::io::Error) -> Self { DiskAnnError::Io(e) } }
    impl From<bincode::Error> for DiskAnnError { fn from(e: bincode::Error) -> Self { DiskAnnError::Bincode(e) } }"
        .parse()
        .unwrap()
}
