//! The oracle: modules of the Rust crate that Oddrafisk follows, unchanged, under this root, which is
//! ours, with a stand-in for integer-encoding and every compression feature off. `compare/prepare`
//! links their text to target/compare/source.

#[allow(clippy::all)]
pub mod protocol;
