//! The old side: wit-parser's lex.rs and toposort.rs, unchanged, over a small shim for what they import.
//!
//! Nothing of the two files is kept in this repository: `build.rs` finds them, and says so and stops where they are missing.

extern crate alloc;

pub mod ast;

pub use ast::error::{ParseErrorKind, ParseResult};

/// The map that toposort.rs takes, as wit-parser's lib.rs declares it where there is `std`.
pub type IndexMap<K, V> = indexmap::IndexMap<K, V, std::collections::hash_map::RandomState>;
