#![doc = include_str!("../README.md")]
#![deny(unsafe_code)]
#![warn(missing_docs)]

mod error;
#[allow(unsafe_code)]
mod ffi;
mod listing;
mod order;
mod span;
mod token;
mod tokenizer;

pub use error::{At, Error, Location};
pub use listing::{list, list_raw, Row};
pub use order::{check_order, dependency, propose, toposort, Order};
pub use span::Span;
pub use token::Token;
pub use tokenizer::{validate_id, Tokenizer};

/// The most bytes of a text, or of the names of a sheet.
pub const TEXT_CAP: usize = 65_536;
/// The last position of the map: a text's offset and its length together are at most this.
pub const MAP_CAP: u32 = 4_294_967_294;
/// The most rows of a listing.
pub const ROW_CAP: usize = 4_096;
/// The words of a row: kind, start, end.
const ROW_WORDS: usize = 3;
/// The most items of a sheet.
pub const ITEM_CAP: usize = 256;
/// The most dependencies of a sheet.
pub const DEPENDENCY_CAP: usize = 2_048;
