//! A second reading of the interface paper (01), for any bytes, numbers and rooms.
//!
//! Written from the paper and its readings alone: no line of the product, of lex.rs or of toposort.rs stands behind it, and for the
//! identifier table above U+02C1 it asks the crate that lex.rs asks. It is plain before it is fast. Where the paper's domain ends it
//! is the judge; inside the domain it is itself held against the Rust.

mod characters;
mod kinds;
mod names;
mod orders;
mod sheets;
mod steps;
mod strings;
mod tokens;

use crate::call::{Ask, Call, Numbers, Outcome};

pub use kinds::KEYWORDS;

/// The most bytes of a text, or of a sheet's names.
pub const TEXT_CAP: usize = 65_536;
/// The last position of the map.
pub const MAP_CAP: u64 = 4_294_967_294;
/// The most rows of a listing.
pub const ROW_CAP: usize = 4_096;
/// The last kind of a token.
pub const LAST_KIND: u32 = 66;
/// What stands for a kind at the end of the text.
pub const END_KIND: u32 = 67;

/// A refusal: its number, position and detail.
#[derive(Clone, Copy, PartialEq, Eq, Debug)]
pub struct Refusal(pub u32, pub u32, pub u32);

/// A text and where it lies in the map.
#[derive(Clone, Copy)]
pub struct Text<'a> {
    bytes: &'a [u8],
    offset: u32,
}

impl Text<'_> {
    /// The map position of a place. Past the checks of 1 and 2 it always fits.
    fn position(&self, place: usize) -> u32 {
        self.offset + place as u32
    }

    /// The checks that every call over a text begins with: 1, then 2.
    fn fits(&self) -> Result<(), Refusal> {
        let length = self.bytes.len();
        if length > TEXT_CAP {
            return Err(too_long(length));
        }
        if self.offset as u64 + length as u64 > MAP_CAP {
            return Err(Refusal(2, 0, 0));
        }
        Ok(())
    }
}

/// Refusal 1.
fn too_long(length: usize) -> Refusal {
    Refusal(1, 0, length.min(u32::MAX as usize) as u32)
}

/// The numbers of a refusal, with nothing else filled.
fn refused(refusal: Refusal) -> Numbers {
    Numbers {
        number: refusal.0,
        position: refusal.1,
        detail: refusal.2,
        ..Numbers::default()
    }
}

/// How many items a sheet has, and each dependency as (item, target), where it passes the checks up to 29.
pub fn edges(words: &[u32], names: &[u8]) -> Option<(usize, Vec<(usize, usize)>)> {
    sheets::resolved(words, names).ok()
}

/// What 01 says of a call.
pub fn answer(call: &Call) -> Outcome {
    let text = Text {
        bytes: call.bytes,
        offset: call.offset,
    };
    match call.ask {
        Ask::Open => steps::open(&text),
        Ask::NextRaw | Ask::Next | Ask::Eat | Ask::Expect => {
            steps::step(&text, call.ask, call.a, call.from).into()
        }
        Ask::ListRaw | Ask::List => steps::list(&text, call.ask == Ask::List, call.room),
        Ask::String => strings::decode(&text, call.a, call.b, call.room),
        Ask::Id | Ask::ExplicitId => {
            let explicit = call.ask == Ask::ExplicitId;
            names::parse(&text, call.a, call.b, explicit).into()
        }
        Ask::Sort | Ask::Propose => sheets::sort(call.sheet, call.bytes, call.room),
        Ask::CheckOrder => orders::check(call.sheet, call.bytes, call.list),
    }
}
