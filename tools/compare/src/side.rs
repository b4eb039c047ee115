//! What stands on the new side: the library, or the second reading in its place.

use crate::call::{Call, Numbers};
use crate::lent::Lent;
use crate::stand_in;

/// Whether the library was there when this was built.
pub const LIBRARY: bool = cfg!(have_library);

/// Where it was looked for.
pub const ARCHIVE: &str = env!("WITBOX_LIBRARY");

/// The new side.
#[derive(Clone, Copy, PartialEq, Eq, Debug)]
pub enum Side {
    Library,
    StandIn,
}

impl Side {
    /// What it is called in print.
    pub fn name(self) -> &'static str {
        match self {
            Side::Library => "library",
            Side::StandIn => "model",
        }
    }

    /// Makes a call over lent memory.
    pub fn run(self, call: &Call, lent: &mut Lent) -> Numbers {
        match self {
            #[cfg(have_library)]
            Side::Library => crate::library::run(call, lent),
            #[cfg(not(have_library))]
            Side::Library => unreachable!("the library is not linked"),
            Side::StandIn => {
                let outcome = stand_in::answer(call);
                let words = &mut lent.words();
                let fits = outcome.words.len().min(words.len());
                words[..fits].copy_from_slice(&outcome.words[..fits]);
                let bytes = &mut lent.bytes();
                let fits = outcome.bytes.len().min(bytes.len());
                bytes[..fits].copy_from_slice(&outcome.bytes[..fits]);
                outcome.numbers
            }
        }
    }
}
