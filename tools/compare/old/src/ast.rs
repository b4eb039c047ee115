//! What toposort.rs expects around itself: an identifier with a span, and the error module.

use lex::Span;

pub mod error;

include!(concat!(env!("OUT_DIR"), "/followed.rs"));

/// An identifier, as wit-parser's ast.rs declares it.
#[derive(Debug, Clone)]
pub struct Id<'a> {
    name: &'a str,
    span: Span,
}

impl<'a> Id<'a> {
    /// A name that is needed, found at a span.
    pub fn new(name: &'a str, span: Span) -> Id<'a> {
        Id { name, span }
    }
}
