//! The two errors that toposort.rs makes, shaped as in wit-parser's error.rs.

use super::lex::Span;

/// A result whose error is a [`ParseError`].
pub type ParseResult<T> = Result<T, ParseError>;

/// What went wrong.
#[derive(Debug)]
pub enum ParseErrorKind {
    /// A name that no item has.
    ItemNotFound {
        span: Span,
        name: String,
        kind: String,
        hint: Option<String>,
    },
    /// A dependency that cannot be served since it leads back to itself.
    TypeCycle {
        span: Span,
        name: String,
        kind: String,
    },
}

/// One error.
#[derive(Debug)]
pub struct ParseError(Box<ParseErrorKind>);

impl ParseError {
    /// What went wrong.
    pub fn kind(&self) -> &ParseErrorKind {
        &self.0
    }
}

impl From<ParseErrorKind> for ParseError {
    fn from(kind: ParseErrorKind) -> ParseError {
        ParseError(Box::new(kind))
    }
}
