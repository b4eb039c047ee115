use crate::{ffi, Error, Span, Token, ROW_CAP, ROW_WORDS};

/// A row of a listing: a token and its span.
#[derive(Clone, Copy, Debug, PartialEq, Eq, Hash)]
pub struct Row {
    /// The kind.
    pub token: Token,
    /// Where it stands in the map.
    pub span: Span,
}

/// Opens a text and lists its tokens without blanks and comments. It takes bytes too, which are checked as UTF-8.
///
/// A refusal of any token is a refusal of the listing. So are over [`ROW_CAP`](crate::ROW_CAP) rows.
///
/// ```
/// use witbox::{list, Span, Token};
///
/// let rows = list("use clock; // and no more", 100)?;
/// assert_eq!(rows.len(), 3);
/// assert_eq!((rows[1].token, rows[1].span), (Token::Id, Span::new(104, 109)));
/// # Ok::<(), witbox::Error>(())
/// ```
pub fn list<T: AsRef<[u8]> + ?Sized>(text: &T, offset: u32) -> Result<Vec<Row>, Error> {
    rows(ffi::list, text.as_ref(), offset)
}

/// The same with the blanks and the comments: the rows of an accepted text cover it.
///
/// ```
/// use witbox::{list_raw, Token};
///
/// let kinds: Vec<Token> = list_raw("a /* b */", 0)?.iter().map(|row| row.token).collect();
/// assert_eq!(kinds, [Token::Id, Token::Whitespace, Token::Comment]);
/// # Ok::<(), witbox::Error>(())
/// ```
pub fn list_raw<T: AsRef<[u8]> + ?Sized>(text: &T, offset: u32) -> Result<Vec<Row>, Error> {
    rows(ffi::list_raw, text.as_ref(), offset)
}

type ListCall = fn(&[u8], u32, &mut [u32]) -> Result<u32, Error>;

fn rows(call: ListCall, text: &[u8], offset: u32) -> Result<Vec<Row>, Error> {
    // a token has a byte at least
    let mut table = vec![0; ROW_WORDS * text.len().min(ROW_CAP)];
    let count = call(text, offset, &mut table)?;
    table
        .chunks_exact(ROW_WORDS)
        .take(count as usize)
        .map(|row| match Token::from_kind(row[0]) {
            Some(token) => Ok(Row {
                token,
                span: Span::told(row[1], row[2]),
            }),
            None => Err(Error::told(0, row[1], row[0])),
        })
        .collect()
}
