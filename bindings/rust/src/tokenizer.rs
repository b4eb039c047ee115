use crate::ffi::{self, Cursor};
use crate::{Error, Span, Token};
use std::str;

/// The tokens of a text, one by one.
///
/// The calls are lex.rs's. A refusal leaves the tokenizer where it stood, but for [`Error::Wanted`]: then it stands behind the token
/// that was found.
///
/// ```
/// use witbox::{Error, Token, Tokenizer};
///
/// let mut tokens = Tokenizer::new("use %type as \"a\\u{e9}\"; // done", 0)?;
/// assert!(tokens.eat(Token::Use)?);
/// let id = tokens.expect(Token::ExplicitId)?;
/// assert_eq!(tokens.parse_explicit_id(id)?, "type");
/// assert!(!tokens.eat(Token::Id)?);
/// tokens.expect(Token::As)?;
/// let string = tokens.expect(Token::StringLiteral)?;
/// assert_eq!(tokens.get_span(string), "\"a\\u{e9}\"");
/// assert_eq!(tokens.string_literal(string)?, "aé");
/// tokens.expect_semicolon()?;
/// assert_eq!(tokens.next()?, None);
/// # Ok::<(), Error>(())
/// ```
#[derive(Clone)]
pub struct Tokenizer<'a> {
    text: &'a str,
    offset: u32,
    cursor: Cursor,
}

impl<'a> Tokenizer<'a> {
    /// Opens a text whose first byte stands at `offset` in the map, and passes over a leading byte order mark. Refused are a text of
    /// over [`TEXT_CAP`](crate::TEXT_CAP) bytes, one that leaves the map, and one with a character that no text may hold.
    pub fn new(text: &'a str, offset: u32) -> Result<Tokenizer<'a>, Error> {
        let cursor = ffi::open(text.as_bytes(), offset)?;
        Ok(Tokenizer {
            text,
            offset,
            cursor,
        })
    }

    /// The same for bytes that may be no text, as a file's: [`Error::IllFormed`] says where they are no UTF-8.
    ///
    /// ```
    /// use witbox::{Error, Tokenizer};
    ///
    /// assert_eq!(Tokenizer::from_bytes(b"use \xFF", 100).err(), Some(Error::IllFormed(4)));
    /// ```
    pub fn from_bytes(bytes: &'a [u8], offset: u32) -> Result<Tokenizer<'a>, Error> {
        let cursor = ffi::open(bytes, offset)?;
        // opening has found the bytes well-formed
        let text = str::from_utf8(bytes).map_err(|e| Error::IllFormed(e.valid_up_to() as u32))?;
        Ok(Tokenizer {
            text,
            offset,
            cursor,
        })
    }

    /// The next token and its span, blanks and comments too, or none at the end of the text.
    pub fn next_raw(&mut self) -> Result<Option<(Span, Token)>, Error> {
        ffi::next_raw(self.text.as_bytes(), self.offset, &mut self.cursor)
    }

    /// The next token that is no blank and no comment, and its span, or none at the end of the text.
    // lex.rs's name; it can refuse, so that it is no iterator's
    #[allow(clippy::should_implement_trait)]
    pub fn next(&mut self) -> Result<Option<(Span, Token)>, Error> {
        ffi::next(self.text.as_bytes(), self.offset, &mut self.cursor)
    }

    /// Passes over the next token that is no blank and no comment if it is of a kind, and says whether it is.
    pub fn eat(&mut self, expected: Token) -> Result<bool, Error> {
        let eaten = ffi::eat(
            self.text.as_bytes(),
            self.offset,
            expected,
            &mut self.cursor,
        )?;
        Ok(eaten.is_some())
    }

    /// The span of the next token that is no blank and no comment, which is to be of a kind: else [`Error::Wanted`].
    pub fn expect(&mut self, expected: Token) -> Result<Span, Error> {
        let found = ffi::expect(
            self.text.as_bytes(),
            self.offset,
            expected,
            &mut self.cursor,
        )?;
        // the end of the text is a refusal too
        found.map(|(span, _)| span).ok_or(Error::Wanted {
            at: self.position(),
            expected,
            found: None,
        })
    }

    /// The same for `;`, without the span.
    pub fn expect_semicolon(&mut self) -> Result<(), Error> {
        self.expect(Token::Semicolon).map(|_| ())
    }

    /// The part of the text that a span names.
    ///
    /// # Panics
    ///
    /// If the span is none of this text's, as lex.rs does. A span that this tokenizer has answered always is.
    pub fn get_span(&self, span: Span) -> &'a str {
        let part = span.places(self.offset);
        part.and_then(|part| self.text.get(part))
            .expect("the span lies in the tokenizer's text")
    }

    /// The identifier that a span names, if it is one: parts of letters and digits with `-` between them, each part in one case.
    ///
    /// ```
    /// use witbox::{Error, Token, Tokenizer};
    ///
    /// let mut tokens = Tokenizer::new("room-number room-Number", 0)?;
    /// let good = tokens.expect(Token::Id)?;
    /// let bad = tokens.expect(Token::Id)?;
    /// assert_eq!(tokens.parse_id(good), Ok("room-number"));
    /// assert_eq!(tokens.parse_id(bad), Err(Error::InvalidCharInId(12, 'u')));
    /// # Ok::<(), Error>(())
    /// ```
    pub fn parse_id(&self, span: Span) -> Result<&'a str, Error> {
        self.part(ffi::parse_id(self.text.as_bytes(), self.offset, span)?)
    }

    /// The same for an identifier behind `%`, which is left out.
    pub fn parse_explicit_id(&self, span: Span) -> Result<&'a str, Error> {
        self.part(ffi::parse_explicit_id(
            self.text.as_bytes(),
            self.offset,
            span,
        )?)
    }

    /// The part of the text with a place and a length. The library answers parts of the text alone.
    fn part(&self, (place, length): (u32, u32)) -> Result<&'a str, Error> {
        let (start, length) = (place as usize, length as usize);
        self.text.get(start..start + length).ok_or(Error::BadSpan)
    }

    /// The value of the string that a span names, with its escapes resolved. The span has the quotes; one that is exactly a string is
    /// never refused.
    pub fn string_literal(&self, span: Span) -> Result<String, Error> {
        // no escape is shorter than what it stands for
        let (start, end) = span.numbers();
        let room = (end.saturating_sub(start) as usize).min(self.text.len());
        let mut buffer = vec![0; room];
        let count = ffi::string_literal(self.text.as_bytes(), self.offset, span, &mut buffer)?;
        buffer.truncate(count as usize);
        String::from_utf8(buffer)
            .map_err(|e| Error::InvalidUtf8(start, e.utf8_error().valid_up_to() as u32))
    }

    /// Where the next step reads: a position of the map.
    pub fn position(&self) -> u32 {
        self.offset + self.cursor.at
    }

    /// The empty span at the end of the text.
    pub fn eof_span(&self) -> Span {
        // opening has found that the text ends inside the map
        let end = self.offset + self.text.len() as u32;
        Span::new(end, end)
    }
}

/// Whether a text is an identifier, as [`Tokenizer::parse_id`] judges it. A refusal stands at `start`.
///
/// ```
/// use witbox::{validate_id, Error};
///
/// assert_eq!(validate_id(0, "apple-pear"), Ok(()));
/// assert_eq!(validate_id(7, "apple--pear"), Err(Error::IdPartEmpty(7)));
/// ```
pub fn validate_id(start: u32, id: &str) -> Result<(), Error> {
    // the library looks at the length and the map before the span
    let length = u32::try_from(id.len()).unwrap_or(u32::MAX);
    let span = Span::told(start, start.saturating_add(length));
    ffi::parse_id(id.as_bytes(), start, span).map(|_| ())
}
