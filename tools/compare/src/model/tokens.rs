//! 01, "Tokens": one raw token at a place.
//!
//! A rule that examines an ill-formed sequence answers 3 there. It examines each character that it tests, also one that only ends
//! a run or fails to extend a mark.

use super::characters::{folded, keylike_continuation, keylike_start, Seen};
use super::{kinds, strings, Refusal, Text};

/// A token: its kind, its place and the place behind it.
#[derive(Clone, Copy, PartialEq, Eq, Debug)]
pub struct Token {
    pub kind: u32,
    pub start: usize,
    pub end: usize,
}

/// The raw token at a place, or none at the end of the text.
pub fn raw(text: &Text, start: usize) -> Result<Option<Token>, Refusal> {
    let Some((c, next)) = examine(text, start)? else {
        return Ok(None);
    };
    let mark = kinds::MARKS.iter().find(|m| m.0 as u32 == c);
    let (kind, end) = if let Some(&(_, kind)) = mark {
        (kind, next)
    } else if blank(c) {
        (kinds::WHITESPACE, run(text, next, blank)?)
    } else if c == '/' as u32 {
        slash(text, start, next)?
    } else if c == '-' as u32 {
        match examine(text, next)? {
            Some((c, behind)) if c == '>' as u32 => (kinds::R_ARROW, behind),
            _ => (kinds::MINUS, next),
        }
    } else if c == '%' as u32 {
        (kinds::EXPLICIT_ID, explicit(text, next)?)
    } else if c == '"' as u32 {
        let (_, end) = strings::rule(text, start)?;
        (kinds::STRING_LITERAL, end)
    } else if digit(c) {
        (kinds::INTEGER, run(text, next, digit)?)
    } else if keylike_start(c) {
        let end = run(text, next, keylike_continuation)?;
        (word(&text.bytes[start..end]), end)
    } else {
        return Err(Refusal(7, text.position(start), c));
    };
    Ok(Some(Token { kind, start, end }))
}

/// The character at a place and the place behind it, none at the end of the text; 3 where an ill-formed sequence stands.
pub fn examine(text: &Text, at: usize) -> Result<Option<(u32, usize)>, Refusal> {
    match folded(text.bytes, at) {
        Seen::End => Ok(None),
        Seen::Ill => Err(Refusal(3, at as u32, 0)),
        Seen::Char(c, next) => Ok(Some((c, next))),
    }
}

fn blank(c: u32) -> bool {
    matches!(c, 9 | 10 | 32)
}

fn digit(c: u32) -> bool {
    (0x30..=0x39).contains(&c)
}

/// Where the longest run of such characters ends.
fn run(text: &Text, mut at: usize, of: fn(u32) -> bool) -> Result<usize, Refusal> {
    while let Some((c, next)) = examine(text, at)? {
        if !of(c) {
            break;
        }
        at = next;
    }
    Ok(at)
}

/// Behind `%`: a keylike start and the longest run of continuations, or nothing.
fn explicit(text: &Text, at: usize) -> Result<usize, Refusal> {
    match examine(text, at)? {
        Some((c, next)) if keylike_start(c) => run(text, next, keylike_continuation),
        _ => Ok(at),
    }
}

/// The kind of a word: a keyword by its exact bytes, else an identifier.
fn word(bytes: &[u8]) -> u32 {
    let keyword = kinds::KEYWORDS.iter().find(|k| k.0.as_bytes() == bytes);
    keyword.map_or(kinds::ID, |k| k.1)
}

/// Behind `/`: a line comment, a block comment or the mark itself.
fn slash(text: &Text, start: usize, next: usize) -> Result<(u32, usize), Refusal> {
    match examine(text, next)? {
        Some((c, behind)) if c == '/' as u32 => Ok((kinds::COMMENT, line(text, behind)?)),
        Some((c, behind)) if c == '*' as u32 => Ok((kinds::COMMENT, block(text, start, behind)?)),
        _ => Ok((kinds::SLASH, next)),
    }
}

/// Up to and with the next newline, or to the end.
fn line(text: &Text, mut at: usize) -> Result<usize, Refusal> {
    while let Some((c, next)) = examine(text, at)? {
        at = next;
        if c == 10 {
            break;
        }
    }
    Ok(at)
}

/// Block comments nest, depth from 1; each `/*` or `*/` is eaten as a pair, left to right.
fn block(text: &Text, start: usize, mut at: usize) -> Result<usize, Refusal> {
    let mut depth = 1;
    while depth > 0 {
        let Some((c, next)) = examine(text, at)? else {
            return Err(Refusal(8, text.position(start), 0));
        };
        at = next;
        let (partner, change) = match char::from_u32(c) {
            Some('/') => ('*', 1),
            Some('*') => ('/', -1),
            _ => continue,
        };
        if let Some((c, behind)) = examine(text, at)? {
            if c == partner as u32 {
                depth += change;
                at = behind;
            }
        }
    }
    Ok(at)
}
