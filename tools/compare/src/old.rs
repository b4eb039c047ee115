//! The Rust as the judge: what lex.rs and toposort.rs answer to a call, put into the numbers of the interface paper.
//!
//! [`judge`] answers nothing where a call lies outside the paper's domain; there the second reading decides.

use old_side::ast::error::ParseErrorKind;
use old_side::ast::lex::{Error, Span, Token, Tokenizer};
use old_side::ast::{toposort::toposort, Id};
use old_side::IndexMap;
use std::panic::{catch_unwind, AssertUnwindSafe};
use std::str::from_utf8;

use crate::call::{Ask, Call, Numbers, Outcome};
use crate::{known, model};

/// What the Rust says of a call, if the call lies inside the domain.
pub fn judge(call: &Call) -> Option<Outcome> {
    if call.bytes.len() > model::TEXT_CAP {
        return None;
    }
    match call.ask {
        Ask::Sort | Ask::Propose => return catch(|| sort(call)),
        // the Rust checks no proposed order
        Ask::CheckOrder => return None,
        _ => {}
    }
    if call.offset as u64 + call.bytes.len() as u64 > model::MAP_CAP {
        return None;
    }
    let text = from_utf8(call.bytes).ok()?;
    catch(|| match call.ask {
        Ask::Open => Some(open(text, call.offset)),
        Ask::ListRaw | Ask::List => list(text, call),
        Ask::String => string(text, call),
        Ask::Id | Ask::ExplicitId => identifier(text, call),
        _ => step(text, call),
    })
}

/// Runs the Rust; a panic inside the domain is a difference like any other, shown as number 4,294,967,295.
fn catch(run: impl FnOnce() -> Option<Outcome>) -> Option<Outcome> {
    catch_unwind(AssertUnwindSafe(run)).unwrap_or_else(|_| {
        Some(Outcome::from(Numbers {
            number: u32::MAX,
            ..Numbers::default()
        }))
    })
}

/// The paper's three numbers of an error.
fn refused(error: &Error) -> Numbers {
    let detail = match *error {
        Error::ControlCodepoint(_, c)
        | Error::DeprecatedCodepoint(_, c)
        | Error::ForbiddenCodepoint(_, c)
        | Error::InvalidCharInId(_, c)
        | Error::Unexpected(_, c)
        | Error::InvalidStringElement(_, c)
        | Error::InvalidStringEscape(_, c)
        | Error::WantedChar(_, c)
        | Error::InvalidHexDigit(_, c) => c as u32,
        Error::InvalidUnicodeValue(_, n) => n,
        Error::InvalidUtf8(_, e) => e.valid_up_to() as u32,
        Error::Wanted {
            expected, found, ..
        } => 256 * described(expected) + described(found),
        _ => 0,
    };
    let number = match error {
        Error::ControlCodepoint(..) => 4,
        Error::DeprecatedCodepoint(..) => 5,
        Error::ForbiddenCodepoint(..) => 6,
        Error::Unexpected(..) => 7,
        Error::UnterminatedComment(..) => 8,
        Error::InvalidStringElement(..) => 10,
        Error::InvalidStringEscape(..) => 11,
        Error::WantedChar(..) => 12,
        Error::UnexpectedEof(..) => 13,
        Error::InvalidUtf8(..) => 14,
        Error::NumberTooBig(..) => 15,
        Error::LoneUnderscore(..) => 16,
        Error::InvalidHexDigit(..) => 17,
        Error::InvalidUnicodeValue(..) => 18,
        Error::IdPartEmpty(..) => 19,
        Error::InvalidCharInId(..) => 20,
        Error::Wanted { .. } => 21,
    };
    Numbers {
        number,
        position: error.position(),
        detail,
        ..Numbers::default()
    }
}

/// The kind that a description in `Error::Wanted` names.
fn described(description: &str) -> u32 {
    let kind = TOKENS.iter().position(|t| t.describe() == description);
    kind.map_or(model::END_KIND, |k| k as u32)
}

fn open(text: &str, offset: u32) -> Outcome {
    match Tokenizer::new(text, offset) {
        Ok(t) => Numbers {
            cursor: t.place() as u32,
            ..Numbers::default()
        },
        Err(error) => refused(&error),
    }
    .into()
}

/// A step from a cursor that stands at a character. After a refusal other than 21 the paper's cursor stays where it was.
fn step(text: &str, call: &Call) -> Option<Outcome> {
    let place = call.from as usize;
    if !text.is_char_boundary(place) {
        return None;
    }
    let mut t = Tokenizer::at(text, call.offset, place);
    let found = match call.ask {
        Ask::NextRaw => t.next_raw(),
        Ask::Next => t.next(),
        _ => wanting(&mut t, call)?,
    };
    let numbers = match found {
        Ok(Some((span, token))) => Numbers {
            x: token.number(),
            y: span.start(),
            z: span.end(),
            ..Numbers::default()
        },
        Ok(None) => Numbers {
            x: model::END_KIND,
            ..Numbers::default()
        },
        Err(error) => refused(&error),
    };
    let stays = numbers.number != 0 && numbers.number != 21;
    let cursor = if stays { call.from } else { t.place() as u32 };
    Some(Numbers { cursor, ..numbers }.into())
}

/// Eat or expect. An eat that says yes answers the token that it moved past.
fn wanting(t: &mut Tokenizer, call: &Call) -> Option<Result<Option<(Span, Token)>, Error>> {
    let wanted = *TOKENS.get(call.a as usize)?;
    let before = t.clone();
    Some(match call.ask {
        Ask::Eat => t.eat(wanted).and_then(|yes| match yes {
            true => before.clone().next(),
            false => Ok(None),
        }),
        _ => t.expect(wanted).map(|span| Some((span, wanted))),
    })
}

fn list(text: &str, call: &Call) -> Option<Outcome> {
    let mut words = Vec::new();
    let listed = Tokenizer::new(text, call.offset).and_then(|mut t| loop {
        let token = match call.ask {
            Ask::ListRaw => t.next_raw()?,
            _ => t.next()?,
        };
        match token {
            Some((span, token)) => words.extend([token.number(), span.start(), span.end()]),
            None => return Ok(()),
        }
    });
    match listed {
        Err(error) => Some(refused(&error).into()),
        Ok(()) if words.len() > 3 * model::ROW_CAP || words.len() > call.room => None,
        Ok(()) => Some(Outcome {
            numbers: Numbers {
                x: (words.len() / 3) as u32,
                ..Numbers::default()
            },
            words,
            ..Outcome::default()
        }),
    }
}

/// Decoding, where the text can be opened and the span starts at a quote: the Rust's string rule says whether the span is exactly a
/// string, and its `string_literal` gives the value.
fn string(text: &str, call: &Call) -> Option<Outcome> {
    Tokenizer::new(text, call.offset).ok()?;
    let quote = call.a.checked_sub(call.offset)? as usize;
    if text.as_bytes().get(quote) != Some(&b'"') {
        return None;
    }
    let mut t = Tokenizer::at(text, call.offset, quote + 1);
    let accepted = t.string_rule(call.a).is_ok();
    if !accepted || call.offset + t.place() as u32 != call.b {
        let bad = Numbers {
            number: 22,
            ..Numbers::default()
        };
        return Some(bad.into());
    }
    let value = t.string_literal(Span::new(call.a, call.b));
    let value = known::decoded(text, quote, value.expect("accepted by the rule"));
    if value.len() > call.room {
        return None;
    }
    Some(Outcome {
        numbers: Numbers {
            x: value.len() as u32,
            ..Numbers::default()
        },
        bytes: value,
        ..Outcome::default()
    })
}

/// An identifier, where the span lies in the text, cuts no character, and has a `%` if it should.
fn identifier(text: &str, call: &Call) -> Option<Outcome> {
    let from = call.a.checked_sub(call.offset)? as usize;
    let to = call.b.checked_sub(call.offset)? as usize;
    let token = text.get(from..to)?;
    let t = Tokenizer::at(text, call.offset, 0);
    let span = Span::new(call.a, call.b);
    let parsed = match call.ask {
        Ask::Id => t.parse_id(span),
        _ if !token.starts_with('%') => return None,
        _ => t.parse_explicit_id(span),
    };
    let numbers = match parsed {
        Ok(part) => Numbers {
            x: (part.as_ptr() as usize - text.as_ptr() as usize) as u32,
            y: part.len() as u32,
            ..Numbers::default()
        },
        Err(error) => refused(&error),
    };
    Some(numbers.into())
}

/// A sheet whose names are text and of which no two items share one. The settled count is the paper's own.
fn sort(call: &Call) -> Option<Outcome> {
    let paper = model::answer(call).numbers;
    if !matches!(paper.number, 0 | 29 | 30) {
        return None;
    }
    let map = sheet_map(call.sheet, call.bytes)?;
    let (number, detail, words) = match toposort("interface", &map) {
        Ok(order) => {
            let index = |name: &str| map.get_index_of(name).expect("an item") as u32;
            (0, 0, order.into_iter().map(index).collect())
        }
        Err(error) => match error.kind() {
            ParseErrorKind::ItemNotFound { span, .. } => (29, span.start(), Vec::new()),
            ParseErrorKind::TypeCycle { span, .. } => (30, span.start(), Vec::new()),
        },
    };
    Some(Outcome {
        numbers: Numbers {
            number,
            detail,
            x: paper.x,
            ..Numbers::default()
        },
        words,
        ..Outcome::default()
    })
}

/// The map that toposort.rs takes, from a sheet of good shape. Each dependency's span is its index, so that an error names it.
pub fn sheet_map<'a>(sheet: &[u32], names: &'a [u8]) -> Option<IndexMap<&'a str, Vec<Id<'a>>>> {
    let named = |row: &[u32]| from_utf8(&names[row[0] as usize..][..row[1] as usize]).ok();
    let (items, edges) = sheet[5..].split_at(4 * sheet[0] as usize);
    let mut map = IndexMap::default();
    for item in items.chunks(4) {
        let mut needs = Vec::with_capacity(item[3] as usize);
        for i in item[2]..item[2] + item[3] {
            let edge = &edges[4 * i as usize..][..4];
            needs.push(Id::new(named(edge)?, Span::new(i, i)));
        }
        map.insert(named(item)?, needs);
    }
    Some(map)
}

/// The tokens by number.
pub static TOKENS: [Token; 67] = {
    use Token::*;
    [
        Whitespace,
        Comment,
        Equals,
        Comma,
        Colon,
        Period,
        Semicolon,
        LeftParen,
        RightParen,
        LeftBrace,
        RightBrace,
        LessThan,
        GreaterThan,
        RArrow,
        Star,
        At,
        Slash,
        Plus,
        Minus,
        StringLiteral,
        Use,
        Type,
        Func,
        U8,
        U16,
        U32,
        U64,
        S8,
        S16,
        S32,
        S64,
        F32,
        F64,
        Char,
        Record,
        Resource,
        Own,
        Borrow,
        Flags,
        Variant,
        Enum,
        Bool,
        String_,
        Option_,
        Result_,
        Future,
        Stream,
        ErrorContext,
        List,
        Map,
        Underscore,
        As,
        From_,
        Static,
        Interface,
        Tuple,
        Import,
        Export,
        World,
        Package,
        Constructor,
        Async,
        Id,
        ExplicitId,
        Integer,
        Include,
        With,
    ]
};
