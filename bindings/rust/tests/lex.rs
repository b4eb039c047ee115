//! The inputs of lex.rs's own tests, over this crate.

use witbox::Token::*;
use witbox::{list, list_raw, validate_id, At, Error, Token, Tokenizer};

const GOOD_IDS: [&str; 16] = [
    "apple",
    "apple-pear",
    "apple-pear-grape",
    "a0",
    "a",
    "a-a",
    "bool",
    "APPLE",
    "APPLE-PEAR",
    "APPLE-PEAR-GRAPE",
    "apple-PEAR-grape",
    "APPLE-pear-GRAPE",
    "ENOENT",
    "is-XML",
    "apple-0",
    "a0-000-3d4a-54FF",
];

const BAD_IDS: [&str; 39] = [
    "",
    "0",
    "%",
    "$",
    "0a",
    ".",
    "·",
    "a a",
    "_",
    "-",
    "a-",
    "-a",
    "Apple",
    "applE",
    "-apple-pear",
    "apple-pear-",
    "apple_pear",
    "apple.pear",
    "apple pear",
    "apple/pear",
    "apple|pear",
    "apple-Pear",
    "()()",
    "",
    "*",
    "apple\u{5f3}pear",
    "apple\u{200c}pear",
    "apple\u{200d}pear",
    "apple--pear",
    "_apple",
    "apple_",
    "_Znwj",
    "__i386",
    "__i386__",
    "Москва",
    "garçon-hühnervögel-Москва-東京",
    "a0-000-3d4A-54Ff",
    "😼",
    "\u{212b}",
];

#[test]
fn test_validate_id() {
    for id in GOOD_IDS {
        assert_eq!(validate_id(0, id), Ok(()), "{id:?}");
    }
    for id in BAD_IDS {
        let refusal = validate_id(9, id).expect_err(id);
        assert!(matches!(refusal.number(), 19 | 20), "{id:?}");
        assert_eq!(refusal.at(), Some(At::Map(9)), "{id:?}");
    }
}

#[test]
fn ids_at_the_caps() {
    assert_eq!(validate_id(u32::MAX, "a"), Err(Error::OutOfMap));
    assert_eq!(validate_id(u32::MAX - 2, "a"), Ok(()));
    let long = "a".repeat(65_537);
    assert_eq!(validate_id(0, &long), Err(Error::TooLong(65_537)));
    assert_eq!(validate_id(0, &long[1..]), Ok(()));
}

/// The kinds by steps; the listing must have the same.
fn collect(text: &str) -> Result<Vec<Token>, Error> {
    let kinds = (|| {
        let mut tokens = Tokenizer::new(text, 0)?;
        let mut kinds = Vec::new();
        while let Some((_, token)) = tokens.next()? {
            kinds.push(token);
        }
        Ok(kinds)
    })();
    let listed = list(text, 0).map(|rows| rows.iter().map(|row| row.token).collect());
    assert_eq!(kinds, listed, "{text:?}");
    kinds
}

#[test]
fn test_tokenizer() {
    for text in [
        "apple",
        "apple-pear",
        "apple--pear",
        "apple-Pear",
        "apple-pear-grape",
        "_a_p_p_l_e_",
        "garçon",
        "hühnervögel",
        "москва",
        "東京",
        "garçon-hühnervögel-москва-東京",
        "a0",
        "a",
    ]
    .into_iter()
    .chain(GOOD_IDS[7..14].iter().copied())
    {
        assert_eq!(collect(text), Ok(vec![Id]), "{text:?}");
    }
    for text in ["%a", "%a-a", "%bool", "%"] {
        assert_eq!(collect(text), Ok(vec![ExplicitId]), "{text:?}");
    }
    let rows: [(&str, &[Token]); 9] = [
        ("", &[]),
        ("_", &[Underscore]),
        ("apple pear", &[Id, Id]),
        ("func", &[Func]),
        ("a: func()", &[Id, Colon, Func, LeftParen, RightParen]),
        ("resource", &[Resource]),
        ("own", &[Own]),
        ("own<some-id>", &[Own, LessThan, Id, GreaterThan]),
        ("borrow<some-id>", &[Borrow, LessThan, Id, GreaterThan]),
    ];
    for (text, kinds) in rows {
        assert_eq!(collect(text).as_deref(), Ok(kinds), "{text:?}");
    }
    assert_eq!(collect("borrow"), Ok(vec![Borrow]));
}

/// A name in any script is an identifier to the tokenizer, and its check refuses it.
#[test]
fn names_in_every_script() {
    let text = "interface %δωμάτιο { use ορόφους.{κλειδί}; }";
    let kinds = [
        Interface, ExplicitId, LeftBrace, Use, Id, Period, LeftBrace, Id, RightBrace, Semicolon,
        RightBrace,
    ];
    assert_eq!(collect(text).as_deref(), Ok(&kinds[..]));
    let mut tokens = Tokenizer::new(text, 100).unwrap();
    tokens.expect(Interface).unwrap();
    let name = tokens.expect(ExplicitId).unwrap();
    assert_eq!(tokens.get_span(name), "%δωμάτιο");
    let refusal = tokens.parse_explicit_id(name);
    assert_eq!(refusal, Err(Error::InvalidCharInId(110, 'δ')));
    // letters of four bytes, and a mark behind a letter
    for text in ["\u{10400}", "\u{20000}", "a\u{301}"] {
        assert_eq!(collect(text), Ok(vec![Id]), "{text:?}");
    }
}

/// A mark begins no token; what Unicode 14 has no letter for begins none and ends the name before it, as the byte order mark does.
#[test]
fn strangers_in_names() {
    for found in ['\u{301}', '\u{200c}', '\u{2c2}', '\u{1e4d0}', '\u{10ffff}'] {
        let text = found.to_string();
        assert_eq!(collect(&text), Err(Error::Unexpected(0, found)));
    }
    for found in ['\u{feff}', '\u{2c2}', '\u{200c}', '\u{cf3}'] {
        let text = format!("λ{found}");
        assert_eq!(collect(&text), Err(Error::Unexpected(2, found)));
    }
}

#[test]
fn test_tokenizer_refusals() {
    for text in ["\u{149}", "\u{673}", "\u{17a3}", "\u{17a4}"] {
        let found = text.chars().next().unwrap();
        assert_eq!(collect(text), Err(Error::DeprecatedCodepoint(0, found)));
    }
    for text in ["\u{202a}", "\u{2068}"] {
        let found = text.chars().next().unwrap();
        assert_eq!(collect(text), Err(Error::ForbiddenCodepoint(0, found)));
    }
    for text in ["\u{0}", "\u{b}", "\u{c}", "\u{85}"] {
        let found = text.chars().next().unwrap();
        assert_eq!(collect(text), Err(Error::ControlCodepoint(0, found)));
    }
}

#[track_caller]
fn string(text: &str, expected: Result<&str, Error>) {
    let actual = (|| {
        let mut tokens = Tokenizer::new(text, 0)?;
        let span = tokens.expect(StringLiteral)?;
        assert_eq!(tokens.next()?, None, "more behind the string: {text:?}");
        tokens.string_literal(span)
    })();
    assert_eq!(actual.as_deref(), expected.as_ref().copied(), "{text:?}");
}

#[test]
fn test_strings() {
    string("\"\"", Ok(""));
    string("\"a\"", Ok("a"));
    string("\"a b c\"", Ok("a b c"));

    string("\"\\\"\"", Ok("\""));
    string("\"\\t\"", Ok("\t"));
    string("\"\\n\"", Ok("\n"));
    string("\"\\r\"", Ok("\r"));
    string("\"\\\\\"", Ok("\\"));
    string("\"\\h\"", Err(Error::InvalidStringEscape(2, 'h')));

    string("\"\\00\"", Ok("\0"));
    string("\"\\01\"", Ok("\x01"));
    string("\"\\0f\"", Ok("\x0f"));
    string("\"\\0_1\"", Err(Error::InvalidHexDigit(3, '_')));
    string("\"\\0g\"", Err(Error::InvalidHexDigit(3, 'g')));
    string("\"\\ff\"", Err(Error::InvalidUtf8(0, 0)));

    string("\"\\u{0}\"", Ok("\0"));
    string("\"\\u{1}\"", Ok("\x01"));
    string("\"\\u{1_2_3_f}\"", Ok("\u{123f}"));
    string("\"\\u0000\"", Err(Error::WantedChar(3, '{')));
    string("\"\\u{0h\"", Err(Error::WantedChar(5, '}')));
    string("\"\\u{1_}\"", Err(Error::LoneUnderscore(4)));
    string(
        "\"\\u{fffffffffffffffffffff}\"",
        Err(Error::NumberTooBig(12)),
    );
    string(
        "\"\\u{ffff_ffff}\"",
        Err(Error::InvalidUnicodeValue(2, u32::MAX)),
    );

    string("\"\t\"", Err(Error::InvalidStringElement(1, '\t')));
}

#[test]
fn raw_rows_cover_the_text() {
    let text = "\u{feff}use a->b; // c\r\n/* d /* e */ */ \"λ\" 12";
    let rows = list_raw(text, 100).unwrap();
    let mut end = 103;
    for row in &rows {
        assert_eq!(row.span.start(), end);
        end = row.span.end();
    }
    assert_eq!(end as usize, 100 + text.len());
    let mut tokens = Tokenizer::new(text, 100).unwrap();
    for row in rows {
        assert_eq!(tokens.next_raw(), Ok(Some((row.span, row.token))));
    }
    assert_eq!(tokens.next_raw(), Ok(None));
    assert_eq!(tokens.eof_span().start(), end);
}
