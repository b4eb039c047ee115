//! The inputs of lex.rs's own tests, taken from lex.rs as it lies there.

use old_side::ast::LEX;

use super::Recorder;
use crate::call::{Ask, Call};

/// Records each input of the three tests, at an offset other than the tests' own 0 too.
pub fn record(recorder: &mut Recorder) {
    for offset in [0, 77] {
        for id in literals("fn test_validate_id", "validate_id(0, ") {
            let end = offset + id.len() as u32;
            recorder.record(&Call::span(Ask::Id, &id, offset, offset, end, 0));
        }
        for text in literals("fn test_tokenizer", "collect(") {
            for ask in [Ask::List, Ask::ListRaw] {
                recorder.record(&Call::list(ask, &text, offset, 3 * text.len()));
            }
        }
        for text in literals("fn test_strings", "test(") {
            let end = offset + text.len() as u32;
            recorder.record(&Call::list(Ask::List, &text, offset, 3));
            recorder.record(&Call::span(Ask::String, &text, offset, offset, end, 8));
        }
    }
}

/// The first string literal behind each occurrence of a word in a test.
fn literals(test: &str, word: &str) -> Vec<Vec<u8>> {
    let start = LEX.find(test).expect("a test of lex.rs");
    let body = &LEX[start + test.len()..];
    let body = &body[..body.find("\n}\n").unwrap_or(body.len())];
    let mut found = Vec::new();
    for part in body.split(word).skip(1) {
        if let Some(quoted) = part.trim_start().strip_prefix('"') {
            found.push(unescaped(quoted));
        }
    }
    assert!(!found.is_empty(), "lex.rs has inputs in {test}");
    found
}

/// What a Rust string literal holds, from behind its quote.
fn unescaped(literal: &str) -> Vec<u8> {
    let mut value = String::new();
    let mut chars = literal.chars();
    loop {
        match chars.next().expect("a closed literal") {
            '"' => return value.into_bytes(),
            '\\' => match chars.next().expect("an escape") {
                't' => value.push('\t'),
                'n' => value.push('\n'),
                'r' => value.push('\r'),
                '0' => value.push('\0'),
                'u' => {
                    let digits: String = chars.by_ref().take_while(|c| *c != '}').collect();
                    let number = u32::from_str_radix(&digits[1..], 16).expect("a number");
                    value.push(char::from_u32(number).expect("a scalar"));
                }
                c => value.push(c),
            },
            c => value.push(c),
        }
    }
}
