//! The same work on both sides.

use std::hint::black_box;

use old_side::ast::lex::{Span, Token, Tokenizer};
use old_side::ast::toposort::toposort;

use super::inputs::{self, listable};
use crate::call::{Ask, Call, Numbers};
use crate::generate::sheets::Sheet;
use crate::model::{END_KIND, ROW_CAP};
use crate::old::sheet_map;

/// The offset that texts are read at.
const OFFSET: u32 = 1_000;

/// What makes the new side's calls, over plain slices.
pub trait Runner {
    fn run(call: &Call, words: &mut [u32], bytes: &mut [u8]) -> Numbers;
}

/// One piece of work, to be done by both sides.
pub struct Pair {
    /// What is done.
    pub work: &'static str,
    /// What it is done to.
    pub input: String,
    pub old: Box<dyn FnMut()>,
    pub new: Box<dyn FnMut()>,
}

/// All that is timed.
pub fn pairs<R: Runner + 'static>() -> Vec<Pair> {
    let mut pairs = Vec::new();
    for text in inputs::texts() {
        let cut = listable(&text.bytes).to_vec();
        for (work, bytes) in [
            ("open", &text.bytes),
            ("open, list raw", &cut),
            ("open, list filtered", &cut),
            ("open, raw steps", &text.bytes),
        ] {
            let kib = bytes.len() as f64 / 1024.0;
            let input = format!("{}, {kib:.1} KiB", text.name);
            pairs.push(text_pair::<R>(work, input, bytes.clone()));
        }
        let spans = spans(&text.bytes, |t| t == Token::StringLiteral);
        if text.name == "strings" {
            let input = format!("{} strings", spans.len());
            pairs.push(decoding::<R>(input, text.bytes.clone(), spans));
        }
        let names = self::spans(&text.bytes, |t| t == Token::Id);
        if matches!(text.name, "realistic" | "Greek" | "words" | "Greek words") {
            let input = format!("{}, {} identifiers", text.name, names.len());
            pairs.push(identifiers::<R>(input, text.bytes.clone(), names));
        }
    }
    for sheet in inputs::sheets() {
        pairs.push(sorting::<R>(sheet.name.into(), sheet.sheet));
    }
    pairs
}

fn str(bytes: &[u8]) -> &str {
    std::str::from_utf8(bytes).expect("a text")
}

/// The spans of a text's tokens of some kind.
fn spans(bytes: &[u8], of: fn(Token) -> bool) -> Vec<(u32, u32)> {
    let mut t = Tokenizer::new(str(bytes), OFFSET).expect("a text that opens");
    let mut spans = Vec::new();
    while let Some((span, token)) = t.next().expect("a text without a fault") {
        if of(token) {
            spans.push((span.start(), span.end()));
        }
    }
    spans
}

/// Opening, listing or stepping over a text.
fn text_pair<R: Runner + 'static>(work: &'static str, input: String, bytes: Vec<u8>) -> Pair {
    let text = bytes.clone();
    let mut rows: Vec<u32> = Vec::with_capacity(3 * ROW_CAP);
    let old: Box<dyn FnMut()> = match work {
        "open" => Box::new(move || {
            black_box(Tokenizer::new(str(black_box(&text)), OFFSET).is_ok());
        }),
        "open, raw steps" => Box::new(move || {
            let mut t = Tokenizer::new(str(black_box(&text)), OFFSET).expect("opens");
            while let Some(token) = black_box(t.next_raw().expect("no fault")) {
                black_box(token);
            }
        }),
        _ => {
            let raw = work == "open, list raw";
            Box::new(move || {
                rows.clear();
                let mut t = Tokenizer::new(str(black_box(&text)), OFFSET).expect("opens");
                let step = if raw {
                    Tokenizer::next_raw
                } else {
                    Tokenizer::next
                };
                while let Some((span, token)) = step(&mut t).expect("no fault") {
                    rows.extend([token.number(), span.start(), span.end()]);
                }
                black_box(&rows);
            })
        }
    };
    let mut table = vec![0; 3 * ROW_CAP];
    let new: Box<dyn FnMut()> = match work {
        "open" => Box::new(move || {
            let call = Call::new(Ask::Open, black_box(&bytes), OFFSET);
            assert_eq!(black_box(R::run(&call, &mut [], &mut [])).number, 0);
        }),
        "open, raw steps" => Box::new(move || {
            let call = Call::new(Ask::Open, black_box(&bytes), OFFSET);
            let mut at = R::run(&call, &mut [], &mut []).cursor;
            loop {
                let call = Call::step(Ask::NextRaw, &bytes, OFFSET, at);
                let step = black_box(R::run(&call, &mut [], &mut []));
                at = step.cursor;
                if step.x == END_KIND || step.number != 0 {
                    assert_eq!(step.number, 0);
                    break;
                }
            }
        }),
        _ => {
            let ask = match work {
                "open, list raw" => Ask::ListRaw,
                _ => Ask::List,
            };
            Box::new(move || {
                let call = Call::list(ask, black_box(&bytes), OFFSET, table.len());
                assert_eq!(R::run(&call, &mut table, &mut []).number, 0);
                black_box(&table);
            })
        }
    };
    Pair {
        work,
        input,
        old,
        new,
    }
}

/// Every string of a text.
fn decoding<R: Runner + 'static>(input: String, bytes: Vec<u8>, spans: Vec<(u32, u32)>) -> Pair {
    let (text, old_spans) = (bytes.clone(), spans.clone());
    let mut buffer = vec![0; 4_096];
    Pair {
        work: "decoding",
        input,
        old: Box::new(move || {
            let mut t = Tokenizer::at(str(&text), OFFSET, 0);
            for &(a, b) in &old_spans {
                black_box(t.string_literal(Span::new(a, b)).expect("a string"));
            }
        }),
        new: Box::new(move || {
            for &(a, b) in &spans {
                let call = Call::span(Ask::String, black_box(&bytes), OFFSET, a, b, buffer.len());
                assert_eq!(R::run(&call, &mut [], &mut buffer).number, 0);
            }
        }),
    }
}

/// Every identifier of a text.
fn identifiers<R: Runner + 'static>(input: String, bytes: Vec<u8>, spans: Vec<(u32, u32)>) -> Pair {
    let (text, old_spans) = (bytes.clone(), spans.clone());
    Pair {
        work: "identifiers",
        input,
        old: Box::new(move || {
            let t = Tokenizer::at(str(&text), OFFSET, 0);
            for &(a, b) in &old_spans {
                black_box(t.parse_id(Span::new(a, b)).is_ok());
            }
        }),
        new: Box::new(move || {
            for &(a, b) in &spans {
                let call = Call::span(Ask::Id, black_box(&bytes), OFFSET, a, b, 0);
                black_box(R::run(&call, &mut [], &mut []).number == 0);
            }
        }),
    }
}

/// A sheet to an order: the Rust builds its map from the sheet first.
fn sorting<R: Runner + 'static>(input: String, sheet: Sheet) -> Pair {
    let old_sheet = sheet.clone();
    let mut order = vec![0; 256];
    Pair {
        work: "sorting",
        input,
        old: Box::new(move || {
            let map = sheet_map(black_box(&old_sheet.words), &old_sheet.names).expect("a sheet");
            black_box(toposort("interface", &map).is_ok());
        }),
        new: Box::new(move || {
            let call = Call::sort(black_box(&sheet.words), &sheet.names, order.len());
            assert_eq!(R::run(&call, &mut order, &mut []).number, 0);
        }),
    }
}
