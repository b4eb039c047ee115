//! The calls that a text invites, made one after another.

use crate::call::{Ask, Call};
use crate::check::Checker;

/// Every call on a text of a few bytes: opening, listings in tables around the need, all steps from every place, every span.
pub fn small_text(checker: &mut Checker, text: &[u8], offset: u32) {
    checker.check(&Call::new(Ask::Open, text, offset));
    for ask in [Ask::ListRaw, Ask::List] {
        let room = 3 * text.len() + 3;
        let rows = checker
            .check(&Call::list(ask, text, offset, room))
            .numbers
            .x as usize;
        if rows > 0 {
            checker.check(&Call::list(ask, text, offset, 3 * rows));
            checker.check(&Call::list(ask, text, offset, 3 * rows - 1));
        }
    }
    let length = text.len() as u32;
    for from in 0..=length + 1 {
        let raw = checker.check(&Call::step(Ask::NextRaw, text, offset, from));
        let next = checker.check(&Call::step(Ask::Next, text, offset, from));
        if from > 1 && from < length {
            continue;
        }
        // what a step finds, and its neighbour: a yes and a no; and a no for what is skipped
        let (raw, next) = (raw.numbers.x, next.numbers.x);
        let kinds = [next, next + 1, raw];
        for &wanted in &kinds[..if raw == next { 2 } else { 3 }] {
            checker.check(&Call::wanting(Ask::Eat, text, offset, wanted, from));
            checker.check(&Call::wanting(Ask::Expect, text, offset, wanted, from));
        }
    }
    let spans = [(0, length), (1, length), (0, length.saturating_sub(1))];
    for (a, b) in spans {
        for ask in [Ask::Id, Ask::ExplicitId] {
            checker.check(&Call::span(ask, text, offset, offset + a, offset + b, 0));
        }
    }
    for quote in (0..length).filter(|&i| text[i as usize] == b'"') {
        for end in quote..=length {
            string(checker, text, offset, offset + quote, offset + end);
        }
    }
}

/// Decodes a span into buffers around the need.
pub fn string(checker: &mut Checker, text: &[u8], offset: u32, a: u32, b: u32) -> bool {
    let room = (b.saturating_sub(a) as usize).min(70_000) + 2;
    let made = checker.check(&Call::span(Ask::String, text, offset, a, b, room));
    if made.numbers.number != 0 {
        return false;
    }
    let need = made.bytes.len();
    checker.check(&Call::span(Ask::String, text, offset, a, b, need));
    if need > 0 {
        checker.check(&Call::span(Ask::String, text, offset, a, b, need - 1));
    }
    true
}
