//! `fuzz SECONDS SEED`: texts, sheets and proposed orders by chance, every entry point, spans and cursors anywhere, rooms around the
//! need.

use std::time::{Duration, Instant};

use crate::call::{Ask, Call};
use crate::check::Checker;
use crate::generate::{orders, sheets, texts};
use crate::progress::Progress;
use crate::rng::Rng;
use crate::side::Side;
use crate::walk;

/// Runs for so many seconds. Answers whether nothing differed.
pub fn fuzz(side: Side, seconds: u64, seed: u64) -> bool {
    let mut rng = Rng::new(seed);
    let mut checker = Checker::new(side);
    let mut progress = Progress::new("seconds", seconds);
    let start = Instant::now();
    let (mut made, mut sorted) = (0u64, 0u64);
    while start.elapsed() < Duration::from_secs(seconds) {
        if rng.one_in(4) {
            sheet(&mut checker, &mut rng);
            sorted += 1;
        } else {
            let text = texts::text(&mut rng);
            let offset = texts::offset(&mut rng, text.len());
            self::text(&mut checker, &mut rng, &text, offset);
            made += 1;
        }
        let differing = checker.counts.differing;
        progress.at(start.elapsed().as_secs());
        progress.say(&format!(
            "({made} texts, {sorted} sheets, {differing} differences)"
        ));
    }
    drop(progress);
    println!("seed {seed}: {made} texts and {sorted} sheets in {seconds} s");
    let none = checker.report();
    checker.summary();
    none
}

/// Every entry point over one text.
pub fn text(checker: &mut Checker, rng: &mut Rng, text: &[u8], offset: u32) {
    let opened = checker.check(&Call::new(Ask::Open, text, offset));
    for ask in [Ask::ListRaw, Ask::List] {
        listing(checker, rng, ask, text, offset);
    }
    let from = if rng.one_in(4) {
        0
    } else {
        opened.numbers.cursor
    };
    steps(checker, rng, text, offset, from);
    for _ in 0..3 {
        let from = cursor(rng, text.len());
        let ask = rng.pick(&[Ask::NextRaw, Ask::Next, Ask::Eat, Ask::Expect]);
        let wanted = if ask.wants() { kind(rng) } else { 0 };
        checker.check(&Call::wanting(ask, text, offset, wanted, from));
    }
    for _ in 0..3 {
        let (a, b) = span(rng, text.len(), offset);
        let ask = rng.pick(&[Ask::Id, Ask::ExplicitId, Ask::String]);
        let room = if ask == Ask::String { rng.below(9) } else { 0 };
        checker.check(&Call::span(ask, text, offset, a, b, room));
    }
}

/// A listing into enough, exactly enough, a word less, and any room.
fn listing(checker: &mut Checker, rng: &mut Rng, ask: Ask, text: &[u8], offset: u32) {
    let probe = checker.check(&Call::list(ask, text, offset, 0));
    let need = match probe.numbers.number {
        0 => 0,
        25 => probe.numbers.detail as usize,
        _ => 3 * rng.below(9),
    };
    for room in [need, need + 1 + rng.below(9), need.saturating_sub(1)] {
        checker.check(&Call::list(ask, text, offset, room));
    }
    let room = rng.below(need + 2);
    checker.check(&Call::list(ask, text, offset, room));
}

/// Steps on from a cursor to a refusal, the end, or for a while; strings are decoded and identifiers checked on the way.
fn steps(checker: &mut Checker, rng: &mut Rng, text: &[u8], offset: u32, mut from: u32) {
    let most = if text.len() > 4_096 { 8 } else { 60 };
    for _ in 0..most {
        let ask = rng.pick(&[Ask::NextRaw, Ask::NextRaw, Ask::Next]);
        let step = checker.check(&Call::step(ask, text, offset, from)).numbers;
        let wanted = if rng.one_in(4) { kind(rng) } else { step.x };
        checker.check(&Call::wanting(Ask::Eat, text, offset, wanted, from));
        let expected = checker.check(&Call::wanting(Ask::Expect, text, offset, wanted, from));
        match step.x {
            19 => {
                walk::string(checker, text, offset, step.y, step.z);
                near(checker, rng, Ask::String, text, offset, step.y, step.z);
            }
            20..=63 => {
                let ask = if step.x == 63 {
                    Ask::ExplicitId
                } else {
                    Ask::Id
                };
                checker.check(&Call::span(ask, text, offset, step.y, step.z, 0));
                near(checker, rng, ask, text, offset, step.y, step.z);
            }
            _ => {}
        }
        if step.number != 0 || step.x == 67 {
            break;
        }
        from = if rng.one_in(3) {
            expected.numbers.cursor
        } else {
            step.cursor
        };
    }
}

/// The same question about a span whose ends are moved a little.
fn near(checker: &mut Checker, rng: &mut Rng, ask: Ask, text: &[u8], offset: u32, a: u32, b: u32) {
    let little = |rng: &mut Rng, n: u32| n.wrapping_add(rng.below(3) as u32).wrapping_sub(1);
    let (a, b) = (little(rng, a), little(rng, b));
    checker.check(&Call::span(ask, text, offset, a, b, 40));
}

/// A cursor: anywhere in the text, at its end, beyond it, far beyond it.
fn cursor(rng: &mut Rng, length: usize) -> u32 {
    match rng.below(8) {
        0 => length as u32,
        1 => length as u32 + 1,
        2 => rng.pick(&[u32::MAX, 65_536, 65_537, 1 << 31]),
        _ => rng.below(length + 1) as u32,
    }
}

/// A wanted kind: mostly one that is, sometimes just past the last, sometimes any number.
fn kind(rng: &mut Rng) -> u32 {
    match rng.below(12) {
        0 => 67,
        1 => rng.word(),
        2 => 66,
        _ => rng.below(67) as u32,
    }
}

/// A span: in the text, around its ends, or any two numbers.
fn span(rng: &mut Rng, length: usize, offset: u32) -> (u32, u32) {
    let end = |rng: &mut Rng| match rng.below(8) {
        0 => offset,
        1 => offset.wrapping_add(length as u32),
        2 => offset.wrapping_add(length as u32 + 1),
        3 => offset.wrapping_sub(1),
        4 => rng.pick(&[0, u32::MAX, u32::MAX - 1]),
        _ => offset.wrapping_add(rng.below(length + 1) as u32),
    };
    (end(rng), end(rng))
}

/// A sheet into orders around the need.
pub fn sheet(checker: &mut Checker, rng: &mut Rng) {
    let sheet = sheets::by_chance(rng);
    let n = sheet.words.first().map_or(0, |n| *n as usize).min(260);
    for room in [
        n,
        n + 1 + rng.below(3),
        n.saturating_sub(1),
        rng.below(n + 2),
    ] {
        checker.check(&Call::sort(&sheet.words, &sheet.names, room));
    }
    order(checker, rng, &sheet);
}

/// Orders of a sheet: the one that is proposed for it, which is then checked, and others by chance, good and damaged.
fn order(checker: &mut Checker, rng: &mut Rng, sheet: &sheets::Sheet) {
    let (words, names) = (&sheet.words, &sheet.names);
    let n = words.first().map_or(0, |n| *n as usize).min(260);
    let room = n + rng.below(3);
    let offered = checker.check(&Call::propose(words, names, room));
    checker.check(&Call::check_order(words, names, &offered.words));
    for _ in 0..4 {
        let list = orders::by_chance(rng, words, names);
        checker.check(&Call::check_order(words, names, &list));
    }
}
