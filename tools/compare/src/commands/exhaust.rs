//! `exhaust [LENGTH]`: every text up to a length over a telling alphabet, at two offsets; every scalar; every short byte sequence;
//! every small sheet, and every short list proposed as its order.

use crate::call::{Ask, Call};
use crate::check::Checker;
use crate::generate::{orders, sheets};
use crate::progress::Progress;
use crate::side::Side;
use crate::{share, walk};

/// The symbols: each is there for a rule that it starts, extends, ends or breaks.
pub const ALPHABET: [&[u8]; 22] = [
    b"\"",
    b"\\",
    b"u",
    b"{",
    b"}",
    b"_",
    b"-",
    b">",
    b"/",
    b"*",
    b"%",
    b"\r",
    b"\n",
    b" ",
    b"0",
    b"a",
    b"B",
    b"\xe2",         // begins a character of three bytes, which nothing here finishes
    b"\xc3\xa9",     // U+00E9, a letter of two bytes
    b"\xcc\x81",     // U+0301, a mark: goes on with a word and begins none
    b"\xef\xbb\xbf", // U+FEFF, the byte order mark
    b"\xff",         // never part of a character
];

/// Two offsets: 0, where a place and a position look alike, and one where they do not.
const OFFSETS: [u32; 2] = [0, 1_000_003];

/// Runs all of it. Answers whether nothing differed.
pub fn exhaust(side: Side, length: usize, jobs: usize) -> bool {
    let mut total = Checker::new(side);
    let texts: usize = (0..=length).map(|n| ALPHABET.len().pow(n as u32)).sum();
    println!(
        "every text of up to {length} of {} symbols, at offsets {} and {}: {texts} texts",
        ALPHABET.len(),
        OFFSETS[0],
        OFFSETS[1]
    );
    texts_of(&mut total, side, length, jobs);
    let scalars = if length >= 4 { 0x11_0000 } else { 0x3_000 };
    println!("every scalar below U+{scalars:04X}: alone, in a word, in a string, behind marks");
    every_scalar(&mut total, scalars);
    let bytes = if length >= 5 { 3 } else { 2 };
    println!("every sequence of up to {bytes} bytes, opened");
    every_bytes(&mut total, bytes);
    let items = if length >= 4 { 3 } else { 2 };
    println!("every sheet of up to {items} items and 4 dependencies, and its first words damaged");
    every_sheet(&mut total, items);
    println!("every list of up to a word more than items for each of them, as its order");
    every_order(&mut total, items);
    let none = total.report();
    total.summary();
    none
}

/// Shares the texts out by their first two symbols.
fn texts_of(total: &mut Checker, side: Side, length: usize, jobs: usize) {
    let n = ALPHABET.len();
    let starts = if length < 2 { 1 } else { n * n };
    let checkers = share::out(
        jobs,
        Progress::new("starts", starts as u64),
        || Checker::new(side),
        |checker, start| {
            if length < 2 {
                longer(checker, &mut Vec::new(), length);
            } else {
                from(checker, start, length);
            }
        },
    );
    for checker in checkers {
        total.absorb(checker);
    }
}

/// Every text that begins with two given symbols; start 0 has the shorter texts too.
fn from(checker: &mut Checker, start: usize, length: usize) {
    let n = ALPHABET.len();
    if start == 0 {
        longer(checker, &mut Vec::new(), 1);
    }
    let mut text = [ALPHABET[start / n], ALPHABET[start % n]].concat();
    longer(checker, &mut text, length - 2);
}

/// The text and every text that is longer by up to so many symbols.
fn longer(checker: &mut Checker, text: &mut Vec<u8>, more: usize) {
    for offset in OFFSETS {
        walk::small_text(checker, text, offset);
    }
    if more == 0 {
        return;
    }
    let length = text.len();
    for symbol in ALPHABET {
        text.extend(symbol);
        longer(checker, text, more - 1);
        text.truncate(length);
    }
}

/// Every scalar by itself and next to what may test or classify it.
fn every_scalar(total: &mut Checker, end: u32) {
    let mut progress = Progress::new("scalars", end as u64);
    let beside = [
        "", "a", "%", "-", "/", "0", "\"", "\"\\", "\"\\u{1", "//", " ",
    ];
    for c in (0..end).filter_map(char::from_u32) {
        progress.advance(1);
        for before in beside {
            let text = format!("{before}{c}");
            let bytes = text.as_bytes();
            let deep = before.is_empty() || c < '\u{3000}';
            total.check(&Call::step(Ask::NextRaw, bytes, 5, 0));
            if !deep {
                continue;
            }
            total.check(&Call::new(Ask::Open, bytes, 5));
            total.check(&Call::list(Ask::ListRaw, bytes, 5, 12));
            let end = 5 + bytes.len() as u32;
            total.check(&Call::span(Ask::Id, bytes, 5, 5, end, 0));
            total.check(&Call::span(Ask::ExplicitId, bytes, 5, 5, end, 0));
            if before == "\"" {
                let text = format!("\"{c}\"");
                total.check(&Call::span(Ask::String, text.as_bytes(), 5, 5, end + 1, 8));
            }
        }
    }
}

/// Every sequence of so many bytes, opened, and read as a character inside a comment.
fn every_bytes(total: &mut Checker, most: usize) {
    let mut progress = Progress::new("first bytes", 256 * most as u64);
    for length in 1..=most {
        for first in 0..=255u8 {
            progress.advance(1);
            let rest = 256usize.pow(length as u32 - 1);
            for more in 0..rest {
                let tail = [(more >> 8) as u8, more as u8];
                let text = [&[first][..], &tail[3 - length..]].concat();
                total.check(&Call::new(Ask::Open, &text, 9));
            }
        }
    }
    for lead in 0xee..=0xff_u8 {
        for second in 0..=255u8 {
            for tail in [
                [0x80, 0x80],
                [0xbf, 0xbf],
                [0x7f, 0x80],
                [0x80, 0xc0],
                [0x80, 0x41],
            ] {
                let text = [b'/', b'/', lead, second, tail[0], tail[1]];
                total.check(&Call::new(Ask::Open, &text, 9));
                total.check(&Call::step(Ask::NextRaw, &text, 9, 0));
            }
        }
    }
}

/// Every small sheet, and each with each word damaged.
fn every_sheet(total: &mut Checker, items: usize) {
    sheets::every(items, 4, |sheet, names| {
        let n = sheet[0] as usize;
        for room in [n, n + 1, n.saturating_sub(1)] {
            total.check(&Call::sort(sheet, names, room));
        }
        if sheet[1] > 2 {
            return;
        }
        for at in 0..sheet.len() {
            for word in sheets::damaged(sheet[at]) {
                let mut broken = sheet.to_vec();
                broken[at] = word;
                total.check(&Call::sort(&broken, names, n));
            }
        }
        total.check(&Call::sort(&sheet[..sheet.len() - 1], names, n));
        total.check(&Call::sort(&[sheet, &[0]].concat(), names, n));
    });
}

/// Every small sheet, every short list as its order, and the order that is proposed.
fn every_order(total: &mut Checker, items: usize) {
    sheets::every(items, 4, |sheet, names| {
        let n = sheet[0];
        orders::every(n, n as usize + 1, |list| {
            total.check(&Call::check_order(sheet, names, list));
        });
        for room in [n as usize, n as usize + 1, (n as usize).saturating_sub(1)] {
            total.check(&Call::propose(sheet, names, room));
        }
    });
}
