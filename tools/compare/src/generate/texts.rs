//! Texts by chance: fragments, strings, words of many scripts, realistic WIT, bare bytes, and any of them damaged.

use super::{scripts, wit};
use crate::model::KEYWORDS;
use crate::rng::Rng;

/// Pieces that start, extend, end or break a token.
pub const FRAGMENTS: [&[u8]; 80] = [
    b"a",
    b"b",
    b"Z",
    b"a-b",
    b"a--b",
    b"a-",
    b"x1",
    b"apple-PEAR",
    b"apple-Pear",
    b"_",
    b"__",
    b"-",
    b"->",
    b"-->",
    b">",
    b"<",
    b"=",
    b",",
    b":",
    b".",
    b";",
    b"(",
    b")",
    b"{",
    b"}",
    b"*",
    b"@",
    b"+",
    b"/",
    b"//",
    b"/*",
    b"*/",
    b"/*/",
    b"/**/",
    b"%",
    b"%a",
    b"%-",
    b"%_",
    b"%9",
    b"0",
    b"42",
    b"1_0",
    b"\"",
    b"\"\"",
    b"\"a\"",
    b"\\",
    b"\\u{",
    b"\\u{1_}",
    b"\\u{41}",
    b"\\c3",
    b"\\ff",
    b"'",
    b"#",
    b" ",
    b"\t",
    b"\n",
    b"\r\n",
    b"\r",
    b"\r\r\n",
    b"\x00",
    b"\x1f",
    b"\x7f",
    b"\xc2\x85",         // U+0085, a control
    b"\xc2\xb7",         // U+00B7, continues a word but begins none
    b"\xc3\xa9",         // U+00E9
    b"\xc3\x97",         // U+00D7, between letters
    b"\xc5\x89",         // U+0149, deprecated
    b"\xcb\x81",         // U+02C1, a letter
    b"\xcb\x82",         // U+02C2, none
    b"\xcc\x81",         // U+0301, a mark: goes on with a word and begins none
    b"\xce\xbb",         // a Greek letter
    b"\xe6\x9d\xb1",     // a Chinese one
    b"\xf0\x90\x90\x80", // U+10400, a letter of four bytes
    b"\xe2\x80\x8c",     // U+200C, a joiner: in no word
    b"\xe2\x80\xae",     // U+202E, forbidden
    b"\xef\xbb\xbf",     // the byte order mark
    b"\xf0\x9f\x98\xbc", // four bytes
    b"\xed\xa0\x80",     // a surrogate
    b"\xc0\x80",         // overlong
    b"\xf4\x90\x80\x80", // above U+10FFFF
];

/// What stands in a string: good escapes, bad ones and raw characters.
const INSIDE: [&[u8]; 34] = [
    b"a",
    b"Z",
    b" ",
    b"\\\"",
    b"\\'",
    b"\\\\",
    b"\\t",
    b"\\n",
    b"\\r",
    b"\\0a",
    b"\\c3\\a9",
    b"\\e2\\82\\ac",
    b"\\f0\\9f\\98\\bc",
    b"\\c3",
    b"\\80",
    b"\\ed\\a0\\80",
    b"\\u{0}",
    b"\\u{e9}",
    b"\\u{10_ff_ff}",
    b"\\u{1__2}",
    b"\\u{d800}",
    b"\\u{110000}",
    b"\\u{ffff_ffff}",
    b"\\u{1_0000_0000}",
    b"\\u{1_}",
    b"\\u{_1}",
    b"\\u{}",
    b"\\u{41",
    b"\\u41",
    b"\\x",
    b"\xc3\xa9",
    b"\xce\xbb",
    b"\xef\xbb\xbf",
    b"\t",
];

/// A text by chance.
pub fn text(rng: &mut Rng) -> Vec<u8> {
    let mut text = match rng.below(16) {
        0 if rng.one_in(4) => long(rng),
        0 => bytes(rng),
        1..=5 => soup(rng),
        6..=8 => string(rng),
        9..=10 => words(rng),
        11..=12 => scripts::words(rng).into_bytes(),
        _ => {
            let tongue = rng.pick(&[&wit::ENGLISH, &wit::ENGLISH, &wit::GREEK]);
            let size = rng.pick(&[80, 300, 1_500]);
            wit::source(rng, tongue, size).into_bytes()
        }
    };
    if rng.one_in(3) {
        damage(rng, &mut text);
    }
    if rng.one_in(12) {
        text.splice(0..0, *b"\xef\xbb\xbf");
    }
    text
}

fn bytes(rng: &mut Rng) -> Vec<u8> {
    let length = rng.below(24);
    (0..length).map(|_| rng.word() as u8).collect()
}

fn soup(rng: &mut Rng) -> Vec<u8> {
    let mut text = Vec::new();
    for _ in 0..rng.below(14) {
        text.extend(rng.of(&FRAGMENTS));
    }
    text
}

/// A string, mostly closed, mostly without a fault.
pub fn string(rng: &mut Rng) -> Vec<u8> {
    let mut text = if rng.one_in(3) {
        rng.of(&FRAGMENTS).to_vec()
    } else {
        Vec::new()
    };
    text.push(b'"');
    let good = rng.one_in(2);
    for _ in 0..rng.below(8) {
        let piece = rng.below(if good { 13 } else { INSIDE.len() });
        text.extend(INSIDE[piece]);
    }
    if !rng.one_in(8) {
        text.push(b'"');
    }
    if rng.one_in(4) {
        text.extend(rng.of(&FRAGMENTS));
    }
    text
}

/// Keywords, words that are almost one, and identifiers.
fn words(rng: &mut Rng) -> Vec<u8> {
    let mut text = Vec::new();
    for _ in 0..1 + rng.below(6) {
        let mut word = KEYWORDS[rng.below(KEYWORDS.len())].0.as_bytes().to_vec();
        match rng.below(8) {
            0 => drop(word.pop()),
            1 => word.push(rng.pick(b"s-_09aZ")),
            2 => {
                let at = rng.below(word.len());
                word[at] ^= 0x20;
            }
            3 => {
                let at = rng.below(word.len());
                word[at] = rng.pick(b"abcdefgh-0");
            }
            4 => word.insert(0, b'%'),
            _ => {}
        }
        text.extend(word);
        text.push(rng.pick(b" \n;-.{"));
    }
    text
}

/// A text near a cap: many rows, or about as many bytes as are allowed.
fn long(rng: &mut Rng) -> Vec<u8> {
    if rng.one_in(3) {
        let mut text = vec![rng.pick(b"; a0/\"\n\xc3"); 65_533 + rng.below(6)];
        if rng.one_in(2) {
            let end = text.len() - 2;
            text.splice(
                end..,
                *rng.pick(&[b"a;", b"\"\"", b"//", b"/*", b"\xc3\xa9"]),
            );
        }
        return text;
    }
    let piece: &[u8] = rng.of(&[
        b";" as &[u8],
        b"; ",
        b"a\n",
        b"\"\"",
        b"-",
        b"//\n",
        b"/**/;",
    ]);
    let per = match piece {
        b"; " | b"a\n" | b"/**/;" => 2,
        _ => 1,
    };
    let mut text = piece.repeat(4_094 / per + rng.below(5));
    if rng.one_in(6) {
        text.push(b'\r');
    }
    text
}

/// Does a few small harms.
pub fn damage(rng: &mut Rng, text: &mut Vec<u8>) {
    for _ in 0..1 + rng.below(3) {
        let at = rng.below(text.len() + 1);
        let end = (at + rng.below(4)).min(text.len());
        match rng.below(6) {
            0 => drop(text.drain(at..end)),
            1 => drop(text.splice(at..at, rng.of(&FRAGMENTS).iter().copied())),
            2 if at < text.len() => text[at] = rng.word() as u8,
            3 if at < text.len() => text[at] ^= 1 << rng.below(8),
            4 => text.truncate(at),
            _ => {
                let again = text[at..end].to_vec();
                text.splice(at..at, again);
            }
        }
    }
}

/// An offset: small, anywhere, or so that the text ends at the map's last position, just before it or just behind it.
pub fn offset(rng: &mut Rng, length: usize) -> u32 {
    let last = 4_294_967_294u32.wrapping_sub(length as u32);
    match rng.below(8) {
        0 => 0,
        1 => last,
        2 => last.wrapping_add(1),
        3 => last - 1,
        4 => rng.word(),
        5 => rng.pick(&[u32::MAX, u32::MAX - 1, 1, 65_536, 1 << 31]),
        _ => rng.below(100_000) as u32,
    }
}
