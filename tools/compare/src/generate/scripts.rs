//! Words in the scripts above U+02C1, with marks inside and before them, and with what looks like a letter and is none.

use crate::rng::Rng;

/// Letters, a row for each script: they begin words and go on with them.
const LETTERS: [&[char]; 8] = [
    &[
        '\u{3b1}', '\u{3bb}', '\u{3c9}', '\u{3a9}', '\u{3ac}', '\u{1f00}',
    ],
    &['\u{430}', '\u{436}', '\u{44f}', '\u{416}', '\u{452}'],
    &[
        '\u{6771}', '\u{4eac}', '\u{3042}', '\u{30a2}', '\u{4e00}', '\u{9fff}',
    ],
    &['\u{d55c}', '\u{ac00}', '\u{d7a3}'],
    &['\u{5d0}', '\u{627}', '\u{915}', '\u{e01}'],
    // beyond 16 bits: the first and the last of long ranges
    &[
        '\u{10400}',
        '\u{20000}',
        '\u{2a6df}',
        '\u{3134a}',
        '\u{2fa1d}',
    ],
    // letters by name or by exception alone
    &['\u{2c6}', '\u{2118}', '\u{212e}', '\u{2160}', '\u{1d400}'],
    &['a', 'b', 'Z', '\u{e9}', '\u{2c1}'],
];

/// Marks, digits and joints: they go on with words and begin none.
const MARKS: [char; 14] = [
    '\u{301}',
    '\u{308}',
    '\u{345}',
    '\u{387}',
    '\u{483}',
    '\u{5bc}',
    '\u{94d}',
    '\u{e33}',
    '\u{660}',
    '\u{203f}',
    '\u{3099}',
    '\u{ff9e}',
    '\u{1d7ff}',
    '\u{e01ef}',
];

/// What no word holds: look-alikes, joiners, the byte order mark, neighbours of ranges, and what came with Unicode 15.
const STRANGERS: [char; 17] = [
    '\u{2c2}',
    '\u{37a}',
    '\u{37e}',
    '\u{1fbd}',
    '\u{200c}',
    '\u{200d}',
    '\u{309b}',
    '\u{e000}',
    '\u{feff}',
    '\u{fffd}',
    '\u{ffff}',
    '\u{1f63c}',
    '\u{2a6e0}',
    '\u{3134b}',
    '\u{10ffff}',
    '\u{cf3}',
    '\u{1e4d0}',
];

/// A few words with something between them.
pub fn words(rng: &mut Rng) -> String {
    let mut text = String::new();
    for _ in 0..1 + rng.below(6) {
        word(rng, &mut text);
        text.push(rng.pick(&[' ', '\n', ';', '-', '.', '{', '\u{37e}']));
    }
    text
}

/// One word, mostly of one script; some begin with a `%`, a mark or a stranger.
fn word(rng: &mut Rng, text: &mut String) {
    match rng.below(12) {
        0 => text.push('%'),
        1 => text.push(rng.pick(&MARKS)),
        2 => text.push(rng.pick(&STRANGERS)),
        _ => {}
    }
    let script = rng.pick(&LETTERS);
    for _ in 0..1 + rng.below(5) {
        text.push(match rng.below(16) {
            0 => rng.pick(&STRANGERS),
            1..=3 => rng.pick(&MARKS),
            4 => rng.pick(&['-', '_', '0']),
            5 => any(rng),
            _ => rng.pick(script),
        });
    }
}

/// Any scalar.
fn any(rng: &mut Rng) -> char {
    char::from_u32(rng.below(0x11_0000) as u32).unwrap_or('\u{fffd}')
}
