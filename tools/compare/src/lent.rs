//! Memory to lend: filled with a pattern before a call, looked at after it, with a strip on both sides that no call may touch.

use crate::call::{Ask, Call, Outcome};

/// How many words, or bytes, of the pattern stand before and behind what is lent.
const STRIP: usize = 8;

/// Two pieces of memory, one of words and one of bytes.
#[derive(Default)]
pub struct Lent {
    words: Vec<u32>,
    bytes: Vec<u8>,
    seed: u32,
}

impl Lent {
    /// Fills what a call is to be lent, each time with another pattern.
    pub fn fill(&mut self, call: &Call) {
        self.seed = self.seed.wrapping_add(0x9e37_79b9);
        let seed = self.seed;
        self.words.clear();
        self.bytes.clear();
        match call.ask {
            ask if ask.lends_words() => {
                let all = 0..call.room + 2 * STRIP;
                self.words.extend(all.map(|i| word(seed, i)));
            }
            Ask::String => {
                let all = 0..call.room + 2 * STRIP;
                self.bytes.extend(all.map(|i| word(seed, i) as u8));
            }
            _ => {}
        }
    }

    /// The words that are lent.
    pub fn words(&mut self) -> &mut [u32] {
        inner(&mut self.words)
    }

    /// The bytes that are lent.
    pub fn bytes(&mut self) -> &mut [u8] {
        inner(&mut self.bytes)
    }

    /// Whether the memory holds what an outcome says at its front and the pattern everywhere else.
    pub fn holds(&self, expected: &Outcome) -> bool {
        let seed = self.seed;
        let words = stays(&self.words, &expected.words, |i| word(seed, i));
        words && stays(&self.bytes, &expected.bytes, |i| word(seed, i) as u8)
    }

    /// The changed words at the front, down to the last that differs from the pattern.
    pub fn changed_words(&self) -> &[u32] {
        let seed = self.seed;
        changed(&self.words, |i| word(seed, i))
    }

    /// The changed bytes at the front.
    pub fn changed_bytes(&self) -> &[u8] {
        let seed = self.seed;
        changed(&self.bytes, |i| word(seed, i) as u8)
    }

    /// Whether a strip beside what was lent was touched.
    pub fn overrun(&self) -> bool {
        let seed = self.seed;
        touched(&self.words, |i| word(seed, i)) || touched(&self.bytes, |i| word(seed, i) as u8)
    }
}

fn word(seed: u32, i: usize) -> u32 {
    seed ^ (i as u32).wrapping_mul(0x85eb_ca6b)
}

fn inner<T>(all: &mut [T]) -> &mut [T] {
    let end = all.len().max(2 * STRIP) - STRIP;
    if all.is_empty() {
        return all;
    }
    &mut all[STRIP..end]
}

fn stays<T: PartialEq + Copy>(all: &[T], written: &[T], pattern: impl Fn(usize) -> T) -> bool {
    if written.len() + 2 * STRIP > all.len() && !written.is_empty() {
        return false;
    }
    all.iter().enumerate().all(|(i, x)| {
        let expected = i.checked_sub(STRIP).and_then(|i| written.get(i).copied());
        *x == expected.unwrap_or_else(|| pattern(i))
    })
}

fn changed<T: PartialEq>(all: &[T], pattern: impl Fn(usize) -> T) -> &[T] {
    if all.is_empty() {
        return all;
    }
    let inner = &all[STRIP..all.len() - STRIP];
    let last = inner
        .iter()
        .enumerate()
        .rposition(|(i, x)| *x != pattern(i + STRIP));
    &inner[..last.map_or(0, |i| i + 1)]
}

fn touched<T: PartialEq>(all: &[T], pattern: impl Fn(usize) -> T) -> bool {
    let end = all.len().max(STRIP) - STRIP;
    let outside = |i: &usize| *i < STRIP || *i >= end;
    (0..all.len()).filter(outside).any(|i| all[i] != pattern(i))
}
