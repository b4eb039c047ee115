//! 01, "Identifiers".

use super::characters::{plain, Seen};
use super::{refused, Refusal, Text};
use crate::call::Numbers;

/// The identifier of a span, as a place and a length in the text.
pub fn parse(text: &Text, start: u32, end: u32, explicit: bool) -> Numbers {
    match identifier(text, start, end, explicit) {
        Ok((from, to)) => Numbers {
            x: from as u32,
            y: (to - from) as u32,
            ..Numbers::default()
        },
        Err(refusal) => refused(refusal),
    }
}

fn identifier(
    text: &Text,
    start: u32,
    end: u32,
    explicit: bool,
) -> Result<(usize, usize), Refusal> {
    text.fits()?;
    let bad = Refusal(22, 0, 0);
    if start < text.offset || start > end {
        return Err(bad);
    }
    let mut from = (start - text.offset) as usize;
    let to = (end - text.offset) as usize;
    if to > text.bytes.len() || cut(text.bytes, from) || cut(text.bytes, to) {
        return Err(bad);
    }
    if explicit {
        if from == to || text.bytes[from] != b'%' {
            return Err(bad);
        }
        from += 1;
    }
    let mut at = from;
    loop {
        at = part(text, start, at, to, at == from)?;
        if at == to {
            return Ok((from, to));
        }
        at += 1;
    }
}

/// Whether a span that begins or ends here cuts before a byte 80 to BF.
fn cut(bytes: &[u8], at: usize) -> bool {
    matches!(bytes.get(at), Some(0x80..=0xbf))
}

/// Walks over one part: to the `-` behind it or to the span's end.
fn part(text: &Text, start: u32, from: usize, to: usize, first: bool) -> Result<usize, Refusal> {
    let mut case = None;
    let mut at = from;
    while at < to && text.bytes[at] != b'-' {
        let Seen::Char(c, next) = plain(&text.bytes[..to], at) else {
            return Err(Refusal(3, at as u32, 0));
        };
        let bad = Refusal(20, start, c);
        let letter = char::from_u32(c).filter(|c| c.is_ascii_alphabetic());
        match letter {
            Some(letter) => {
                let upper = letter.is_ascii_uppercase();
                if *case.get_or_insert(upper) != upper {
                    return Err(bad);
                }
            }
            None if first && at == from => return Err(bad),
            None if (0x30..=0x39).contains(&c) => {}
            None => return Err(bad),
        }
        at = next;
    }
    if at == from {
        return Err(Refusal(19, start, 0));
    }
    Ok(at)
}
