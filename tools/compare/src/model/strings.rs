//! 01, "Strings": the string rule, and decoding.

use super::characters::{encode, hex, scalar, well_formed};
use super::tokens::examine;
use super::{refused, Refusal, Text};
use crate::call::{Numbers, Outcome};

/// What is read from a place on.
struct Reader<'a> {
    text: &'a Text<'a>,
    at: usize,
}

impl Reader<'_> {
    /// The next character and its place; 13 where the text ends.
    fn take(&mut self) -> Result<(usize, u32), Refusal> {
        let (c, next) = self.look()?;
        let place = self.at;
        self.at = next;
        Ok((place, c))
    }

    /// The next character and the place behind it, not taken.
    fn look(&self) -> Result<(u32, usize), Refusal> {
        let end = self.text.position(self.text.bytes.len());
        examine(self.text, self.at)?.ok_or(Refusal(13, end, 0))
    }

    /// 12 unless the wanted character stands here.
    fn want(&mut self, wanted: char) -> Result<(), Refusal> {
        let (place, c) = self.take()?;
        if c != wanted as u32 {
            return Err(Refusal(12, place as u32, wanted as u32));
        }
        Ok(())
    }

    /// A hexadecimal digit, or 17.
    fn digit(&mut self) -> Result<(usize, u32), Refusal> {
        let (place, c) = self.take()?;
        let value = hex(c).ok_or(Refusal(17, place as u32, c))?;
        Ok((place, value))
    }

    /// The number in `\u{...}`: a hex digit, then digits and underscores in any mixture.
    fn number(&mut self) -> Result<u32, Refusal> {
        let (first, mut n) = self.digit()?;
        let mut underscore = false;
        loop {
            let (c, next) = self.look()?;
            underscore = match hex(c) {
                Some(value) => {
                    let grown = n as u64 * 16 + value as u64;
                    n = u32::try_from(grown).map_err(|_| Refusal(15, self.at as u32, 0))?;
                    false
                }
                None if c == '_' as u32 => true,
                None => break,
            };
            self.at = next;
        }
        if underscore {
            return Err(Refusal(16, first as u32, 0));
        }
        Ok(n)
    }

    /// What stands behind a backslash.
    fn escape(&mut self, gathered: &mut Vec<u8>) -> Result<(), Refusal> {
        let (place, c) = self.take()?;
        match char::from_u32(c).expect("a scalar") {
            c @ ('"' | '\'' | '\\') => gathered.push(c as u8),
            't' => gathered.push(9),
            'n' => gathered.push(10),
            'r' => gathered.push(13),
            'u' => {
                self.want('{')?;
                let n = self.number()?;
                if !scalar(n) {
                    return Err(Refusal(18, place as u32, n));
                }
                self.want('}')?;
                encode(n, gathered);
            }
            _ => {
                let high = hex(c).ok_or(Refusal(11, place as u32, c))?;
                let (_, low) = self.digit()?;
                gathered.push((high * 16 + low) as u8);
            }
        }
        Ok(())
    }
}

/// The bytes gathered from a quote to the bare quote that closes it, and the place behind that.
pub fn rule(text: &Text, quote: usize) -> Result<(Vec<u8>, usize), Refusal> {
    let mut reader = Reader {
        text,
        at: quote + 1,
    };
    let mut gathered = Vec::new();
    loop {
        let (place, c) = reader.take()?;
        match c {
            0x22 => break,
            0x5c => reader.escape(&mut gathered)?,
            0x00..=0x1f | 0x7f => return Err(Refusal(10, place as u32, c)),
            _ => encode(c, &mut gathered),
        }
    }
    match well_formed(&gathered) {
        Ok(()) => Ok((gathered, reader.at)),
        Err(at) => Err(Refusal(14, text.position(quote), at as u32)),
    }
}

/// Decoding: 1, 2, then 22 unless the span is exactly a string that the rule accepts, then 25.
pub fn decode(text: &Text, start: u32, end: u32, room: usize) -> Outcome {
    match value(text, start, end, room) {
        Ok(bytes) => Outcome {
            numbers: Numbers {
                x: bytes.len() as u32,
                ..Numbers::default()
            },
            bytes,
            ..Outcome::default()
        },
        Err(refusal) => refused(refusal).into(),
    }
}

fn value(text: &Text, start: u32, end: u32, room: usize) -> Result<Vec<u8>, Refusal> {
    text.fits()?;
    let bad = Refusal(22, 0, 0);
    let quote = start.checked_sub(text.offset).ok_or(bad)? as usize;
    if text.bytes.get(quote) != Some(&b'"') {
        return Err(bad);
    }
    let (gathered, behind) = rule(text, quote).map_err(|_| bad)?;
    if text.position(behind) != end {
        return Err(bad);
    }
    if room < gathered.len() {
        return Err(Refusal(25, 0, gathered.len() as u32));
    }
    Ok(gathered)
}
