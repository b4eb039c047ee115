//! 01, "Tokens": opening, the four steps and the two listings.

use super::characters::{screen, well_formed};
use super::tokens::{raw, Token};
use super::{refused, Refusal, Text, END_KIND, LAST_KIND, ROW_CAP};
use crate::call::{Ask, Numbers, Outcome};

/// Opening: 1, 2, 3, then screening. The cursor is put behind a byte order mark.
pub fn open(text: &Text) -> Outcome {
    match opened(text) {
        Ok(cursor) => Numbers {
            cursor: cursor as u32,
            ..Numbers::default()
        }
        .into(),
        Err(refusal) => refused(refusal).into(),
    }
}

fn opened(text: &Text) -> Result<usize, Refusal> {
    text.fits()?;
    well_formed(text.bytes).map_err(|at| Refusal(3, at as u32, 0))?;
    screen(text.bytes)?;
    Ok(if text.bytes.starts_with(&[0xef, 0xbb, 0xbf]) {
        3
    } else {
        0
    })
}

/// The next token that is neither a blank nor a comment.
fn next(text: &Text, mut at: usize) -> Result<Option<Token>, Refusal> {
    loop {
        match raw(text, at)? {
            Some(token) if token.kind < 2 => at = token.end,
            found => return Ok(found),
        }
    }
}

/// A step: its answer, and the cursor after it.
pub fn step(text: &Text, ask: Ask, wanted: u32, from: u32) -> Numbers {
    let stays = Numbers {
        cursor: from,
        ..Numbers::default()
    };
    match found(text, ask, wanted, from) {
        Err(refusal) => Numbers {
            cursor: from,
            ..refused(refusal)
        },
        Ok(found) => {
            let yes = !ask.wants() || found.is_some_and(|t| t.kind == wanted);
            let moved = Numbers {
                cursor: found.map_or(text.bytes.len(), |t| t.end) as u32,
                ..stays
            };
            match found {
                Some(token) if yes => Numbers {
                    x: token.kind,
                    y: text.position(token.start),
                    z: text.position(token.end),
                    ..moved
                },
                _ if ask == Ask::Expect => {
                    let at = found.map_or(text.bytes.len(), |t| t.start);
                    let kind = found.map_or(END_KIND, |t| t.kind);
                    Numbers {
                        number: 21,
                        position: text.position(at),
                        detail: 256 * wanted + kind,
                        ..moved
                    }
                }
                _ if ask == Ask::Eat => Numbers {
                    x: END_KIND,
                    ..stays
                },
                _ => Numbers {
                    x: END_KIND,
                    ..moved
                },
            }
        }
    }
}

/// The token that a step finds: 1, 2, 23, then 22 for a wanted kind above 66, then what reading answers.
fn found(text: &Text, ask: Ask, wanted: u32, from: u32) -> Result<Option<Token>, Refusal> {
    text.fits()?;
    if from as usize > text.bytes.len() {
        return Err(Refusal(23, 0, 0));
    }
    if ask.wants() && wanted > LAST_KIND {
        return Err(Refusal(22, 0, 0));
    }
    match ask {
        Ask::NextRaw => raw(text, from as usize),
        _ => next(text, from as usize),
    }
}

/// A listing: opens and steps to the end, then 24, then 25.
pub fn list(text: &Text, filtered: bool, room: usize) -> Outcome {
    match rows(text, filtered, room) {
        Ok(words) => Outcome {
            numbers: Numbers {
                x: (words.len() / 3) as u32,
                ..Numbers::default()
            },
            words,
            ..Outcome::default()
        },
        Err(refusal) => refused(refusal).into(),
    }
}

fn rows(text: &Text, filtered: bool, room: usize) -> Result<Vec<u32>, Refusal> {
    let mut at = opened(text)?;
    let mut words = Vec::new();
    let step = if filtered { next } else { raw };
    while let Some(token) = step(text, at)? {
        at = token.end;
        let span = [token.start, token.end].map(|place| text.position(place));
        words.extend([token.kind, span[0], span[1]]);
    }
    let count = words.len() / 3;
    if count > ROW_CAP {
        return Err(Refusal(24, 0, count as u32));
    }
    if room < words.len() {
        return Err(Refusal(25, 0, words.len() as u32));
    }
    Ok(words)
}
