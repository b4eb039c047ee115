//! 01, "Characters": what bytes read as, which characters a text may hold, and which begin or continue a word.

use super::Refusal;

/// What stands at a place.
#[derive(Clone, Copy, PartialEq, Eq, Debug)]
pub enum Seen {
    /// The text ends here.
    End,
    /// An ill-formed sequence begins here.
    Ill,
    /// A character, and the place behind it.
    Char(u32, usize),
}

/// The character at a place by RFC 3629: no overlong form, no surrogate, nothing above U+10FFFF.
pub fn plain(bytes: &[u8], at: usize) -> Seen {
    let Some(&lead) = bytes.get(at) else {
        return Seen::End;
    };
    let (length, bits, least) = match lead {
        0x00..=0x7f => return Seen::Char(lead as u32, at + 1),
        0xc0..=0xdf => (2, lead & 0x1f, 0x80),
        0xe0..=0xef => (3, lead & 0x0f, 0x800),
        0xf0..=0xf7 => (4, lead & 0x07, 0x1_0000),
        _ => return Seen::Ill,
    };
    let mut c = bits as u32;
    for i in 1..length {
        match bytes.get(at + i) {
            Some(&b) if b & 0xc0 == 0x80 => c = c << 6 | (b & 0x3f) as u32,
            _ => return Seen::Ill,
        }
    }
    if c < least || !scalar(c) {
        return Seen::Ill;
    }
    Seen::Char(c, at + length)
}

/// The same where CR directly followed by the byte LF reads as one newline that starts at the CR.
pub fn folded(bytes: &[u8], at: usize) -> Seen {
    if bytes.get(at) == Some(&13) && bytes.get(at + 1) == Some(&10) {
        return Seen::Char(10, at + 2);
    }
    plain(bytes, at)
}

/// Whether a number is a Unicode scalar.
pub fn scalar(c: u32) -> bool {
    c <= 0x10_ffff && !(0xd800..=0xdfff).contains(&c)
}

/// The bytes of a scalar.
pub fn encode(c: u32, onto: &mut Vec<u8>) {
    let tail = |shift: u32| 0x80 | (c >> shift & 0x3f) as u8;
    match c {
        0..=0x7f => onto.push(c as u8),
        0x80..=0x7ff => onto.extend([0xc0 | (c >> 6) as u8, tail(0)]),
        0x800..=0xffff => onto.extend([0xe0 | (c >> 12) as u8, tail(6), tail(0)]),
        _ => onto.extend([0xf0 | (c >> 18) as u8, tail(12), tail(6), tail(0)]),
    }
}

/// The first place of an ill-formed sequence, if there is one.
pub fn well_formed(bytes: &[u8]) -> Result<(), usize> {
    let mut at = 0;
    loop {
        match plain(bytes, at) {
            Seen::End => return Ok(()),
            Seen::Ill => return Err(at),
            Seen::Char(_, next) => at = next,
        }
    }
}

/// Screening: the first character that a text may not hold.
pub fn screen(bytes: &[u8]) -> Result<(), Refusal> {
    let mut at = 0;
    while let Seen::Char(c, next) = plain(bytes, at) {
        let number = match c {
            9 | 10 | 13 => 0,
            0x00..=0x1f | 0x7f..=0x9f => 4,
            0x149 | 0x673 | 0xf77 | 0xf79 | 0x17a3 | 0x17a4 | 0x17b4 | 0x17b5 => 5,
            0x202a..=0x202e | 0x2066..=0x2069 => 6,
            _ => 0,
        };
        if number != 0 {
            return Err(Refusal(number, at as u32, c));
        }
        at = next;
    }
    Ok(())
}

/// The last character whose classes 01 lists itself.
const LISTED: u32 = 0x2c1;

/// Unicode's XID_Start: as 01 lists it, and above that what the Rust's own crate says. A table made as the library's is made would
/// share its faults.
fn xid_start(c: u32) -> bool {
    if c > LISTED {
        return char::from_u32(c).is_some_and(unicode_ident::is_xid_start);
    }
    matches!(c, 0x41..=0x5a | 0x61..=0x7a | 0xaa | 0xb5 | 0xba)
        || matches!(c, 0xc0..=0xd6 | 0xd8..=0xf6 | 0xf8..=0x2c1)
}

/// Unicode's XID_Continue, likewise.
fn xid_continue(c: u32) -> bool {
    if c > LISTED {
        return char::from_u32(c).is_some_and(unicode_ident::is_xid_continue);
    }
    xid_start(c) || matches!(c, 0x30..=0x39 | 0x5f | 0xb7)
}

/// XID_Start, `_` or `-`.
pub fn keylike_start(c: u32) -> bool {
    xid_start(c) || c == 0x5f || c == 0x2d
}

/// XID_Continue or `-`.
pub fn keylike_continuation(c: u32) -> bool {
    xid_continue(c) || c == 0x2d
}

/// The value of a hexadecimal digit.
pub fn hex(c: u32) -> Option<u32> {
    char::from_u32(c).and_then(|c| c.to_digit(16))
}
