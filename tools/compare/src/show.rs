//! Calls and outcomes in print.

use std::fmt::Write;

use crate::call::{Ask, Call, Numbers};

/// Bytes in hex, `-` for none. A stretch of one byte repeated 32 times or more is written `N*hh`, joined by `+`.
pub fn hex(bytes: &[u8]) -> String {
    if bytes.is_empty() {
        return "-".into();
    }
    let mut parts: Vec<String> = Vec::new();
    let mut plain = String::new();
    for run in bytes.chunk_by(|a, b| a == b) {
        if run.len() < 32 {
            run.iter().for_each(|b| write!(plain, "{b:02x}").unwrap());
            continue;
        }
        if !plain.is_empty() {
            parts.push(std::mem::take(&mut plain));
        }
        parts.push(format!("{}*{:02x}", run.len(), run[0]));
    }
    if !plain.is_empty() {
        parts.push(plain);
    }
    parts.join("+")
}

/// Words in decimal, joined by commas, `-` for none. A word repeated 8 times or more is written `N*w`.
pub fn words(words: &[u32]) -> String {
    if words.is_empty() {
        return "-".into();
    }
    let mut parts = Vec::new();
    for run in words.chunk_by(|a, b| a == b) {
        if run.len() < 8 {
            parts.extend(run.iter().map(|w| w.to_string()));
        } else {
            parts.push(format!("{}*{}", run.len(), run[0]));
        }
    }
    parts.join(",")
}

/// Text for people: printable ASCII as it is, all else as in a Rust string.
fn readable(bytes: &[u8]) -> String {
    let shown = &bytes[..bytes.len().min(200)];
    let more = if shown.len() < bytes.len() { "..." } else { "" };
    format!("\"{}\"{more}", shown.escape_ascii())
}

/// A call on a few lines.
pub fn call(call: &Call) -> String {
    let mut out = String::new();
    writeln!(out, "  call     {}", call.ask.word()).unwrap();
    if call.ask.sheets() {
        writeln!(out, "  sheet    {}", words(call.sheet)).unwrap();
        if call.ask == Ask::CheckOrder {
            writeln!(out, "  list     {}", words(call.list)).unwrap();
        }
        writeln!(out, "  names    {}", readable(call.bytes)).unwrap();
        writeln!(out, "  hex      {}", hex(call.bytes)).unwrap();
    } else {
        let length = call.bytes.len();
        writeln!(out, "  text     {} ({length} bytes)", readable(call.bytes)).unwrap();
        writeln!(out, "  hex      {}", hex(call.bytes)).unwrap();
        writeln!(out, "  offset   {}", call.offset).unwrap();
    }
    if call.ask.wants() {
        writeln!(out, "  wanted   {}", call.a).unwrap();
    }
    if call.ask.spans() {
        writeln!(out, "  span     {}..{}", call.a, call.b).unwrap();
    }
    if call.ask.steps() {
        writeln!(out, "  cursor   {}", call.from).unwrap();
    }
    if call.ask.lends() {
        let unit = if call.ask == Ask::String {
            "bytes"
        } else {
            "words"
        };
        writeln!(out, "  room     {} {unit}", call.room).unwrap();
    }
    out
}

/// An answer on one line.
pub fn answer(ask: Ask, n: &Numbers, written_words: &[u32], written_bytes: &[u8]) -> String {
    let mut out = match n.number {
        0 => "accepted".to_string(),
        u32::MAX => "panicked".to_string(),
        number => format!("refused {number}"),
    };
    if n.number != 0 || n.position != 0 || n.detail != 0 {
        write!(out, ", position {}, detail {}", n.position, n.detail).unwrap();
    }
    match ask {
        Ask::Open => write!(out, ", cursor {}", n.cursor),
        Ask::NextRaw | Ask::Next | Ask::Eat | Ask::Expect => write!(
            out,
            ", kind {}, span {}..{}, cursor {}",
            n.x, n.y, n.z, n.cursor
        ),
        Ask::ListRaw | Ask::List => write!(out, ", {} rows", n.x),
        Ask::String => write!(out, ", {} bytes", n.x),
        Ask::Id | Ask::ExplicitId => write!(out, ", place {}, length {}", n.x, n.y),
        Ask::Sort | Ask::Propose => write!(out, ", settled {}", n.x),
        Ask::CheckOrder => Ok(()),
    }
    .unwrap();
    if !written_words.is_empty() {
        write!(out, ", words {}", words(written_words)).unwrap();
    }
    if !written_bytes.is_empty() {
        write!(out, ", bytes {}", hex(written_bytes)).unwrap();
    }
    out
}
