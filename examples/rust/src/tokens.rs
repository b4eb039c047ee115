//! The tokens of a plug-in file.

use crate::Report;
use witbox::{Error, Tokenizer};

pub fn report(file: &str, bytes: &[u8], offset: u32) -> Report {
    let mut lines = String::new();
    let refusal = match Tokenizer::from_bytes(bytes, offset) {
        Ok(tokens) => write(tokens, &mut lines).err().map(|refusal| {
            let place = refusal.place(offset).unwrap_or(0);
            let line = line(bytes, place as usize);
            format!("{}\n{line}", told(file, bytes, offset, refusal))
        }),
        // the line is left out: a text that is not opened may hold characters that a terminal obeys
        Err(refusal) => Some(told(file, bytes, offset, refusal)),
    };
    Report { lines, refusal }
}

fn write(mut tokens: Tokenizer, lines: &mut String) -> Result<(), Error> {
    while let Some((span, token)) = tokens.next()? {
        let (name, text) = (token.name(), tokens.get_span(span));
        let (start, end) = (span.start(), span.end());
        lines.push_str(&format!("{name:<13} {start}..{end} {text}\n"));
    }
    Ok(())
}

fn told(file: &str, bytes: &[u8], offset: u32, refusal: Error) -> String {
    let at = refusal.location(bytes, offset);
    let at = at.map_or(String::new(), |at| format!(":{at}"));
    let [number, position, detail] = refusal.numbers();
    format!("{file}{at}: {refusal} ({number}, {position}, {detail})")
}

/// The line that a place lies in.
fn line(bytes: &[u8], place: usize) -> String {
    let (before, behind) = bytes.split_at(place);
    let first = before.rsplit(|&byte| byte == b'\n').next();
    let last = behind.split(|&byte| byte == b'\n' || byte == b'\r').next();
    let line = [first.unwrap_or(&[]), last.unwrap_or(&[])].concat();
    String::from_utf8_lossy(&line).into_owned()
}
