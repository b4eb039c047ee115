//! `folder DIR`: every file below a folder through both sides.

use std::fs;
use std::path::{Path, PathBuf};

use crate::call::{Ask, Call};
use crate::check::Checker;
use crate::generate::sheets::{self, Sheet};
use crate::progress::Progress;
use crate::side::Side;
use crate::{model, walk};

/// What was met in the files.
#[derive(Default)]
struct Met {
    files: u64,
    bytes: u64,
    tokens: u64,
    strings: u64,
    identifiers: u64,
    sheets: u64,
    /// Files that are refused, and how many for each number.
    refused: [u64; 31],
    /// Files that lie outside the Rust's domain.
    outside: u64,
}

/// Compares every file. Answers whether nothing differed, or why nothing could be compared.
pub fn folder(side: Side, folder: &Path) -> Result<bool, String> {
    let mut files = Vec::new();
    find(folder, &mut files).map_err(|e| format!("{}: {e}", folder.display()))?;
    files.sort();
    if files.is_empty() {
        return Err(format!("no file below {}", folder.display()));
    }
    let mut checker = Checker::new(side);
    let mut met = Met::default();
    let mut progress = Progress::new("files", files.len() as u64);
    let mut offset = 0;
    for file in &files {
        let shown = file.strip_prefix(folder).unwrap_or(file).display();
        progress.say(&shown.to_string());
        let text = fs::read(file).map_err(|e| format!("{}: {e}", file.display()))?;
        // As in a source map, each file stands behind the one before.
        let end = offset as u64 + text.len() as u64;
        if end > model::MAP_CAP {
            offset = 0;
        }
        let before = checker.counts.differing;
        self::file(&mut checker, &mut met, &text, offset);
        let differing = checker.counts.differing - before;
        if differing > 0 {
            println!("{shown}: {differing} of its calls differ");
        }
        offset = (offset as u64 + text.len() as u64).min(model::MAP_CAP) as u32;
        progress.advance(1);
    }
    drop(progress);
    let none = checker.report();
    summary(&met);
    checker.summary();
    Ok(none)
}

/// Every plain file below a folder.
fn find(folder: &Path, files: &mut Vec<PathBuf>) -> std::io::Result<()> {
    if folder.is_file() {
        files.push(folder.to_path_buf());
        return Ok(());
    }
    for entry in fs::read_dir(folder)? {
        let entry = entry?;
        match entry.file_type()? {
            kind if kind.is_dir() => find(&entry.path(), files)?,
            kind if kind.is_file() => files.push(entry.path()),
            _ => {}
        }
    }
    Ok(())
}

/// One file: both listings, all steps, each string, each identifier, and the order of its interfaces.
fn file(checker: &mut Checker, met: &mut Met, text: &[u8], offset: u32) {
    met.files += 1;
    met.bytes += text.len() as u64;
    checker.check(&Call::new(Ask::Open, text, offset));
    let room = 3 * model::ROW_CAP;
    let by_rust = checker.counts.by_rust;
    let raw = checker.check(&Call::list(Ask::ListRaw, text, offset, room));
    met.outside += (checker.counts.by_rust == by_rust) as u64;
    let rows = checker.check(&Call::list(Ask::List, text, offset, room));
    if raw.numbers.number != 0 {
        met.refused[raw.numbers.number as usize] += 1;
    }
    met.tokens += (raw.words.len() / 3) as u64;
    steps(checker, text, offset);
    for row in rows.words.chunks(3) {
        match row[0] {
            19 => {
                met.strings += 1;
                walk::string(checker, text, offset, row[1], row[2]);
            }
            62 | 63 => {
                met.identifiers += 1;
                let ask = if row[0] == 62 {
                    Ask::Id
                } else {
                    Ask::ExplicitId
                };
                checker.check(&Call::span(ask, text, offset, row[1], row[2], 0));
            }
            _ => {}
        }
    }
    if let Some(sheet) = interfaces(text, offset, &rows.words) {
        met.sheets += 1;
        let room = sheet.words[0] as usize;
        checker.check(&Call::sort(&sheet.words, &sheet.names, room));
    }
}

/// Steps over the whole file, so that texts with too many rows are walked too.
fn steps(checker: &mut Checker, text: &[u8], offset: u32) {
    let opened = checker.check(&Call::new(Ask::Open, text, offset)).numbers;
    let mut from = opened.cursor;
    let mut left = 2 * model::ROW_CAP;
    while opened.number == 0 && left > 0 {
        let step = checker
            .check(&Call::step(Ask::NextRaw, text, offset, from))
            .numbers;
        if step.number != 0 || step.x == model::END_KIND {
            break;
        }
        from = step.cursor;
        left -= 1;
    }
}

/// A simple reading of the dependencies between a file's interfaces: each `interface X { ... }` is an item, and each `use Y.` inside
/// it a dependency on Y. None where the file has no interface.
fn interfaces(text: &[u8], offset: u32, rows: &[u32]) -> Option<Sheet> {
    const USE: u32 = 20;
    const INTERFACE: u32 = 54;
    const PERIOD: u32 = 5;
    const OPEN: u32 = 9;
    const CLOSE: u32 = 10;
    let rows: Vec<_> = rows.chunks(3).collect();
    let name = |row: &[u32]| {
        let range = (row[1] - offset) as usize..(row[2] - offset) as usize;
        let name = &text[range];
        matches!(row[0], 62 | 63).then(|| name.strip_prefix(b"%").unwrap_or(name))
    };
    let mut items: Vec<(&[u8], Vec<&[u8]>)> = Vec::new();
    let mut depth = 0u32;
    for window in rows.windows(3) {
        match (window[0][0], name(window[1]), window[2][0]) {
            (INTERFACE, Some(name), OPEN) if depth == 0 => items.push((name, Vec::new())),
            (USE, Some(name), PERIOD) if depth == 1 => {
                if let Some(item) = items.last_mut() {
                    item.1.push(name);
                }
            }
            (OPEN, ..) => depth += 1,
            (CLOSE, ..) => depth = depth.saturating_sub(1),
            _ => {}
        }
    }
    (!items.is_empty()).then(|| sheets::of(&items))
}

fn summary(met: &Met) {
    println!(
        "{} files, {} bytes: {} raw tokens, {} strings, {} identifiers, {} sheets of interfaces",
        met.files, met.bytes, met.tokens, met.strings, met.identifiers, met.sheets
    );
    let refused: u64 = met.refused.iter().sum();
    let numbers = met.refused.iter().enumerate().filter(|(_, n)| **n > 0);
    let numbers: Vec<_> = numbers.map(|(i, n)| format!("{n} with {i}")).collect();
    let which = if refused > 0 {
        format!(" ({})", numbers.join(", "))
    } else {
        String::new()
    };
    println!(
        "{refused} of the files are refused{which}; {} lie outside the Rust's domain and were compared with the paper",
        met.outside
    );
}
