//! A host in Rust. Of a plug-in file it prints the tokens, one a line (kind, span, text); of a `.deps` file the load order, one name a
//! line. What is wrong with a file that is refused goes to the error stream:
//!     FILE:LINE:COLUMN: message (number, position, detail)
//! with the line under it. The plug-ins lie one behind the other in the map, so that a span also tells the file.
//!
//! Ends with 0, with 1 if a file was refused, with 2 if a file could not be read.

mod order;
mod tokens;

use std::io::{self, Write};
use std::process::ExitCode;
use std::{env, fs};

/// What is printed of a file.
pub struct Report {
    pub lines: String,
    pub refusal: Option<String>,
}

fn main() -> ExitCode {
    let files: Vec<String> = env::args().skip(1).collect();
    if files.is_empty() {
        eprintln!("usage: host FILE.wit|FILE.deps...");
        return ExitCode::from(2);
    }
    let mut offset: u32 = 0;
    let mut status = ExitCode::SUCCESS;
    for file in files {
        let bytes = match fs::read(&file) {
            Ok(bytes) => bytes,
            Err(error) => {
                eprintln!("{file}: {error}");
                return ExitCode::from(2);
            }
        };
        let report = if file.ends_with(".deps") {
            order::report(&file, &bytes)
        } else {
            let start = offset;
            let length = u32::try_from(bytes.len()).unwrap_or(u32::MAX);
            offset = start.saturating_add(length);
            tokens::report(&file, &bytes, start)
        };
        // a reader that has gone away wants no more
        let _ = io::stdout().write_all(report.lines.as_bytes());
        if let Some(refusal) = report.refusal {
            eprintln!("{refusal}");
            status = ExitCode::FAILURE;
        }
    }
    status
}
