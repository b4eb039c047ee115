//! Old against new: lex.rs and toposort.rs of wit-parser, unchanged, beside the static library.
//!
//! See README.md for how to run it and how to read what it prints.

mod call;
mod check;
mod commands;
mod generate;
mod known;
mod lent;
#[cfg(have_library)]
mod library;
mod model;
mod old;
mod progress;
mod reduce;
mod rng;
mod share;
mod show;
mod side;
mod walk;

include!(concat!(env!("OUT_DIR"), "/stand_in.rs"));

use std::path::{Path, PathBuf};
use std::process::exit;
use std::sync::atomic::Ordering;

use side::Side;

const USAGE: &str = "usage: compare [--model] [--first] [--jobs N] COMMAND
  folder DIR            every file below DIR
  exhaust [LENGTH]      every short text, scalar, byte sequence and sheet (LENGTH 5)
  scalars               every scalar beside what asks whether it begins or continues a word
  fuzz SECONDS SEED     texts and sheets by chance
  record [FILE]         the list that 'cases' replays (crates/cases/data/answers.txt)
  bench                 times of both sides, to docs/BENCH.md and docs/bench.svg
  mutants [WORD]        the tool tried on wrong libraries: the second reading with a rule broken
  wrong [NAME...]       the same with the library, proved against a definition with a rule broken
--model puts a second reading of the paper in the library's place; --first ends at the first difference";

/// What was asked for, besides the command's own words.
struct Options {
    side: Side,
    jobs: usize,
}

fn main() {
    let mut words: Vec<String> = std::env::args().skip(1).collect();
    let mut options = Options {
        side: Side::Library,
        jobs: std::thread::available_parallelism().map_or(1, |n| n.get()),
    };
    if let Some(at) = words.iter().position(|w| w == "--model") {
        words.remove(at);
        options.side = Side::StandIn;
    }
    if let Some(at) = words.iter().position(|w| w == "--first") {
        words.remove(at);
        check::FIRST.store(true, Ordering::Relaxed);
    }
    if let Some(at) = words.iter().position(|w| w == "--jobs") {
        options.jobs = words
            .get(at + 1)
            .and_then(|n| n.parse().ok())
            .unwrap_or_else(|| usage());
        words.drain(at..at + 2);
    }
    if words.is_empty() {
        usage();
    }
    // what needs no library
    let alone = matches!(words[0].as_str(), "record" | "mutants" | "wrong");
    if options.side == Side::Library && !side::LIBRARY && !alone {
        eprintln!("compare: {} is not here: build it with 'tools/staticlib', then build this again. Nothing is compared.", side::ARCHIVE);
        eprintln!("compare: --model puts a second reading of the paper in its place.");
        exit(2);
    }
    // The Rust's panics are answers here, shown as differences; their messages are not.
    std::panic::set_hook(Box::new(|_| {}));
    let none = run(&options, &words);
    exit(if none { 0 } else { 1 });
}

/// Runs a command. Answers whether no difference was found.
fn run(options: &Options, words: &[String]) -> bool {
    let words: Vec<&str> = words.iter().map(|w| w.as_str()).collect();
    match words[..] {
        ["exhaust"] => commands::exhaust::exhaust(options.side, 5, options.jobs),
        ["exhaust", length] => {
            commands::exhaust::exhaust(options.side, number(length), options.jobs)
        }
        ["scalars"] => commands::scalars::scalars(options.side, options.jobs),
        ["folder", folder] => {
            let compared = commands::folder::folder(options.side, Path::new(folder));
            compared.unwrap_or_else(|why| fail(&why))
        }
        ["fuzz", seconds, seed] => {
            commands::fuzz::fuzz(options.side, number(seconds), number(seed))
        }
        ["bench"] => {
            let timed = commands::bench::bench(options.side, &root().join("docs"));
            timed.map_or_else(|why| fail(&why), |()| true)
        }
        [commands::bench::count::ONCE, pair, which] => {
            commands::bench::once(options.side, number(pair), which);
            true
        }
        ["mutants"] => tried(commands::mutants::of_model("")),
        ["mutants", word] => tried(commands::mutants::of_model(word)),
        ["wrong", ref names @ ..] => tried(commands::mutants::of_library(names)),
        ["record"] => written(&root().join(commands::record::PLACE)),
        ["record", file] => written(Path::new(file)),
        _ => usage(),
    }
}

/// Whether the tool noticed every wrong library that it was tried on.
fn tried(all: Result<bool, String>) -> bool {
    all.unwrap_or_else(|why| fail(&why))
}

/// Records the list.
fn written(file: &Path) -> bool {
    let why = commands::record::record(file).err();
    why.inspect(|why| eprintln!("compare: {why}")).is_none()
}

/// The repository.
fn root() -> PathBuf {
    Path::new(env!("CARGO_MANIFEST_DIR")).join("../..")
}

fn number<T: std::str::FromStr>(word: &str) -> T {
    word.parse().unwrap_or_else(|_| usage())
}

/// Says why nothing could be compared.
fn fail(why: &str) -> ! {
    eprintln!("compare: {why}. Nothing is compared.");
    exit(2);
}

fn usage() -> ! {
    eprintln!("{USAGE}");
    exit(2);
}
