//! `scalars`: every scalar beside what asks for its class, so that XID_Start and XID_Continue are held against the Rust's own table,
//! each scalar on its own.

use crate::call::{Ask, Call};
use crate::check::Checker;
use crate::progress::Progress;
use crate::share;
use crate::side::Side;

/// How many code points are done at a time.
const PART: u32 = 0x400;
/// One more than the last code point.
const END: u32 = 0x11_0000;
/// The offset of each text.
const OFFSET: u32 = 5;

/// What one thread compared.
struct Seen {
    checker: Checker,
    scalars: u64,
    /// How many begin a word.
    starts: u64,
    /// How many go on with one.
    continues: u64,
}

/// Runs all of it. Answers whether nothing differed.
pub fn scalars(side: Side, jobs: usize) -> bool {
    let progress = Progress::new("blocks of scalars", (END / PART) as u64);
    let begin = || Seen {
        checker: Checker::new(side),
        scalars: 0,
        starts: 0,
        continues: 0,
    };
    let mut total = begin();
    for seen in share::out(jobs, progress, begin, part) {
        total.scalars += seen.scalars;
        total.starts += seen.starts;
        total.continues += seen.continues;
        total.checker.absorb(seen.checker);
    }
    println!(
        "{} scalars: alone, behind `a`, behind `%` and before `a`, listed raw",
        total.scalars
    );
    println!(
        "{} begin a word (XID_Start, `_`, `-`) and {} go on with one (XID_Continue, `-`)",
        total.starts, total.continues
    );
    let none = total.checker.report();
    total.checker.summary();
    none
}

/// The scalars of one part.
fn part(seen: &mut Seen, number: usize) {
    let first = number as u32 * PART;
    for c in (first..first + PART).filter_map(char::from_u32) {
        seen.scalars += 1;
        let checker = &mut seen.checker;
        taken(checker, &format!("{c}"));
        taken(checker, &format!("{c}a"));
        seen.continues += taken(checker, &format!("a{c}")) as u64;
        seen.starts += taken(checker, &format!("%{c}")) as u64;
    }
}

/// Lists a text, and where opening refuses it steps over it, which asks for the class all the same. Answers whether the first token
/// is the whole text.
fn taken(checker: &mut Checker, text: &str) -> bool {
    let bytes = text.as_bytes();
    let end = OFFSET + bytes.len() as u32;
    let listed = checker.check(&Call::list(Ask::ListRaw, bytes, OFFSET, 6));
    if matches!(listed.numbers.number, 4..=6) {
        let step = checker.check(&Call::step(Ask::NextRaw, bytes, OFFSET, 0));
        return step.numbers.z == end;
    }
    listed.words.get(2) == Some(&end)
}
