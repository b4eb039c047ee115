//! `record [FILE]`: writes the list that the program `cases` replays: one call to a line, with the answer that it must get.
//!
//! The list is the same each time: nothing in it depends on the clock, the machine or the library.

mod inputs;
mod lex_tests;

use std::collections::{BTreeMap, HashSet};
use std::path::Path;

use crate::call::{Ask, Call, Outcome, ASKS};
use crate::check::{expected, Judge};
use crate::{model, show};

/// Where the list goes, seen from the repository, if no other file is named.
pub const PLACE: &str = "crates/cases/data/answers.txt";

/// The first lines of the list.
const HEAD: &str = "\
# What each call must answer: recorded by 'tools/compare/run record' from lex.rs and toposort.rs of wit-parser 0.262.0 (judge rust),
# and outside the domain in which they are the judge from a second reading of the interface paper (judge paper).
# It holds lex.rs's own tests, the paper's cases and edges, every keyword and mark, every text of up to two telling symbols, walks by
# steps, and inputs by chance (seed 1) for each refusal of each call. Made again, it comes out the same.
#
# A line has 17 fields: call judge bytes offset a b room sheet number position detail x y z cursor from written
#   bytes    the text, or a sheet's names: hex, '-' for none; N*hh is a byte N times, parts are joined by '+'
#   a b      the wanted kind and 0, or a span's start and end; else 0 0
#   room     words of the lent table or order, bytes of the lent buffer
#   sheet    words in decimal joined by ',', '-' for none; N*w is a word N times
#   x y z    kind, start, end of a step; count of a listing or a string; place and length of an identifier; settled of a sort
#   cursor   the cursor after a step, or opening's; from: the cursor before a step
#   written  what stands at the front of the lent memory: words as in 'sheet', or bytes as in 'bytes' for string; '-' for nothing.
#            The rest of it must be as it was.
";

/// The lines so far.
#[derive(Default)]
pub struct Recorder {
    lines: Vec<String>,
    seen: HashSet<String>,
    /// How many lines there are for each call and number.
    pub met: BTreeMap<(Ask, u32), usize>,
    /// The kinds that a step answers.
    kinds: HashSet<u32>,
    /// Where the second reading and the Rust disagree.
    faults: Vec<String>,
}

impl Recorder {
    /// Writes a call down, unless it stands there already, and answers what it must answer.
    pub fn record(&mut self, call: &Call) -> Outcome {
        let (outcome, judge) = expected(call);
        if outcome != model::answer(call) {
            self.faults.push(show::call(call));
        }
        let line = line(call, judge, &outcome);
        if self.seen.insert(line.clone()) {
            self.lines.push(line);
            *self
                .met
                .entry((call.ask, outcome.numbers.number))
                .or_default() += 1;
            if call.ask.steps() && outcome.numbers.number == 0 {
                self.kinds.insert(outcome.numbers.x);
            }
        }
        outcome
    }

    /// How many lines there are for a call and a number.
    pub fn count(&self, ask: Ask, number: u32) -> usize {
        self.met.get(&(ask, number)).copied().unwrap_or(0)
    }
}

/// A call and its answer on a line.
fn line(call: &Call, judge: Judge, outcome: &Outcome) -> String {
    let n = &outcome.numbers;
    let written = match call.ask {
        Ask::String => show::hex(&outcome.bytes),
        _ => show::words(&outcome.words),
    };
    format!(
        "{} {} {} {} {} {} {} {} {} {} {} {} {} {} {} {} {written}",
        call.ask.word(),
        judge.word(),
        show::hex(call.bytes),
        call.offset,
        call.a,
        call.b,
        call.room,
        show::words(call.sheet),
        n.number,
        n.position,
        n.detail,
        n.x,
        n.y,
        n.z,
        n.cursor,
        call.from,
    )
}

/// Writes the list. Answers why it could not be written.
pub fn record(file: &Path) -> Result<(), String> {
    let mut recorder = Recorder::default();
    inputs::papers_cases(&mut recorder);
    lex_tests::record(&mut recorder);
    inputs::kinds(&mut recorder);
    inputs::edges(&mut recorder);
    inputs::walks(&mut recorder);
    inputs::short_texts(&mut recorder);
    inputs::by_chance(&mut recorder);
    if let Some(fault) = recorder.faults.first() {
        return Err(format!(
            "the second reading and the Rust disagree, so nothing is written:\n{fault}"
        ));
    }
    if let Some(folder) = file.parent() {
        std::fs::create_dir_all(folder).map_err(|e| format!("{}: {e}", folder.display()))?;
    }
    let text = HEAD.to_string() + &recorder.lines.join("\n") + "\n";
    std::fs::write(file, text).map_err(|e| format!("{}: {e}", file.display()))?;
    summary(&recorder);
    Ok(())
}

fn summary(recorder: &Recorder) {
    let longest = recorder.lines.iter().map(|l| l.len()).max().unwrap_or(0);
    let by_rust = recorder
        .lines
        .iter()
        .filter(|l| l.contains(" rust "))
        .count();
    println!(
        "{} lines, {by_rust} judged by the Rust; the longest has {longest} bytes",
        recorder.lines.len()
    );
    for ask in ASKS {
        // no proposed order is recorded: the Rust has none, and `trials` goes through every small one
        if matches!(ask, Ask::CheckOrder | Ask::Propose) {
            continue;
        }
        let numbers = recorder.met.range((ask, 0)..=(ask, 30));
        let numbers: Vec<_> = numbers.map(|((_, n), c)| format!("{n}:{c}")).collect();
        println!("  {:<9} {}", ask.word(), numbers.join(" "));
    }
    let missing: Vec<_> = (0..67).filter(|k| !recorder.kinds.contains(k)).collect();
    println!("kinds that no step answers: {missing:?}");
}
