//! One call through all sides: what it should answer by the Rust or by the second reading, and what the new side answers.

use std::collections::BTreeMap;
use std::process::exit;
use std::sync::atomic::{AtomicBool, Ordering};
use std::sync::Mutex;

use crate::call::{Ask, Call, Numbers, Outcome, OwnedCall};
use crate::lent::Lent;
use crate::side::Side;
use crate::{model, old, reduce, show};

/// Whether a run is to end at the first difference.
pub static FIRST: AtomicBool = AtomicBool::new(false);

/// Held by whoever prints the first difference.
static PRINTING: Mutex<()> = Mutex::new(());

/// Who decided what a call should answer.
#[derive(Clone, Copy, PartialEq, Eq, Debug)]
pub enum Judge {
    /// lex.rs or toposort.rs.
    Rust,
    /// The second reading of the paper.
    Paper,
}

impl Judge {
    /// The judge's word in the recorded list.
    pub fn word(self) -> &'static str {
        match self {
            Judge::Rust => "rust",
            Judge::Paper => "paper",
        }
    }
}

/// Which two sides differ.
#[derive(Clone, Copy, PartialEq, Eq, PartialOrd, Ord, Debug)]
enum Pair {
    /// The new side and whoever judges.
    New,
    /// The second reading and the Rust, inside the domain: a fault of this tool or of the paper.
    Paper,
}

/// What the new side answered and left.
struct Got {
    numbers: Numbers,
    words: Vec<u32>,
    bytes: Vec<u8>,
    overrun: bool,
}

/// A difference as first met.
struct Difference {
    call: OwnedCall,
    times: u64,
}

/// What was compared so far.
#[derive(Clone, Default)]
pub struct Counts {
    pub calls: u64,
    /// How many of them the Rust judged.
    pub by_rust: u64,
    /// How often each number was the right one.
    pub numbers: BTreeMap<u32, u64>,
    /// How many differed.
    pub differing: u64,
}

/// Makes calls on all sides, counts, and keeps each kind of difference once.
pub struct Checker {
    side: Side,
    lent: Lent,
    pub counts: Counts,
    differences: BTreeMap<(Pair, Ask, u32, u32), Difference>,
}

/// What a call should answer, and who says so.
pub fn expected(call: &Call) -> (Outcome, Judge) {
    match old::judge(call) {
        Some(outcome) => (outcome, Judge::Rust),
        None => (model::answer(call), Judge::Paper),
    }
}

impl Checker {
    /// A checker of a new side.
    pub fn new(side: Side) -> Checker {
        Checker {
            side,
            lent: Lent::default(),
            counts: Counts::default(),
            differences: BTreeMap::new(),
        }
    }

    /// Makes a call on all sides and answers what it should answer.
    pub fn check(&mut self, call: &Call) -> Outcome {
        let paper = model::answer(call);
        let judged = old::judge(call);
        self.counts.calls += 1;
        self.counts.by_rust += judged.is_some() as u64;
        let expected = judged.as_ref().unwrap_or(&paper);
        let met = self.counts.numbers.entry(expected.numbers.number);
        *met.or_default() += 1;
        self.lent.fill(call);
        let numbers = self.side.run(call, &mut self.lent);
        let mut fault = None;
        if *expected != paper {
            fault = Some((Pair::Paper, paper.numbers.number));
        }
        if numbers != expected.numbers || !self.lent.holds(expected) {
            fault = Some((Pair::New, numbers.number));
        }
        if let Some((pair, number)) = fault {
            self.note(pair, call, expected.numbers.number, number);
        }
        judged.unwrap_or(paper)
    }

    fn note(&mut self, pair: Pair, call: &Call, expected: u32, got: u32) {
        self.counts.differing += 1;
        let key = (pair, call.ask, expected, got);
        let met = self.differences.entry(key).or_insert_with(|| Difference {
            call: OwnedCall::of(call),
            times: 0,
        });
        met.times += 1;
        if FIRST.load(Ordering::Relaxed) {
            let _one_prints = PRINTING.lock();
            println!("the first difference, at call {}", self.counts.calls);
            self.report();
            exit(1);
        }
    }

    /// Whether a call differs at all; nothing is counted.
    pub fn differs(&mut self, call: &Call) -> bool {
        let paper = model::answer(call);
        let judged = old::judge(call);
        let expected = judged.as_ref().unwrap_or(&paper);
        self.lent.fill(call);
        let numbers = self.side.run(call, &mut self.lent);
        *expected != paper || numbers != expected.numbers || !self.lent.holds(expected)
    }

    /// Takes over what another checker counted and found.
    pub fn absorb(&mut self, other: Checker) {
        let (mine, theirs) = (&mut self.counts, &other.counts);
        mine.calls += theirs.calls;
        mine.by_rust += theirs.by_rust;
        mine.differing += theirs.differing;
        for (number, theirs) in &theirs.numbers {
            *mine.numbers.entry(*number).or_default() += theirs;
        }
        for (key, theirs) in other.differences {
            match self.differences.get_mut(&key) {
                Some(mine) => mine.times += theirs.times,
                None => drop(self.differences.insert(key, theirs)),
            }
        }
    }

    fn got(&mut self, call: &Call) -> Got {
        self.lent.fill(call);
        let numbers = self.side.run(call, &mut self.lent);
        Got {
            numbers,
            words: self.lent.changed_words().to_vec(),
            bytes: self.lent.changed_bytes().to_vec(),
            overrun: self.lent.overrun(),
        }
    }

    /// Prints each difference, reduced, with all answers. Answers whether there was none.
    pub fn report(&mut self) -> bool {
        let differences = std::mem::take(&mut self.differences);
        for (number, (key, difference)) in differences.iter().enumerate() {
            let small = reduce::reduce(&difference.call, |call| self.differs(call));
            let call = small.call();
            println!("difference {} (met {} times)", number + 1, difference.times);
            if key.0 == Pair::Paper {
                println!("  the second reading and the Rust disagree: a fault of this tool, or of the paper");
            }
            print!("{}", show::call(&call));
            self.sides(&call);
            if difference.call.bytes.len() > call.bytes.len() {
                let length = difference.call.bytes.len();
                println!("  (reduced from an input of {length} bytes)");
            }
        }
        differences.is_empty()
    }

    /// Prints what each side answers.
    fn sides(&mut self, call: &Call) {
        let line = |who: &str, o: &Outcome| {
            let answer = show::answer(call.ask, &o.numbers, &o.words, &o.bytes);
            println!("  {who:<8} {answer}");
        };
        match old::judge(call) {
            Some(outcome) => line("Rust", &outcome),
            None => println!("  Rust     outside the domain"),
        }
        line("paper", &model::answer(call));
        let got = self.got(call);
        let answer = show::answer(call.ask, &got.numbers, &got.words, &got.bytes);
        println!("  {:<8} {answer}", self.side.name());
        if got.overrun {
            println!("           and it wrote beside the lent memory");
        }
    }

    /// Prints what was compared.
    pub fn summary(&self) {
        let counts = &self.counts;
        let paper = counts.calls - counts.by_rust;
        println!(
            "{} calls compared: {} judged by the Rust, {paper} by the second reading of the paper",
            counts.calls, counts.by_rust
        );
        let met = counts.numbers.iter();
        let met: Vec<_> = met.map(|(number, n)| format!("{number}:{n}")).collect();
        println!("answers by number: {}", met.join(" "));
        println!("differences: {}", counts.differing);
    }
}
