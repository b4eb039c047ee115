//! `bench`: both sides over the same inputs in one run. Prints the ratios, and with the library writes docs/BENCH.md and
//! docs/bench.svg.

pub mod count;
mod inputs;
mod page;
#[cfg(have_library)]
mod stack;
mod stacks;
mod work;

use std::path::Path;
use std::time::Instant;

use crate::call::{Call, Numbers};
use crate::side::Side;
use crate::stand_in;
use work::{pairs, Pair, Runner};

/// How many samples of each side are taken, in turn.
const SAMPLES: usize = 101;
/// How long a sample should take at least, in nanoseconds.
const SAMPLE: u128 = 50_000;

/// What was measured of one piece of work.
pub struct Measured {
    pub work: &'static str,
    pub input: String,
    /// Medians, in nanoseconds.
    pub old: f64,
    pub new: f64,
    /// Instructions, where they could be counted.
    pub counts: Option<(u64, u64)>,
}

impl Measured {
    /// How many times faster the new side is.
    pub fn ratio(&self) -> f64 {
        self.old / self.new
    }
}

#[cfg(have_library)]
struct Library;

#[cfg(have_library)]
impl Runner for Library {
    #[inline(always)]
    fn run(call: &Call, words: &mut [u32], bytes: &mut [u8]) -> Numbers {
        crate::library::run_on(call, words, bytes)
    }
}

struct StandIn;

impl Runner for StandIn {
    fn run(call: &Call, words: &mut [u32], bytes: &mut [u8]) -> Numbers {
        let outcome = stand_in::answer(call);
        words[..outcome.words.len()].copy_from_slice(&outcome.words);
        bytes[..outcome.bytes.len()].copy_from_slice(&outcome.bytes);
        outcome.numbers
    }
}

fn pairs_of(side: Side) -> Vec<Pair> {
    match side {
        #[cfg(have_library)]
        Side::Library => pairs::<Library>(),
        _ => pairs::<StandIn>(),
    }
}

/// Times everything, prints it, and writes the page and the plot below a folder if the library was timed.
pub fn bench(side: Side, docs: &Path) -> Result<(), String> {
    let counting = count::version().is_some();
    if !counting {
        println!("valgrind is not here: no instructions are counted");
    }
    println!(
        "{:<20} {:<40} {:>12} {:>12} {:>7} {:>12}",
        "work", "input", "Rust, ns", "new, ns", "ratio", "instructions"
    );
    let mut all = Vec::new();
    for (i, mut pair) in pairs_of(side).into_iter().enumerate() {
        let (old, new) = timed(&mut pair);
        let counted = |s: &str| count::instructions(side == Side::StandIn, i, s);
        let counts = counting
            .then(|| Some((counted("old")?, counted("new")?)))
            .flatten();
        let measured = Measured {
            work: pair.work,
            input: pair.input,
            old,
            new,
            counts,
        };
        let fewer = counts.map_or("-".into(), |(a, b)| format!("{:.2}", a as f64 / b as f64));
        println!(
            "{:<20} {:<40} {old:>12.0} {new:>12.0} {:>7.2} {fewer:>12}",
            measured.work,
            measured.input,
            measured.ratio()
        );
        all.push(measured);
    }
    if side == Side::StandIn {
        println!("the second reading stood in the library's place: nothing is written");
        return Ok(());
    }
    let stacks = stacks::of_library();
    for (call, bytes) in &stacks {
        println!("stack of witbox_{call}: {bytes} bytes");
    }
    page::write(docs, &all, &stacks)
}

/// The medians of both sides, whose samples are taken in turn.
fn timed(pair: &mut Pair) -> (f64, f64) {
    let old_turns = turns(&mut pair.old);
    let new_turns = turns(&mut pair.new);
    let (mut old, mut new) = (Vec::new(), Vec::new());
    for _ in 0..SAMPLES {
        old.push(sample(&mut pair.old, old_turns));
        new.push(sample(&mut pair.new, new_turns));
    }
    (median(old), median(new))
}

/// How often a sample repeats the work.
fn turns(work: &mut dyn FnMut()) -> u32 {
    work();
    let start = Instant::now();
    work();
    let once = start.elapsed().as_nanos().max(1);
    (SAMPLE / once + 1).min(100_000) as u32
}

fn sample(work: &mut dyn FnMut(), turns: u32) -> f64 {
    let start = Instant::now();
    for _ in 0..turns {
        work();
    }
    start.elapsed().as_nanos() as f64 / turns as f64
}

fn median(mut samples: Vec<f64>) -> f64 {
    samples.sort_by(f64::total_cmp);
    samples[samples.len() / 2]
}

/// Does one piece of work once on one side, for whoever counts instructions.
pub fn once(side: Side, pair: usize, which: &str) {
    let mut pairs = pairs_of(side);
    let work = match which {
        "old" => &mut pairs[pair].old,
        _ => &mut pairs[pair].new,
    };
    work();
    count::compare_counted(work);
}
