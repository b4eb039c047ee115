//! docs/BENCH.md and docs/bench.svg.

use std::fmt::Write;
use std::fs;
use std::path::Path;
use std::process::Command;

use super::{count, Measured};

/// Writes the page and the plot.
pub fn write(docs: &Path, all: &[Measured], stacks: &[(&str, usize)]) -> Result<(), String> {
    let put = |name: &str, text: String| {
        let file = docs.join(name);
        fs::write(&file, text).map_err(|e| format!("{}: {e}", file.display()))
    };
    put("BENCH.md", page(all, stacks))?;
    put("bench.svg", plot(all))?;
    println!("docs/BENCH.md and docs/bench.svg are written");
    Ok(())
}

fn page(all: &[Measured], stacks: &[(&str, usize)]) -> String {
    let mut out = String::from(
        "# Old against new: time, instructions, stack\n\n\
         Written by `tools/compare/run bench`: both sides over the same inputs in one run, built for release, the median of 101\n\
         samples taken in turn. A ratio above 1 says how many times faster witbox is. Texts with more than 4,096 rows are cut to that\n\
         many for the listings, and whole for the steps. The Rust's rows go to a vector with room for them; its sort builds its map\n\
         from the sheet first. What was tried, and what limits it: [SPEED.md](SPEED.md).\n\n",
    );
    for (what, value) in machine() {
        writeln!(out, "- {what}: {value}").unwrap();
    }
    out += "\n![ratios](bench.svg)\n\n";
    out += "| work | input | Rust, ns | witbox, ns | ratio | Rust, instructions | witbox, instructions | ratio |\n";
    out += "|---|---|---:|---:|---:|---:|---:|---:|\n";
    for m in all {
        let counts = m.counts.map_or("| - | - | - |".to_string(), |(old, new)| {
            let ratio = old as f64 / new as f64;
            format!("| {} | {} | {ratio:.2} |", grouped(old), grouped(new))
        });
        let (old, new) = (grouped(m.old as u64), grouped(m.new as u64));
        writeln!(
            out,
            "| {} | {} | {old} | {new} | {:.2} {counts}",
            m.work,
            m.input,
            m.ratio()
        )
        .unwrap();
    }
    out += "\n## Stack\n\n\
            What each public call uses below its caller's frame, measured by painting a thread's stack: the most over long texts, texts of\n\
            each sort of token, refused ones, and sheets at the caps.\n\n| call | bytes |\n|---|---:|\n";
    for (call, bytes) in stacks {
        writeln!(out, "| `witbox_{call}` | {} |", grouped(*bytes as u64)).unwrap();
    }
    out
}

/// A number with its thousands set apart.
fn grouped(n: u64) -> String {
    let digits = n.to_string();
    let mut out = String::new();
    for (i, digit) in digits.chars().enumerate() {
        if i > 0 && (digits.len() - i) % 3 == 0 {
            out.push(',');
        }
        out.push(digit);
    }
    out
}

/// What it was measured on and with.
fn machine() -> Vec<(&'static str, String)> {
    let read = |file: &str| fs::read_to_string(file).unwrap_or_default();
    let cpu = read("/proc/cpuinfo");
    let model = cpu.lines().find(|l| l.starts_with("model name"));
    let model = model
        .and_then(|l| l.split(": ").nth(1))
        .unwrap_or("unknown");
    let cores = std::thread::available_parallelism().map_or(0, |n| n.get());
    let release = read("/etc/os-release");
    let system = release.lines().find_map(|l| l.strip_prefix("PRETTY_NAME="));
    let ran = |program: &str, word: &str| {
        let output = Command::new(program).arg(word).output().ok();
        let text = output.map(|o| String::from_utf8_lossy(&o.stdout).trim().to_string());
        text.filter(|t| !t.is_empty()).unwrap_or("not here".into())
    };
    vec![
        ("machine", format!("{model}, {cores} cores")),
        (
            "system",
            system.unwrap_or("unknown").trim_matches('"').into(),
        ),
        ("Rust compiler", env!("COMPARE_RUSTC").into()),
        ("wit-parser", "0.262.0".into()),
        ("crates", env!("COMPARE_CRATES").into()),
        ("Rattle", ran("rt", "version")),
        (
            "instructions",
            count::version().unwrap_or("not counted".into()),
        ),
    ]
}

/// The height of a bar and of what stands around it.
const BAR: usize = 16;
const LEFT: usize = 330;
const WIDTH: usize = 420;

/// A bar for each piece of work: how many times faster the new side is.
fn plot(all: &[Measured]) -> String {
    let most = all.iter().map(|m| m.ratio()).fold(2.0, f64::max);
    let scale = WIDTH as f64 / most;
    let height = 50 + all.len() * (BAR + 6) + 20;
    let full = LEFT + WIDTH + 70;
    let mut out = format!(
        "<svg xmlns=\"http://www.w3.org/2000/svg\" width=\"{full}\" height=\"{height}\" font-family=\"sans-serif\" font-size=\"12\">\n\
         <rect width=\"100%\" height=\"100%\" fill=\"white\"/>\n\
         <text x=\"10\" y=\"22\" font-size=\"15\">How many times faster than the Rust</text>\n"
    );
    for (i, m) in all.iter().enumerate() {
        let y = 40 + i * (BAR + 6);
        let wide = m.ratio() * scale;
        let colour = if m.ratio() >= 1.0 {
            "#2a7f62"
        } else {
            "#b5472f"
        };
        let base = y + 12;
        writeln!(
            out,
            "<text x=\"{}\" y=\"{base}\" text-anchor=\"end\">{}: {}</text>\n\
             <rect x=\"{LEFT}\" y=\"{y}\" width=\"{wide:.1}\" height=\"{BAR}\" fill=\"{colour}\"/>\n\
             <text x=\"{:.1}\" y=\"{base}\">{:.1}</text>",
            LEFT - 8,
            m.work,
            m.input,
            LEFT as f64 + wide + 6.0,
            m.ratio()
        )
        .unwrap();
    }
    let one = LEFT as f64 + scale;
    let foot = height - 24;
    writeln!(
        out,
        "<line x1=\"{one:.1}\" y1=\"34\" x2=\"{one:.1}\" y2=\"{foot}\" stroke=\"black\" stroke-dasharray=\"4 3\"/>\n\
         <text x=\"{one:.1}\" y=\"{}\" text-anchor=\"middle\">1: as fast as the Rust</text>\n</svg>",
        foot + 16
    )
    .unwrap();
    out
}
