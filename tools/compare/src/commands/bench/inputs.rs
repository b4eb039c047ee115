//! The texts and sheets that are timed, the same each time.

use crate::generate::sheets::{self, Sheet};
use crate::generate::wit::{self, Tongue};
use crate::model::{self, ROW_CAP};
use crate::rng::Rng;

/// About 60 KiB.
const LONG: usize = 60 * 1024;

/// A text and what it is called.
pub struct Text {
    pub name: &'static str,
    pub bytes: Vec<u8>,
}

/// The texts.
pub fn texts() -> Vec<Text> {
    let named = |name, text: String| Text {
        name,
        bytes: text.into_bytes(),
    };
    vec![
        named("realistic", realistic(&wit::ENGLISH, LONG)),
        named("Greek", realistic(&wit::GREEK, LONG)),
        named("comments", comments(LONG)),
        named("words", words(&NAMES, LONG)),
        named("Greek words", words(&GREEK_NAMES, LONG)),
        named("strings", strings(LONG)),
        named("small", realistic(&wit::ENGLISH, 1_100)),
    ]
}

fn cut(mut text: String, size: usize) -> String {
    let front = &text.as_bytes()[..size.min(text.len())];
    let end = front.iter().rposition(|&b| b == b'\n').unwrap_or(0);
    text.truncate(end + 1);
    text
}

/// WIT with the remarks that such files have above most lines.
fn realistic(tongue: &'static Tongue, size: usize) -> String {
    let mut rng = Rng::new(7);
    let plain = wit::source(&mut rng, tongue, size).replace("\r\n", "\n");
    let mut text = String::new();
    for line in plain.lines() {
        let indent = &line[..line.len() - line.trim_start().len()];
        let tells = line.ends_with(';') || line.ends_with('{') || line.ends_with(',');
        if tells && !rng.one_in(3) {
            for _ in 0..1 + rng.below(4) {
                text += &format!("{indent}/// {}\n", tongue.remark);
            }
        }
        text += line;
        text.push('\n');
    }
    cut(text, size)
}

fn comments(size: usize) -> String {
    let mut text = String::new();
    let mut rng = Rng::new(8);
    while text.len() < size {
        for _ in 0..6 {
            text +=
                "/// What the panel shows while the guest is out, and for how long, in seconds.\n";
        }
        text += "/* kept for the old units:\n   /* none of them is left */ */\n";
        text += &format!("type a{} = u32;\n", rng.below(100));
    }
    cut(text, size)
}

/// The names among the words.
const NAMES: [&str; 5] = ["booking", "key-card", "sensor", "LAMP", "garçon"];
const GREEK_NAMES: [&str; 5] = ["κράτηση", "κάρτα-κλειδί", "αισθητήρας", "ΛΑΜΠΑ", "δωμάτιο"];

fn words(names: &[&str], size: usize) -> String {
    let mut text = String::new();
    let mut rng = Rng::new(9);
    while text.len() < size {
        let word = match rng.below(3) {
            0 => model::KEYWORDS[rng.below(44)].0.to_string(),
            1 => format!("item-{}", rng.below(1_000)),
            _ => rng.pick(names).to_string(),
        };
        text += &word;
        text.push(if rng.one_in(9) { '\n' } else { ' ' });
    }
    cut(text, size)
}

fn strings(size: usize) -> String {
    let mut text = String::new();
    let mut rng = Rng::new(10);
    while text.len() < size {
        text += match rng.below(4) {
            0 => "\"a plain text of some forty characters, say\"\n",
            1 => "\"tab\\tquote\\\"back\\\\slash, \\u{1f600} and \\c3\\a9\"\n",
            2 => "\"Größe, naïve, λόγος: raw characters of two bytes\"\n",
            _ => "\"short\"\n",
        };
    }
    cut(text, size)
}

/// The longest front of a text that has at most 4,096 raw rows, and how many it has.
pub fn listable(bytes: &[u8]) -> &[u8] {
    let mut at = 0;
    for _ in 0..ROW_CAP {
        let call = crate::call::Call::step(crate::call::Ask::NextRaw, bytes, 0, at);
        let step = model::answer(&call).numbers;
        if step.number != 0 || step.x == model::END_KIND {
            break;
        }
        at = step.cursor;
    }
    &bytes[..at as usize]
}

/// A sheet and what it is called.
pub struct Named {
    pub name: &'static str,
    pub sheet: Sheet,
}

/// The sheets: 20 items and 40 dependencies; 256 and 2,048, in three shapes.
pub fn sheets() -> Vec<Named> {
    let plain = |i: usize| format!("item-{i}");
    let prefixed = |i: usize| format!("{}{i}", "hotel-panel-interface-".repeat(5));
    vec![
        Named {
            name: "20/40 random",
            sheet: random(20, 40, plain),
        },
        Named {
            name: "256/2,048 random",
            sheet: random(256, 2_048, plain),
        },
        Named {
            name: "256/2,048 chain",
            sheet: chain(256, 2_048, plain),
        },
        Named {
            name: "256/2,048 long shared prefixes",
            sheet: random(256, 2_048, prefixed),
        },
    ]
}

/// Dependencies by chance without a cycle, so that an order comes back; listed so that the order is not the list.
fn random(n: usize, e: usize, name: impl Fn(usize) -> String) -> Sheet {
    let mut rng = Rng::new(11);
    let mut rank: Vec<usize> = (0..n).collect();
    for i in (1..n).rev() {
        rank.swap(i, rng.below(i + 1));
    }
    let mut items: Vec<_> = (0..n).map(|i| (name(i), Vec::new())).collect();
    for _ in 0..e {
        let (a, b) = (rng.below(n - 1), rng.below(n));
        let (high, low) = if a < b { (b, a) } else { (a + 1, b) };
        items[rank[high]].1.push(name(rank[low]));
    }
    sheets::of(&items)
}

/// Each item needs the next, several times over: the order is the list reversed.
fn chain(n: usize, e: usize, name: impl Fn(usize) -> String) -> Sheet {
    let each = e / (n - 1);
    let more = e % (n - 1);
    let needs = |i: usize| match i + 1 < n {
        true => vec![name(i + 1); each + (i < more) as usize],
        false => Vec::new(),
    };
    let items: Vec<_> = (0..n).map(|i| (name(i), needs(i))).collect();
    sheets::of(&items)
}
