//! What the recorded list holds.

use super::Recorder;
use crate::call::{Ask, Call};
use crate::generate::{sheets, texts};
use crate::model::{KEYWORDS, MAP_CAP};
use crate::rng::Rng;

/// The offsets that most lines have: rarely 0, where a place and a position look alike.
const OFFSETS: [u32; 4] = [10, 1_000_003, 0, 4_294_900_000];

/// The paper's table of cases.
pub fn papers_cases(recorder: &mut Recorder) {
    let raw = [&b""[..], b"a->b", b"/*/", b"a\r\nb", b"\r"];
    for text in raw {
        for offset in OFFSETS {
            recorder.record(&Call::list(Ask::ListRaw, text, offset, 12));
            recorder.record(&Call::list(Ask::List, text, offset, 12));
        }
    }
    let strings = [
        &b"\"\\u{1_}\""[..],
        b"\"\\u{ffff_ffff}\"",
        b"\"\\u{0h\"",
        b"\"\\c3\\a9\"",
    ];
    for text in strings {
        for offset in OFFSETS {
            let end = offset + text.len() as u32;
            recorder.record(&Call::step(Ask::NextRaw, text, offset, 0));
            recorder.record(&Call::span(Ask::String, text, offset, offset, end, 2));
        }
    }
    for offset in OFFSETS {
        recorder.record(&Call::span(
            Ask::ExplicitId,
            b"%",
            offset,
            offset,
            offset + 1,
            0,
        ));
        recorder.record(&Call::span(
            Ask::Id,
            b"apple-Pear",
            offset,
            offset,
            offset + 10,
            0,
        ));
    }
    let graphs: [&[(&str, Vec<&str>)]; 2] = [
        &[("x", vec!["y"]), ("y", vec![]), ("z", vec![])],
        &[("x", vec!["y"]), ("y", vec!["z"]), ("z", vec!["y"])],
    ];
    for graph in graphs {
        let sheet = sheets::of(graph);
        recorder.record(&Call::sort(&sheet.words, &sheet.names, 3));
    }
    let repeated = [
        2, 2, 5, 13, 21, 0, 1, 0, 2, 1, 1, 2, 0, 1, 1, 0, 0, 1, 1, 0, 0,
    ];
    recorder.record(&Call::sort(&repeated, b"ab", 2));
}

/// Each keyword, each mark and each rule by all four steps.
pub fn kinds(recorder: &mut Recorder) {
    let words = KEYWORDS.iter().map(|k| k.0.as_bytes().to_vec());
    let others = "=|,|:|.|;|(|)|{|}|<|>|->|*|@|/|+|-|\"s\"|a|%a|%|7| |\r\n|//x|/* /**/ */";
    let others = others.split('|').map(|t| t.as_bytes().to_vec());
    for (i, text) in words.chain(others).enumerate() {
        let offset = 1_000 + i as u32;
        let found = recorder
            .record(&Call::step(Ask::NextRaw, &text, offset, 0))
            .numbers;
        recorder.record(&Call::step(Ask::Next, &text, offset, 0));
        for wanted in [found.x, (found.x + 1) % 67] {
            recorder.record(&Call::wanting(Ask::Eat, &text, offset, wanted, 0));
            recorder.record(&Call::wanting(Ask::Expect, &text, offset, wanted, 0));
        }
        let longer = [&text[..], b"-"].concat();
        recorder.record(&Call::step(Ask::NextRaw, &longer, offset, 0));
        let explicit = [b"%", &text[..], b"\n"].concat();
        recorder.record(&Call::list(Ask::ListRaw, &explicit, offset, 12));
    }
}

/// The edges of every cap and range.
pub fn edges(recorder: &mut Recorder) {
    for length in [65_535, 65_536, 65_537] {
        let text = vec![b' '; length];
        for ask in [Ask::Open, Ask::NextRaw, Ask::Next, Ask::Eat, Ask::Expect] {
            recorder.record(&Call::wanting(ask, &text, 3, 0, 0));
        }
        for ask in [Ask::ListRaw, Ask::List] {
            recorder.record(&Call::list(ask, &text, 3, 3));
        }
        let mut string = vec![b'a'; length];
        string[0] = b'"';
        string[length - 1] = b'"';
        let end = 3 + length as u32;
        for room in [length - 3, length - 2] {
            recorder.record(&Call::span(Ask::String, &string, 3, 3, end, room));
        }
        let name = vec![b'a'; length];
        recorder.record(&Call::span(Ask::Id, &name, 3, 3, end, 0));
        let explicit = [b"%", &name[1..]].concat();
        recorder.record(&Call::span(Ask::ExplicitId, &explicit, 3, 3, end, 0));
        let one = [1, 0, 5, 9, 9, 0, length as u32, 0, 0];
        recorder.record(&Call::sort(&one, &name, 1));
    }
    for rows in [4_095, 4_096, 4_097, 60_000] {
        let dense = vec![b';'; rows];
        recorder.record(&Call::list(Ask::ListRaw, &dense, 9, 12_284));
        recorder.record(&Call::list(Ask::List, &dense, 9, 0));
        let blank = [&dense[..], b" "].concat();
        recorder.record(&Call::list(Ask::ListRaw, &blank, 9, 0));
        recorder.record(&Call::list(Ask::List, &blank, 9, 0));
        recorder.record(&Call::list(
            Ask::ListRaw,
            &[&dense[..], b"\""].concat(),
            9,
            0,
        ));
    }
    for text in [&b""[..], b"a", b"a-b \"x\"", b"\xef\xbb\xbfab"] {
        let last = (MAP_CAP - text.len() as u64) as u32;
        for offset in [last, last + 1, u32::MAX] {
            every_call(recorder, text, offset);
        }
    }
    for scalar in [
        0x7e, 0x7f, 0x9f, 0xa0, 0xaa, 0xb7, 0xd7, 0xf7, 0x2c0, 0x2c1, 0x2c2, 0x301, 0x37a, 0x387,
        0x3bb, 0x430, 0xcf3, 0xe33, 0x200c, 0x6771, 0xfeff, 0x1_0400, 0x1_e4d0, 0x2_0000, 0x2_a6df,
        0x2_a6e0, 0xe_01ef, 0x10_ffff,
    ] {
        let c = char::from_u32(scalar).expect("a scalar");
        for text in [
            format!("{c}"),
            format!("a{c}"),
            format!("%{c}"),
            format!("\"{c}\""),
        ] {
            every_call(recorder, text.as_bytes(), 500);
        }
    }
    sheet_edges(recorder);
}

/// Every entry point over one text, spans over all of it.
fn every_call(recorder: &mut Recorder, text: &[u8], offset: u32) {
    recorder.record(&Call::new(Ask::Open, text, offset));
    for ask in [Ask::NextRaw, Ask::Next] {
        recorder.record(&Call::step(ask, text, offset, 0));
    }
    for ask in [Ask::Eat, Ask::Expect] {
        recorder.record(&Call::wanting(ask, text, offset, 62, 0));
    }
    for ask in [Ask::ListRaw, Ask::List] {
        recorder.record(&Call::list(ask, text, offset, 3 * text.len()));
    }
    let end = offset.wrapping_add(text.len() as u32);
    for ask in [Ask::Id, Ask::ExplicitId] {
        recorder.record(&Call::span(ask, text, offset, offset, end, 0));
    }
    recorder.record(&Call::span(
        Ask::String,
        text,
        offset,
        offset,
        end,
        text.len(),
    ));
}

/// 256 and 257 items, 2,048 and 2,049 dependencies, no item, and every number of header words.
fn sheet_edges(recorder: &mut Recorder) {
    // names of the letter `a`, one longer than the other: all different, and quickly written down
    let names = [b'a'; 256];
    for (n, e) in [
        (0, 0),
        (1, 0),
        (255, 0),
        (256, 0),
        (257, 0),
        (256, 2_048),
        (256, 2_049),
    ] {
        let mut words: Vec<u32> = vec![n, e, 5, 5 + 4 * n, 5 + 4 * n + 4 * e];
        for i in 0..n {
            // the last item has every dependency; item 0 has the empty name, which each of them needs
            let edges = if i + 1 == n { e } else { 0 };
            words.extend([0, i, 0, edges]);
        }
        words.resize(words.len() + 4 * e as usize, 0);
        for room in [n as usize, n as usize + 1, (n as usize).saturating_sub(1)] {
            recorder.record(&Call::sort(&words, &names, room));
        }
    }
    let sheet = sheets::of(&[("a", vec!["b"]), ("b", vec![])]);
    for length in 0..=sheet.words.len() {
        recorder.record(&Call::sort(&sheet.words[..length], &sheet.names, 2));
    }
    for at in 0..sheet.words.len() {
        for word in sheets::damaged(sheet.words[at]) {
            let mut words = sheet.words.clone();
            words[at] = word;
            recorder.record(&Call::sort(&words, &sheet.names, 2));
        }
    }
}

/// Walks over a text by each step, each line going on from the cursor of the line before.
pub fn walks(recorder: &mut Recorder) {
    let samples: [&[u8]; 6] = [
        b"package hotel:lamp@1.0.0;\r\n\r\ninterface %use {\r\n  use types.{a as b}; // end\r\n}",
        b"\xef\xbb\xbfworld w { export f: async func(x: list<u8>) -> result; }\n/* /* */ */",
        b"a->b %->c /x/ //y\n \"q\\u{1_f600}\" -> 12ab _ error-context \xc3\xa9",
        b"  /* no end",
        b"a \xff b",
        b"x \xce\xbb y",
    ];
    for (i, text) in samples.iter().enumerate() {
        let offset = OFFSETS[i % 2] + i as u32;
        let opened = recorder.record(&Call::new(Ask::Open, text, offset)).numbers;
        for ask in [Ask::NextRaw, Ask::Next, Ask::Eat, Ask::Expect] {
            let mut from = opened.cursor;
            for turn in 0..60 {
                let next = Call::step(Ask::Next, text, offset, from);
                let found = super::expected(&next).0.numbers;
                // each third question is for another kind
                let wanted = match found.x {
                    _ if !ask.wants() => 0,
                    kind if turn % 3 == 2 => (kind + 1) % 67,
                    kind => kind.min(66),
                };
                let step = recorder.record(&Call::wanting(ask, text, offset, wanted, from));
                let stays = step.numbers.cursor == from;
                let over = step.numbers.number != 0 && step.numbers.number != 21;
                if over || found.x == 67 {
                    break;
                }
                from = if stays {
                    found.cursor
                } else {
                    step.numbers.cursor
                };
            }
        }
        for from in [text.len() as u32, text.len() as u32 + 1, u32::MAX] {
            for ask in [Ask::NextRaw, Ask::Next, Ask::Eat, Ask::Expect] {
                for wanted in if ask.wants() { 65..=68 } else { 0..=0 } {
                    recorder.record(&Call::wanting(ask, text, offset, wanted, from));
                }
            }
        }
    }
}

/// Every text of up to two telling symbols.
pub fn short_texts(recorder: &mut Recorder) {
    let alphabet = super::super::exhaust::ALPHABET;
    for a in alphabet {
        for b in alphabet {
            let text = [a, b].concat();
            recorder.record(&Call::list(Ask::ListRaw, &text, 1_000_003, 6));
            recorder.record(&Call::step(Ask::NextRaw, &text, 10, 0));
        }
    }
}

/// Up to so many short lines for each refusal of each call, and for what is accepted.
const EACH: usize = 28;

/// Inputs by chance, kept while their call and number are still rare.
pub fn by_chance(recorder: &mut Recorder) {
    let mut rng = Rng::new(1);
    for _ in 0..60_000 {
        if rng.one_in(6) {
            let sheet = sheets::by_chance(&mut rng);
            if sheet.words.len() < 60 && sheet.names.len() < 60 {
                let room = rng.below(9);
                keep(recorder, &Call::sort(&sheet.words, &sheet.names, room));
            }
            continue;
        }
        let text = match rng.below(3) {
            0 => texts::string(&mut rng),
            _ => texts::text(&mut rng),
        };
        if text.len() > 48 {
            continue;
        }
        let offset = match rng.below(4) {
            0 => texts::offset(&mut rng, text.len()),
            _ => 1 + rng.below(100_000) as u32,
        };
        let place = |rng: &mut Rng| offset.wrapping_add(rng.below(text.len() + 1) as u32);
        let (a, b) = match rng.below(3) {
            0 => (place(&mut rng), place(&mut rng)),
            _ => (offset, offset.wrapping_add(text.len() as u32)),
        };
        let from = match rng.below(3) {
            0 => 0,
            _ => rng.below(text.len() + 2) as u32,
        };
        let wanted = rng.below(69) as u32;
        let room = rng.below(24);
        keep(recorder, &Call::new(Ask::Open, &text, offset));
        for ask in [Ask::NextRaw, Ask::Next] {
            keep(recorder, &Call::step(ask, &text, offset, from));
        }
        for ask in [Ask::Eat, Ask::Expect] {
            keep(recorder, &Call::wanting(ask, &text, offset, wanted, from));
        }
        for ask in [Ask::ListRaw, Ask::List] {
            keep(recorder, &Call::list(ask, &text, offset, room));
        }
        for ask in [Ask::Id, Ask::ExplicitId] {
            keep(recorder, &Call::span(ask, &text, offset, a, b, 0));
        }
        keep(
            recorder,
            &Call::span(Ask::String, &text, offset, a, b, room),
        );
    }
}

/// Records a call whose answer is still rare among the lines.
fn keep(recorder: &mut Recorder, call: &Call) {
    let (outcome, _) = super::expected(call);
    let most = if outcome.numbers.number == 0 {
        3 * EACH
    } else {
        EACH
    };
    if recorder.count(call.ask, outcome.numbers.number) < most {
        recorder.record(call);
    }
}
