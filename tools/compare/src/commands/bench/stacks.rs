//! The stack that each public call of the library uses: the most over a few inputs that take each path.

#[cfg(have_library)]
use super::{inputs, stack};
#[cfg(have_library)]
use crate::call::{Ask, Call, OwnedCall, ASKS};

/// Each call's C name behind `witbox_`, and the most bytes of stack that it used.
#[cfg(have_library)]
pub fn of_library() -> Vec<(&'static str, usize)> {
    let calls = calls();
    let most = |ask: Ask| {
        let of_ask = calls.iter().filter(|c| c.ask == ask);
        of_ask.map(|c| used(c.clone())).max().unwrap_or(0)
    };
    ASKS.iter().map(|&ask| (name(ask), most(ask))).collect()
}

/// Nothing, where there is no library.
#[cfg(not(have_library))]
pub fn of_library() -> Vec<(&'static str, usize)> {
    Vec::new()
}

#[cfg(have_library)]
fn name(ask: Ask) -> &'static str {
    match ask {
        Ask::String => "string_literal",
        Ask::Id => "parse_id",
        Ask::ExplicitId => "parse_explicit_id",
        Ask::Sort => "toposort",
        ask => ask.word(),
    }
}

#[cfg(have_library)]
fn used(call: OwnedCall) -> usize {
    let (mut words, mut bytes) = (vec![0; 12_288], vec![0; 65_536]);
    stack::used(move || {
        let call = call.call();
        std::hint::black_box(crate::library::run_on(&call, &mut words, &mut bytes));
    })
}

/// Each entry point over long texts, texts with each sort of token, refused ones, and sheets at the caps.
#[cfg(have_library)]
fn calls() -> Vec<OwnedCall> {
    let mut texts: Vec<Vec<u8>> = inputs::texts().into_iter().map(|t| t.bytes).collect();
    texts.extend(
        inputs::texts()
            .iter()
            .map(|t| inputs::listable(&t.bytes).to_vec()),
    );
    for small in [
        "\"\\u{1f600}\\c3\\a9 x\"",
        "/* /* */ */",
        "%a-b",
        "->",
        "error-context",
        "λ",
        "\r",
        "12",
    ] {
        texts.push(small.as_bytes().to_vec());
        texts.push(format!(" // x\n{small}").into_bytes());
    }
    texts.push(vec![b'"'; 1]);
    texts.push(vec![0xff]);
    let mut calls = Vec::new();
    for text in &texts {
        for ask in ASKS.into_iter().filter(|a| !a.sheets()) {
            let mut call = Call::new(ask, text, 5);
            if ask.spans() {
                (call.a, call.b) = (5, 5 + text.len() as u32);
            }
            if ask.wants() {
                call.a = 62;
            }
            calls.push(OwnedCall::of(&call));
        }
    }
    for named in inputs::sheets() {
        let sheet = named.sheet;
        calls.push(OwnedCall::of(&Call::sort(&sheet.words, &sheet.names, 256)));
        calls.push(OwnedCall::of(&Call::propose(
            &sheet.words,
            &sheet.names,
            256,
        )));
        let list: Vec<u32> = (0..sheet.words[0]).rev().collect();
        calls.push(OwnedCall::of(&Call::check_order(
            &sheet.words,
            &sheet.names,
            &list,
        )));
        let mut missing = sheet.clone();
        let last = missing.words.len() - 4;
        missing.words[last + 1] = 0;
        calls.push(OwnedCall::of(&Call::sort(
            &missing.words,
            &missing.names,
            256,
        )));
    }
    calls
}
