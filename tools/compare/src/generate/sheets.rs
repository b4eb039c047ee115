//! Dependency sheets: from lists of names, every small one, by chance, and damaged.

use crate::rng::Rng;

/// A sheet and its names.
#[derive(Clone, Debug)]
pub struct Sheet {
    pub words: Vec<u32>,
    pub names: Vec<u8>,
}

/// The sheet of items and what each needs. A name that was met before lies where it lay.
pub fn of<N: AsRef<[u8]>>(items: &[(N, Vec<N>)]) -> Sheet {
    let mut names: Vec<u8> = Vec::new();
    let mut known: std::collections::HashMap<Vec<u8>, u32> = Default::default();
    let mut range = |name: &[u8]| {
        let place = *known.entry(name.to_vec()).or_insert_with(|| {
            names.extend(name);
            (names.len() - name.len()) as u32
        });
        [place, name.len() as u32]
    };
    let n = items.len() as u32;
    let e: usize = items.iter().map(|i| i.1.len()).sum();
    let e = e as u32;
    let mut words = vec![n, e, 5, 5 + 4 * n, 5 + 4 * n + 4 * e];
    let mut first = 0;
    for (name, needs) in items {
        words.extend(range(name.as_ref()));
        words.extend([first, needs.len() as u32]);
        first += needs.len() as u32;
    }
    let needs = items.iter().flat_map(|i| i.1.iter());
    for (i, name) in needs.enumerate() {
        words.extend(range(name.as_ref()));
        words.extend([i as u32, u32::MAX - i as u32]);
    }
    Sheet { words, names }
}

/// What a word of a sheet is damaged to.
pub fn damaged(word: u32) -> [u32; 6] {
    [
        0,
        1,
        word.wrapping_add(1),
        word.wrapping_sub(1),
        4_294_967_295,
        4_294_967_295 - word,
    ]
}

/// Every sheet of up to so many items named `a`, `b`, ... and up to so many dependencies, on any of them or on a name that no item
/// has.
pub fn every(items: usize, edges: usize, mut visit: impl FnMut(&[u32], &[u8])) {
    const NAMES: [&str; 6] = ["a", "b", "c", "d", "e", "f"];
    for n in 0..=items {
        for e in 0..=if n == 0 { 0 } else { edges } {
            let owners = n.pow(e as u32);
            let targets = (n + 1).pow(e as u32);
            for code in 0..owners * targets {
                let (owner_code, target_code) = (code / targets, code % targets);
                let owner = |i: usize| owner_code / n.pow(i as u32) % n;
                if (1..e).any(|i| owner(i) < owner(i - 1)) {
                    continue;
                }
                let mut list: Vec<(&str, Vec<&str>)> =
                    NAMES[..n].iter().map(|name| (*name, Vec::new())).collect();
                for i in 0..e {
                    let target = target_code / (n + 1).pow(i as u32) % (n + 1);
                    list[owner(i)].1.push(NAMES[target]);
                }
                let sheet = of(&list);
                visit(&sheet.words, &sheet.names);
            }
        }
    }
}

/// A sheet by chance: mostly small, sometimes at a cap; mostly of good shape, with a name repeated or missing now and then.
pub fn by_chance(rng: &mut Rng) -> Sheet {
    let n = match rng.below(10) {
        0 => 0,
        1 if rng.one_in(4) => 254 + rng.below(4),
        2 => rng.below(60),
        _ => 1 + rng.below(7),
    };
    let e = match rng.below(10) {
        _ if n == 0 => 0,
        0 if n > 200 => 2_046 + rng.below(4),
        1 => 0,
        _ => rng.below(3 * n),
    };
    let style = rng.below(4);
    let name = |i: usize| match style {
        0 => format!("{i}"),
        1 => format!("{}{i:03}", "long-shared-prefix-".repeat(3)),
        2 => "a".repeat(i % 40) + &format!("é{}", i / 40),
        _ => format!("item-{i:x}"),
    };
    let mut items: Vec<(Vec<u8>, Vec<Vec<u8>>)> =
        (0..n).map(|i| (name(i).into_bytes(), Vec::new())).collect();
    let acyclic = rng.one_in(2);
    let shuffled = rng.one_in(2);
    for _ in 0..e {
        let (mut item, mut target) = (rng.below(n), rng.below(n));
        if acyclic && item <= target {
            (item, target) = (target.max(1).min(n - 1), item);
            target = target.min(item.saturating_sub(1));
        }
        if shuffled {
            // an order that the list itself does not show
            (item, target) = (n - 1 - item, n - 1 - target);
        }
        items[item].1.push(name(target).into_bytes());
    }
    if n > 0 && rng.one_in(8) {
        let at = rng.below(n);
        items[at].1.push(b"nowhere".to_vec());
    }
    if n > 1 && rng.one_in(8) {
        let (a, b) = (rng.below(n), rng.below(n));
        items[a].0 = items[b].0.clone();
    }
    if n > 0 && rng.one_in(8) {
        let at = rng.below(n);
        items[at].0 = rng.pick(&[b"" as &[u8], b"\xff", b"\xc3"]).to_vec();
    }
    let mut sheet = of(&items);
    if rng.one_in(4) {
        damage(rng, &mut sheet);
    }
    sheet
}

/// Breaks a few words, or the length, or the names.
fn damage(rng: &mut Rng, sheet: &mut Sheet) {
    match rng.below(8) {
        0 => drop(sheet.words.pop()),
        1 => sheet.words.push(0),
        2 => sheet.words.truncate(rng.below(7)),
        3 => sheet.names.truncate(sheet.names.len().saturating_sub(1)),
        4 => sheet.names.resize(65_535 + rng.below(3), b'x'),
        _ => {
            for _ in 0..1 + rng.below(2) {
                let at = rng.below(sheet.words.len());
                let at = if rng.one_in(2) { at } else { at % 25 };
                let new = rng.pick(&damaged(sheet.words[at]));
                sheet.words[at] = new;
            }
        }
    }
}
