//! Proposed orders of a sheet: every short one, good ones by chance, and damaged ones.

use crate::model;
use crate::rng::Rng;

/// Every list of up to so many words, each an item of `n`, the first number that is none, or the last of all.
pub fn every(n: u32, most: usize, mut visit: impl FnMut(&[u32])) {
    let words: Vec<u32> = (0..=n).chain([u32::MAX]).collect();
    let mut lists = vec![Vec::new()];
    for _ in 0..=most {
        lists.iter().for_each(|list: &Vec<u32>| visit(list));
        let longer = |list: &Vec<u32>| {
            let list = list.clone();
            words.iter().map(move |&word| [&list[..], &[word]].concat())
        };
        lists = lists.iter().flat_map(longer).collect();
    }
}

/// A list by chance: a good order of the sheet where it has one, as often as not damaged.
pub fn by_chance(rng: &mut Rng, words: &[u32], names: &[u8]) -> Vec<u32> {
    let mut list = match model::edges(words, names) {
        Some((count, edges)) => placed(rng, count, &edges),
        None => (0..rng.below(7) as u32).collect(),
    };
    if rng.one_in(2) {
        for _ in 0..1 + rng.below(2) {
            damage(rng, &mut list);
        }
    }
    list
}

/// The items, each time any of those whose dependencies are all placed; where none is left of them, any.
fn placed(rng: &mut Rng, count: usize, edges: &[(usize, usize)]) -> Vec<u32> {
    let mut list: Vec<u32> = Vec::new();
    let mut done = vec![false; count];
    while list.len() < count {
        let mut ready: Vec<bool> = done.iter().map(|d| !d).collect();
        for &(item, target) in edges {
            ready[item] &= done[target];
        }
        let of = |able: &[bool]| -> Vec<usize> { (0..count).filter(|&i| able[i]).collect() };
        let mut able = of(&ready);
        if able.is_empty() {
            able = (0..count).filter(|&i| !done[i]).collect();
        }
        let item = rng.pick(&able);
        done[item] = true;
        list.push(item as u32);
    }
    list
}

/// Two words exchanged, a word repeated, changed or left out, the list cut or made longer.
fn damage(rng: &mut Rng, list: &mut Vec<u32>) {
    let n = list.len();
    if n == 0 {
        list.push(rng.pick(&[0, 1, u32::MAX]));
        return;
    }
    let (a, b) = (rng.below(n), rng.below(n));
    match rng.below(8) {
        0 | 1 => list.swap(a, b),
        2 => list[a] = list[b],
        3 => list[a] = rng.pick(&[n as u32, n as u32 + 1, 256, u32::MAX]),
        4 => drop(list.remove(a)),
        5 => list.truncate(a),
        6 => list.push(list[a]),
        _ => list.extend_from_within(..),
    }
}
