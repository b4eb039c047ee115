//! 01, "Dependency sheet".

use super::{refused, too_long, Refusal, TEXT_CAP};
use crate::call::{Numbers, Outcome};

/// The most items.
const ITEM_CAP: u32 = 256;
/// The most dependencies.
const EDGE_CAP: u32 = 2_048;

/// A sheet that passed the checks of shape.
struct Sheet<'a> {
    /// Each item's name.
    items: Vec<&'a [u8]>,
    /// Each dependency: the item that has it, and the name that it needs.
    edges: Vec<(usize, &'a [u8])>,
}

/// Sorts a sheet: 1, 26 for under five words, 27, 26, 28, 29, 25, 30.
pub fn sort(words: &[u32], names: &[u8], room: usize) -> Outcome {
    match sorted(words, names, room) {
        Ok((order, settled)) => Outcome {
            numbers: Numbers {
                x: settled,
                ..Numbers::default()
            },
            words: order,
            ..Outcome::default()
        },
        Err((refusal, settled)) => Numbers {
            x: settled,
            ..refused(refusal)
        }
        .into(),
    }
}

fn sorted(words: &[u32], names: &[u8], room: usize) -> Result<(Vec<u32>, u32), (Refusal, u32)> {
    let (count, edges) = resolved(words, names).map_err(|r| (r, 0))?;
    if room < count {
        return Err((Refusal(25, 0, count as u32), 0));
    }
    let order = clerk(count, &edges);
    let placed = |item: usize| order.contains(&(item as u32));
    let settled = edges.iter().filter(|e| placed(e.1)).count() as u32;
    if order.len() == count {
        return Ok((order, settled));
    }
    let stuck = edges.iter().position(|e| !placed(e.0) && !placed(e.1));
    let edge = stuck.expect("an unplaced item waits for an unplaced one");
    Err((Refusal(30, 0, edge as u32), settled))
}

/// How many items there are, and each dependency as (item, target); refusals up to 29.
pub fn resolved(words: &[u32], names: &[u8]) -> Result<(usize, Vec<(usize, usize)>), Refusal> {
    let sheet = shaped(words, names)?;
    let first = |name: &[u8]| sheet.items.iter().position(|i| *i == name);
    for (i, name) in sheet.items.iter().enumerate() {
        if first(name) != Some(i) {
            return Err(Refusal(28, 0, i as u32));
        }
    }
    let mut edges = Vec::new();
    for (i, &(item, name)) in sheet.edges.iter().enumerate() {
        let target = first(name).ok_or(Refusal(29, 0, i as u32))?;
        edges.push((item, target));
    }
    Ok((sheet.items.len(), edges))
}

/// The checks of shape: 1, 26 for under five words, 27, then 26 for all else.
fn shaped<'a>(words: &[u32], names: &'a [u8]) -> Result<Sheet<'a>, Refusal> {
    if names.len() > TEXT_CAP {
        return Err(too_long(names.len()));
    }
    let bad = Refusal(26, 0, 0);
    let &[n, e, items_at, edges_at, total, ..] = words else {
        return Err(bad);
    };
    if n > ITEM_CAP || e > EDGE_CAP {
        return Err(Refusal(27, 0, 0));
    }
    let wanted = [5, 5 + 4 * n, 5 + 4 * n + 4 * e];
    if [items_at, edges_at, total] != wanted || words.len() != total as usize {
        return Err(bad);
    }
    let (item_rows, edge_rows) = words[5..].split_at(4 * n as usize);
    let named = |row: &[u32]| {
        let end = row[0] as u64 + row[1] as u64;
        (end <= names.len() as u64).then(|| &names[row[0] as usize..end as usize])
    };
    let mut sheet = Sheet {
        items: Vec::new(),
        edges: Vec::new(),
    };
    for (item, row) in item_rows.chunks(4).enumerate() {
        sheet.items.push(named(row).ok_or(bad)?);
        let first = sheet.edges.len();
        let last = first as u64 + row[3] as u64;
        if row[2] as usize != first || last > e as u64 {
            return Err(bad);
        }
        for edge in edge_rows[4 * first..4 * last as usize].chunks(4) {
            sheet.edges.push((item, named(edge).ok_or(bad)?));
        }
    }
    if sheet.edges.len() != e as usize {
        return Err(bad);
    }
    Ok(sheet)
}

/// The clerk's order: again and again the earliest listed item whose dependencies are all placed.
fn clerk(count: usize, edges: &[(usize, usize)]) -> Vec<u32> {
    let mut placed = vec![false; count];
    let mut order = Vec::new();
    loop {
        let mut ready: Vec<bool> = placed.iter().map(|p| !p).collect();
        for &(item, target) in edges {
            ready[item] &= placed[target];
        }
        let Some(item) = ready.iter().position(|r| *r) else {
            return order;
        };
        placed[item] = true;
        order.push(item as u32);
    }
}
