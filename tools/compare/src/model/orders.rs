//! 02, §6: load orders that somebody proposes.

use super::sheets::resolved;
use super::{refused, Refusal};
use crate::call::{Numbers, Outcome};

/// Checks a proposed order: the sheet as in 01 up to 29, then 33.
pub fn check(words: &[u32], names: &[u8], list: &[u32]) -> Outcome {
    let checked = resolved(words, names).and_then(|(count, edges)| accept(count, &edges, list));
    match checked {
        Ok(()) => Numbers::default().into(),
        Err(refusal) => refused(refusal).into(),
    }
}

/// Accepts exactly a permutation of the items with every dependency before each item that needs it.
fn accept(count: usize, edges: &[(usize, usize)], list: &[u32]) -> Result<(), Refusal> {
    let mut sorted = list.to_vec();
    sorted.sort_unstable();
    let items: Vec<u32> = (0..count as u32).collect();
    let place = |item: usize| list.iter().position(|&word| word as usize == item);
    let before = |&(item, target): &(usize, usize)| place(target) < place(item);
    if sorted == items && edges.iter().all(before) {
        return Ok(());
    }
    let fault = (0..list.len()).find(|&at| at_fault(count, edges, list, at));
    Err(Refusal(33, 0, fault.unwrap_or(list.len()) as u32))
}

/// Whether the word there is N or more, repeats an item, or names one with a dependency not earlier in the list.
fn at_fault(count: usize, edges: &[(usize, usize)], list: &[u32], at: usize) -> bool {
    let (earlier, word) = (&list[..at], list[at]);
    let waits = |&(item, target): &(usize, usize)| {
        item == word as usize && !earlier.contains(&(target as u32))
    };
    word as usize >= count || earlier.contains(&word) || edges.iter().any(waits)
}
