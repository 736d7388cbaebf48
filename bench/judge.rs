//! The refusals of a plan, and what its changes have in common.

use crate::entries::{Entry, Pairs, entries};
use crate::limits::{CELLS, ENTRY, MOST_CHANGES};
use crate::paths::usable;
use crate::plan::apply;
use crate::refusal::Refusal;

/// The root of an accepted change, and whether its metrics rise.
pub struct Change {
    pub root: usize,
    pub rising: bool,
}

/// Judges a change list against the old metrics.
pub fn change(n: usize, old: &[u32], list: &[u8]) -> Result<Change, Refusal> {
    if list.len() % ENTRY != 0 {
        return Err(Refusal::Incomplete);
    }
    if list.len() / ENTRY > MOST_CHANGES {
        return Err(Refusal::TooMany);
    }
    if list.is_empty() {
        return Err(Refusal::NoChange);
    }
    check_entries(n, list)?;
    let rising = direction(n, old, list)?;
    let first = Entry::decode(list);
    let root = [first.from.min(first.to), first.from.max(first.to)]
        .into_iter()
        .find(|&c| is_common(list, c))
        .ok_or(Refusal::NoCommonRouter)?;
    Ok(Change { root, rising })
}

/// The refusal of the first faulty entry.
fn check_entries(n: usize, list: &[u8]) -> Result<(), Refusal> {
    let mut seen = Pairs::none();
    for entry in entries(list) {
        entry.check(n)?;
        if !seen.insert(&entry) {
            return Err(Refusal::Repeated);
        }
    }
    Ok(())
}

/// Whether the usable metrics rise. No other pair than a listed one goes a way of its own; the new metrics are worked
/// out aside, since a refusal writes no cell.
fn direction(n: usize, old: &[u32], list: &[u8]) -> Result<bool, Refusal> {
    let mut new = [0; CELLS];
    apply(n, old, list, &mut new);
    let rising = entries(list).all(|e| usable(old, e.from, e.to) <= usable(&new, e.from, e.to));
    let falling = entries(list).all(|e| usable(&new, e.from, e.to) <= usable(old, e.from, e.to));
    match (rising, falling) {
        (true, true) => Err(Refusal::SameMetric),
        (false, false) => Err(Refusal::Mixed),
        _ => Ok(rising),
    }
}

/// Is router c an end of every change?
fn is_common(list: &[u8], c: usize) -> bool {
    entries(list).all(|e| e.from == c || e.to == c)
}
