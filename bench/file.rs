//! The bench file: one area, one change and a list of steps, as bytes.

use crate::entries::{Entry, Pairs};
use crate::limits::{CELLS, ENTRY, MOST_CHANGES, MOST_STEPS, STEP, UNUSED, WIDTH};
use crate::plan::Times;
use crate::refusal::Refusal;

/// What a file says of itself: counts, the places of the first change and the first step, and the times.
#[derive(Clone, Copy, Debug, PartialEq, Eq)]
pub struct Contents {
    pub n: usize,
    pub links: usize,
    pub changes: usize,
    pub changes_at: usize,
    pub steps: usize,
    pub steps_at: usize,
    pub times: Times,
}

/// Read: judges the file, and fills the metric table with its links.
pub fn read(file: &[u8], table: &mut [u32]) -> Result<Contents, Refusal> {
    if table.len() != CELLS {
        return Err(Refusal::TableSize);
    }
    table.fill(UNUSED);
    let contents = sections(file, table);
    if contents.is_err() {
        table.fill(UNUSED);
    }
    contents
}

fn sections(file: &[u8], table: &mut [u32]) -> Result<Contents, Refusal> {
    let n = byte(file, 0)?;
    if n < 1 || n > WIDTH {
        return Err(Refusal::RouterCount);
    }
    let links = at_most(n * (n - 1), two(file, 1)?)?;
    put_links(n, file, links, table)?;
    let changes_at = 3 + ENTRY * links + 1;
    let changes = at_most(MOST_CHANGES, byte(file, changes_at - 1)?)?;
    let times_at = changes_at + ENTRY * changes;
    let times = Times {
        hold: two(file, times_at)? as u16,
        step: two(file, times_at + 2)? as u16,
    };
    let steps_at = times_at + 4 + 2;
    let steps = at_most(MOST_STEPS, two(file, steps_at - 2)?)?;
    let end = steps_at + STEP * steps;
    if file.len() < end {
        return Err(Refusal::Incomplete);
    }
    if file.len() > end {
        return Err(Refusal::Trailing);
    }
    Ok(Contents {
        n,
        links,
        changes,
        changes_at,
        steps,
        steps_at,
        times,
    })
}

/// Puts the links into the table, up to the first faulty one.
fn put_links(n: usize, file: &[u8], links: usize, table: &mut [u32]) -> Result<(), Refusal> {
    let mut seen = Pairs::none();
    for e in 0..links {
        let at = 3 + ENTRY * e;
        let bytes = file.get(at..at + ENTRY).ok_or(Refusal::Incomplete)?;
        let link = Entry::decode(bytes);
        link.check(n)?;
        if link.metric == UNUSED {
            return Err(Refusal::DeadLink);
        }
        if !seen.insert(&link) {
            return Err(Refusal::Repeated);
        }
        table[link.cell()] = link.metric;
    }
    Ok(())
}

fn byte(file: &[u8], at: usize) -> Result<usize, Refusal> {
    file.get(at).map(|&b| b as usize).ok_or(Refusal::Incomplete)
}

/// The number in the two bytes at a place, high byte first.
fn two(file: &[u8], at: usize) -> Result<usize, Refusal> {
    match file.get(at..at + 2) {
        Some(&[high, low]) => Ok(u16::from_be_bytes([high, low]) as usize),
        _ => Err(Refusal::Incomplete),
    }
}

fn at_most(most: usize, count: usize) -> Result<usize, Refusal> {
    if count > most { Err(Refusal::TooMany) } else { Ok(count) }
}
