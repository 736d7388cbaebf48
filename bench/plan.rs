//! The plan of one change: root, direction, waiting and telling sets, ranks, and what is due.

use crate::entries::{entries, members};
use crate::judge;
use crate::limits::{CELLS, Set, UNUSED, WIDTH};
use crate::paths::{self, paths};
use crate::refusal::Refusal;

/// A plan's record. Entry r of a table per router belongs to router r, and is 0 from n on.
#[derive(Clone, Debug, PartialEq, Eq)]
pub struct Record {
    pub n: u8,
    pub root: u8,
    pub direction: u8,
    pub ranks: [u8; WIDTH],
    pub waiting: [Set; WIDTH],
    pub telling: [Set; WIDTH],
    pub due: [Set; WIDTH],
    pub states: [u8; WIDTH],
    pub written: [Set; WIDTH],
    pub hold_time: u16,
    pub step_time: u16,
    pub clock: u32,
    pub learn_times: [u32; WIDTH],
}

/// The hold time and the step time of a plan, in ticks.
#[derive(Clone, Copy, Debug, PartialEq, Eq)]
pub struct Times {
    pub hold: u16,
    pub step: u16,
}

/// Those of every plan here.
pub const TIMES: Times = Times { hold: 0, step: 1 };

/// The old metrics, and the tables that a plan fills.
pub struct Tables {
    pub old: Vec<u32>,
    pub new: Vec<u32>,
    pub old_dist: Vec<u32>,
    pub old_hops: Vec<Set>,
    pub old_fours: Vec<Set>,
    pub new_dist: Vec<u32>,
    pub new_hops: Vec<Set>,
    pub new_fours: Vec<Set>,
}

impl Tables {
    pub fn blank() -> Tables {
        let table = vec![0; CELLS];
        let sets = vec![0; CELLS];
        Tables {
            old: table.clone(),
            new: table.clone(),
            old_dist: table.clone(),
            old_hops: sets.clone(),
            old_fours: sets.clone(),
            new_dist: table,
            new_hops: sets.clone(),
            new_fours: sets,
        }
    }

    fn are_sized(&self) -> bool {
        [
            self.old.len(),
            self.new.len(),
            self.old_dist.len(),
            self.old_hops.len(),
            self.old_fours.len(),
            self.new_dist.len(),
            self.new_hops.len(),
            self.new_fours.len(),
        ] == [CELLS; 8]
    }
}

/// Plan: fills the tables and gives the fresh record, or refuses and writes no cell.
pub fn plan(n: usize, times: Times, list: &[u8], t: &mut Tables) -> Result<Record, Refusal> {
    paths::check_count(n)?;
    if times.step == 0 {
        return Err(Refusal::NoStepTime);
    }
    paths::check(n, &t.old, t.are_sized())?;
    let change = judge::change(n, &t.old, list)?;
    apply(n, &t.old, list, &mut t.new);
    paths(n, &t.old, &mut t.old_dist, &mut t.old_hops, &mut t.old_fours)?;
    paths(n, &t.new, &mut t.new_dist, &mut t.new_hops, &mut t.new_fours)?;
    let waiting = if change.rising {
        converse(n, &toward(n, change.root, &t.old_hops))
    } else {
        toward(n, change.root, &t.new_hops)
    };
    Ok(Record {
        n: n as u8,
        root: change.root as u8,
        direction: if change.rising { 1 } else { 2 },
        ranks: ranks(n, &waiting),
        telling: converse(n, &waiting),
        waiting,
        due: due(n, &t.old_fours, &t.new_fours),
        states: [0; WIDTH],
        written: [0; WIDTH],
        hold_time: times.hold,
        step_time: times.step,
        clock: 0,
        learn_times: [0; WIDTH],
    })
}

/// The old metrics with the changes put in. Diagonal and cells beyond n are unused.
pub fn apply(n: usize, old: &[u32], list: &[u8], new: &mut [u32]) {
    new.fill(UNUSED);
    for i in 0..n {
        let row = WIDTH * i..WIDTH * i + n;
        new[row.clone()].copy_from_slice(&old[row]);
        new[WIDTH * i + i] = UNUSED;
    }
    for entry in entries(list) {
        new[entry.cell()] = entry.metric;
    }
}

/// Each router's next hops to the root.
fn toward(n: usize, root: usize, hops: &[Set]) -> [Set; WIDTH] {
    let mut out = [0; WIDTH];
    for r in 0..n {
        out[r] = hops[WIDTH * r + root];
    }
    out
}

/// For each router, those whose set it is a member of.
fn converse(n: usize, sets: &[Set; WIDTH]) -> [Set; WIDTH] {
    let mut out = [0; WIDTH];
    for s in 0..n {
        for r in members(sets[s]) {
            out[r] |= 1 << s;
        }
    }
    out
}

/// The ranks: each round allows chains of one link more, up to a round that changes nothing.
fn ranks(n: usize, waiting: &[Set; WIDTH]) -> [u8; WIDTH] {
    let mut ranks = [0u8; WIDTH];
    loop {
        let mut next = [0; WIDTH];
        for r in 0..n {
            next[r] = members(waiting[r]).map(|s| ranks[s] + 1).max().unwrap_or(0);
        }
        if next == ranks {
            return ranks;
        }
        ranks = next;
    }
}

/// The destinations at each router whose sets of four change.
fn due(n: usize, old: &[Set], new: &[Set]) -> [Set; WIDTH] {
    let mut out = [0; WIDTH];
    for r in 0..n {
        for d in 0..n {
            if old[WIDTH * r + d] != new[WIDTH * r + d] {
                out[r] |= 1 << d;
            }
        }
    }
    out
}
