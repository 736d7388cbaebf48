//! Tables as they are lent to a call: filled with arbitrary values, and with more cells on both sides that no call may
//! touch.

use std::fmt::Display;

use crate::ofib::{CELLS, Set, Tables, WIDTH};
use crate::random::Random;

const MARGIN: usize = 8;

/// A cell of a table: a metric, a distance or a set.
pub trait Cell: Copy + PartialEq + Display {
    /// The number's upper bits, as many as a cell has.
    fn of(number: u64) -> Self;
}

impl Cell for u32 {
    fn of(number: u64) -> u32 {
        (number >> 32) as u32
    }
}

impl Cell for Set {
    fn of(number: u64) -> Set {
        number
    }
}

#[derive(Clone, PartialEq)]
pub struct Lent<T> {
    all: Vec<T>,
}

impl<T: Cell> Lent<T> {
    /// A table of the given size, with a value in every cell that a call would hardly write there.
    pub fn filled(random: &mut Random, size: usize) -> Lent<T> {
        let start = random.next();
        let cells = 0..(size + 2 * MARGIN) as u64;
        Lent {
            all: cells
                .map(|k| T::of(start.wrapping_add(k.wrapping_mul(0x9E37_79B9_7F4A_7C15))))
                .collect(),
        }
    }

    pub fn holding(random: &mut Random, content: &[T]) -> Lent<T> {
        let mut lent = Lent::filled(random, content.len());
        lent.cells_mut().copy_from_slice(content);
        lent
    }

    pub fn cells(&self) -> &[T] {
        &self.all[MARGIN..self.all.len() - MARGIN]
    }

    pub fn cells_mut(&mut self) -> &mut [T] {
        let end = self.all.len() - MARGIN;
        &mut self.all[MARGIN..end]
    }

    /// Every cell, those on both sides included.
    pub fn compare(&self, model: &Lent<T>, name: &str) -> Result<(), String> {
        if self.all == model.all {
            return Ok(());
        }
        let differs = |&k: &usize| self.all[k] != model.all[k];
        let index = (0..self.all.len()).find(differs).unwrap_or_default();
        let (library, model) = (self.all[index], model.all[index]);
        let cell = index as isize - MARGIN as isize;
        let width = WIDTH as isize;
        Err(format!(
            "table {name}, cell {cell} (row {}, column {}): library {library}, model {model}",
            cell / width,
            cell % width
        ))
    }
}

/// The three tables that Paths fills.
#[derive(Clone, PartialEq)]
pub struct PathTables {
    pub dist: Lent<u32>,
    pub hops: Lent<Set>,
    pub fours: Lent<Set>,
}

impl PathTables {
    /// The sizes are in the order of the fields.
    pub fn filled(random: &mut Random, sizes: [usize; 3]) -> PathTables {
        PathTables {
            dist: Lent::filled(random, sizes[0]),
            hops: Lent::filled(random, sizes[1]),
            fours: Lent::filled(random, sizes[2]),
        }
    }

    pub fn compare(&self, model: &PathTables, call: &str) -> Result<(), String> {
        self.dist.compare(&model.dist, &format!("{call} distances"))?;
        self.hops.compare(&model.hops, &format!("{call} full sets"))?;
        self.fours.compare(&model.fours, &format!("{call} sets of four"))
    }
}

/// The sizes of the tables that Plan and the texts are lent, in this order: the old metrics and the new ones, and what
/// Paths fills, of the old topology and then of the new one.
pub type Sizes = [usize; 8];

pub const RIGHT_SIZES: Sizes = [CELLS; 8];

/// These eight tables.
#[derive(Clone, PartialEq)]
pub struct PlanTables {
    pub old: Lent<u32>,
    pub new: Lent<u32>,
    pub old_paths: PathTables,
    pub new_paths: PathTables,
}

impl PlanTables {
    pub fn filled(random: &mut Random, sizes: Sizes) -> PlanTables {
        let [old, new, old_dist, old_hops, old_fours, new_dist, new_hops, new_fours] = sizes;
        PlanTables {
            old: Lent::filled(random, old),
            new: Lent::filled(random, new),
            old_paths: PathTables::filled(random, [old_dist, old_hops, old_fours]),
            new_paths: PathTables::filled(random, [new_dist, new_hops, new_fours]),
        }
    }

    pub fn lend(&mut self) -> Tables<'_> {
        Tables {
            old: self.old.cells_mut(),
            new: self.new.cells_mut(),
            old_dist: self.old_paths.dist.cells_mut(),
            old_hops: self.old_paths.hops.cells_mut(),
            old_fours: self.old_paths.fours.cells_mut(),
            new_dist: self.new_paths.dist.cells_mut(),
            new_hops: self.new_paths.hops.cells_mut(),
            new_fours: self.new_paths.fours.cells_mut(),
        }
    }

    pub fn compare(&self, model: &PlanTables, call: &str) -> Result<(), String> {
        self.old.compare(&model.old, &format!("of {call}, old metrics"))?;
        self.new.compare(&model.new, &format!("of {call}, new metrics"))?;
        self.old_paths.compare(&model.old_paths, &format!("of {call}, old"))?;
        self.new_paths.compare(&model.new_paths, &format!("of {call}, new"))
    }
}
