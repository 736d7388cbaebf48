//! The limits of an area and of a bench file, and the numbers that stand for "no link" and "no walk".

pub const WIDTH: usize = 64;
pub const CELLS: usize = WIDTH * WIDTH;
pub const UNUSED: u32 = 16_777_215;
pub const UNREACHED: u32 = u32::MAX;
pub const MOST_CHANGES: usize = 2 * (WIDTH - 1);
pub const MOST_STEPS: usize = 4096;

/// A set of routers: bit k stands for router k, so it has WIDTH bits.
pub type Set = u64;

/// Bytes of an entry of a list of links or changes.
pub const ENTRY: usize = 5;

/// Bytes of a step.
pub const STEP: usize = 3;

/// Bytes of the largest file: n, three counts, two times, and all links, changes and steps.
pub const LARGEST_FILE: usize = 10 + ENTRY * WIDTH * (WIDTH - 1) + ENTRY * MOST_CHANGES + STEP * MOST_STEPS;
