//! Boost's search, in a process of its own (`boost.cpp`).

use std::fmt::Write as _;
use std::io::{Error, Result, Write as _};
use std::process::{Command, Stdio};

use crate::limits::{CELLS, UNREACHED, UNUSED, WIDTH};
use crate::paths::usable;

/// What the search of many topologies gave: nanoseconds of each round, and a table of distances for each topology.
pub struct Found {
    pub times: Vec<f64>,
    pub distances: Vec<Vec<u32>>,
}

/// Measures the search for all distances of topologies of 64 routers. The words are for the program.
pub fn measure(program: &str, words: &[&str], rounds: usize, topologies: &[Vec<u32>]) -> Result<Found> {
    let mut child = Command::new(program)
        .args(words)
        .stdin(Stdio::piped())
        .stdout(Stdio::piped())
        .spawn()?;
    let mut input = child.stdin.take().expect("standard input is a pipe");
    input.write_all(text(rounds, topologies).as_bytes())?;
    drop(input);
    let output = child.wait_with_output()?.stdout;
    let numbers = numbers(&output).ok_or(Error::other("Boost's search printed something else than numbers"))?;
    if numbers.len() != rounds + topologies.len() * CELLS {
        return Err(Error::other("Boost's search printed too few numbers or too many"));
    }
    let (times, distances) = numbers.split_at(rounds);
    let table = |cells: &[u64]| cells.iter().map(distance).collect();
    Ok(Found {
        times: times.iter().map(|&t| t as f64).collect(),
        distances: distances.chunks(CELLS).map(table).collect(),
    })
}

/// The counts and the used links, as the program reads them.
fn text(rounds: usize, topologies: &[Vec<u32>]) -> String {
    let mut text = format!("{WIDTH} {rounds} {}\n", topologies.len());
    for metric in topologies {
        let is_used = |&(i, j): &(usize, usize)| i != j && usable(metric, i, j) != UNUSED;
        let pairs = (0..CELLS).map(|cell| (cell / WIDTH, cell % WIDTH));
        let used: Vec<_> = pairs.filter(is_used).collect();
        _ = writeln!(text, "{}", used.len());
        for (i, j) in used {
            _ = writeln!(text, "{i} {j} {}", metric[WIDTH * i + j]);
        }
    }
    text
}

/// The lines of an output, each a number.
fn numbers(output: &[u8]) -> Option<Vec<u64>> {
    let text = str::from_utf8(output).ok()?;
    text.lines().map(|line| line.parse().ok()).collect()
}

/// A distance as the tables have it. Boost's are signed, and the largest stands for a router that is not reached.
fn distance(&number: &u64) -> u32 {
    match number as u32 {
        far if far == i32::MAX as u32 => UNREACHED,
        near => near,
    }
}
