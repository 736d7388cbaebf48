//! Compares methods for the distances and next-hop sets of an area, in plain Rust, with each other and with Boost's
//! search for the distances. Each area comes in copies with other numbers for its routers, so that the processor does
//! not meet the same branches again and again, which it learns to predict.

// The areas come with parts that only the comparison with the library uses.
#![allow(dead_code)]

mod areas;
mod boost;
mod choices;
mod entries;
mod isis;
mod judge;
mod limits;
mod measure;
mod paths;
mod plan;
mod refusal;
mod rows;
mod sources;

use std::hint::black_box;
use std::io::{Error, Result};
use std::time::Duration;

use areas::{Area, Random};
use limits::{CELLS, Set, UNUSED, WIDTH};
use measure::Effort;

const USAGE: &str = "usage: methods [--quick] [BOOST]      BOOST is the program made of bench/boost.cpp";

/// Copies of each area, each with an old and a new topology. A round is over all of them.
const COPIES: usize = 16;

type Method = fn(usize, &[u32], &mut [u32], &mut [Set]);

/// The methods, that of the library first.
const METHODS: [(&str, Method); 5] = [
    ("trees, all of the nearest at once", paths::trees),
    ("the same, chosen with branches", choices::branched),
    ("trees, one router at a time", choices::single),
    ("trees, over whole rows", rows::trees),
    ("a search from each source", sources::searches),
];

/// Boost's searches, with the words for the program.
const BOOST: [(&str, &[&str]); 2] = [
    ("Boost's search, distances only", &[]),
    ("the same without its color map", &["no_color_map"]),
];

/// The distances and next-hop sets of one topology.
#[derive(Clone, PartialEq)]
struct Tables {
    dist: Vec<u32>,
    hops: Vec<Set>,
}

fn main() {
    let words: Vec<String> = std::env::args().skip(1).collect();
    let words: Vec<&str> = words.iter().map(String::as_str).collect();
    let result = match words[..] {
        [] => all(101, None),
        ["--quick"] => all(11, None),
        ["--quick", program] => all(11, Some(program)),
        [program] if !program.starts_with('-') => all(101, Some(program)),
        _ => usage(),
    };
    if let Err(why) = result {
        eprintln!("methods: {why}");
        std::process::exit(1);
    }
}

fn usage() -> ! {
    eprintln!("{USAGE}");
    std::process::exit(2);
}

/// Measures all methods on all areas, and prints a line for each method.
fn all(rounds: usize, boost: Option<&str>) -> Result<()> {
    let areas = [
        ("sparse", areas::sparse(WIDTH)),
        ("dense", areas::dense(WIDTH)),
        ("hypercube", areas::hypercube()),
        ("equal", areas::equal()),
    ];
    let mut heading = format!("{:<36}", "");
    let mut lines = METHODS.map(|(name, _)| format!("{name:<36}")).to_vec();
    if boost.is_some() {
        lines.extend(BOOST.map(|(name, _)| format!("{name:<36}")));
    }
    for (name, area) in &areas {
        heading += &format!("{name:>24}");
        for (line, times) in lines.iter_mut().zip(times_of(area, rounds, boost)?) {
            let microseconds: Vec<f64> = times.iter().map(|t| t / 1000.0 / COPIES as f64).collect();
            *line += &format!("{:>24}", measure::spread(&microseconds));
        }
    }
    println!("Distances and next-hop sets of an area before and after its change, µs: median (10%, 90%).");
    println!("{heading}\n{}", lines.join("\n"));
    if boost.is_some() {
        println!(
            "Boost's searches find no next hops. Their times are processor times, without the building of graphs."
        );
    }
    Ok(())
}

/// Nanoseconds of all copies of an area by each method, after a check that all give the same tables.
fn times_of(area: &Area, rounds: usize, boost: Option<&str>) -> Result<Vec<Vec<f64>>> {
    let topologies = topologies(area);
    let expected = run(METHODS[0].1, &topologies);
    for (name, method) in METHODS {
        require(name, run(method, &topologies) == expected)?;
    }
    let mut works = METHODS.map(|(_, method)| {
        let (topologies, mut tables) = (&topologies, expected.clone());
        move || fill(method, topologies, &mut tables)
    });
    let effort = Effort {
        rounds,
        round: Duration::from_millis(2),
    };
    let mut times = measure::in_turns(effort, &mut works.each_mut().map(|work| work as &mut dyn FnMut()));
    for (name, words) in BOOST {
        let Some(program) = boost else { break };
        let found = boost::measure(program, words, rounds, &topologies)?;
        require(name, expected.iter().map(|t| &t.dist).eq(&found.distances))?;
        times.push(found.times);
    }
    Ok(times)
}

/// The metrics of an area before and after its change, in all copies.
fn topologies(area: &Area) -> Vec<Vec<u32>> {
    let mut new = vec![0; CELLS];
    plan::apply(area.n, &area.metric, &area.changes, &mut new);
    let mut random = Random(4);
    let mut copies = Vec::new();
    for _ in 0..COPIES {
        let numbers = shuffled(&mut random);
        copies.extend([&area.metric, &new].map(|metric| renumbered(metric, &numbers)));
    }
    copies
}

/// All routers, in any order.
fn shuffled(random: &mut Random) -> Vec<usize> {
    let mut routers: Vec<usize> = (0..WIDTH).collect();
    for last in (1..WIDTH).rev() {
        routers.swap(last, random.below(last as u32 + 1) as usize);
    }
    routers
}

/// A metric table with another number for each router.
fn renumbered(metric: &[u32], numbers: &[usize]) -> Vec<u32> {
    let mut table = vec![UNUSED; CELLS];
    for i in 0..WIDTH {
        for j in 0..WIDTH {
            table[WIDTH * numbers[i] + numbers[j]] = metric[WIDTH * i + j];
        }
    }
    table
}

/// The tables of all topologies by a method.
fn run(method: Method, topologies: &[Vec<u32>]) -> Vec<Tables> {
    let blank = Tables {
        dist: vec![0; CELLS],
        hops: vec![0; CELLS],
    };
    let mut tables = vec![blank; topologies.len()];
    fill(method, topologies, &mut tables);
    tables
}

fn fill(method: Method, topologies: &[Vec<u32>], tables: &mut [Tables]) {
    for (metric, t) in topologies.iter().zip(tables) {
        method(black_box(WIDTH), black_box(metric), &mut t.dist, &mut t.hops);
    }
}

fn require(name: &str, is_same: bool) -> Result<()> {
    if is_same {
        return Ok(());
    }
    Err(Error::other(format!("{name}: other tables than by the first method")))
}
