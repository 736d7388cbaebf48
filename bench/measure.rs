//! Times of two sides or more, taken in turns.

use std::time::{Duration, Instant};

/// Nanoseconds of each operation, one number for each round.
pub struct Times {
    library: Vec<f64>,
    plain: Vec<f64>,
}

/// How long a kind of work is measured.
#[derive(Clone, Copy)]
pub struct Effort {
    pub rounds: usize,
    pub round: Duration,
}

/// Measures two sides in turns.
pub fn compare(effort: Effort, operations: usize, library: &mut dyn FnMut(), plain: &mut dyn FnMut()) -> Times {
    let times = in_turns(effort, &mut [library, plain]);
    let [library, plain] = [0, 1].map(|side| times[side].iter().map(|t| t / operations as f64).collect());
    Times { library, plain }
}

/// Nanoseconds of each work, one number for each round. A round begins with the work after the one that the round
/// before began with. All repeat alike within a round. A round is short, so that its times are mostly taken under the
/// same load of the machine.
pub fn in_turns(effort: Effort, works: &mut [&mut dyn FnMut()]) -> Vec<Vec<f64>> {
    for work in works.iter_mut() {
        time(1, work);
    }
    let once: Duration = works.iter_mut().map(|work| time(1, work)).sum();
    let repeats = (effort.round.as_secs_f64() / once.as_secs_f64()).ceil() as usize;
    let mut times = vec![Vec::new(); works.len()];
    for round in 0..effort.rounds {
        for turn in 0..works.len() {
            let k = (round + turn) % works.len();
            times[k].push(time(repeats, works[k]).as_secs_f64() * 1e9 / repeats as f64);
        }
    }
    times
}

fn time(repeats: usize, work: &mut dyn FnMut()) -> Duration {
    let start = Instant::now();
    for _ in 0..repeats {
        work();
    }
    start.elapsed()
}

pub fn print_heading() {
    let nanoseconds = "median (10%, 90%)";
    println!("{:<30} {:>28} {:>28} {:>7}", "", "library, ns", "plain, ns", "ratio");
    println!(
        "{:<30} {nanoseconds:>28} {nanoseconds:>28} {:>7} {:>20}",
        "", "", "rounds 10%, 50%, 90%"
    );
}

impl Times {
    /// A line: the median and the 10th and 90th percentile of each side, the ratio of the medians, and percentiles of
    /// the ratios of the rounds.
    pub fn print(&self, name: &str, operation: &str) {
        let ratios: Vec<f64> = self.library.iter().zip(&self.plain).map(|(l, p)| l / p).collect();
        let [low, middle, high] = [10, 50, 90].map(|percent| percentile(&ratios, percent));
        println!(
            "{name:<22} {operation:<7} {:>28} {:>28} {:>7.2} {:>20}",
            spread(&self.library),
            spread(&self.plain),
            percentile(&self.library, 50) / percentile(&self.plain, 50),
            format!("{low:.2}, {middle:.2}, {high:.2}")
        );
    }
}

/// The median with the 10th and the 90th percentile.
pub fn spread(values: &[f64]) -> String {
    let [low, middle, high] = [10, 50, 90].map(|percent| percentile(values, percent));
    let digits = if middle < 1000.0 { 1 } else { 0 };
    format!("{middle:.digits$} ({low:.digits$}, {high:.digits$})")
}

fn percentile(values: &[f64], percent: usize) -> f64 {
    let mut sorted = values.to_vec();
    sorted.sort_by(f64::total_cmp);
    sorted[(sorted.len() - 1) * percent / 100]
}
