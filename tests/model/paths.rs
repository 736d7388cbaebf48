//! Paths: distances, full next-hop sets and sets of four of an area (01, "The area and its paths"; 02, No. 4, for the
//! links, and No. 9 for the sets of four).

use crate::flaw::Flaw;
use crate::ofib::{CELLS, Set, WIDTH};
use crate::sets::four;

/// The metric of a link that is not used.
pub const UNUSED: u32 = 16_777_215;
/// The distance where no walk exists.
pub const UNREACHED: u32 = u32::MAX;
/// Above every sum of metrics; the sum of two of them still fits in 64 bits.
const FAR: u64 = 1 << 40;

/// The cell of the ordered pair (i, j).
pub fn at(i: usize, j: usize) -> usize {
    WIDTH * i + j
}

/// All ordered pairs of different routers below n, the first rising and then the second.
pub fn pairs(n: usize) -> impl Iterator<Item = (usize, usize)> {
    (0..n)
        .flat_map(move |i| (0..n).map(move |j| (i, j)))
        .filter(|(i, j)| i != j)
}

/// The refusals that Paths and Plan have in common, in their order; 0 for none.
pub fn refusal(n: usize, metric: &[u32], other_sizes: &[usize], flaw: Flaw) -> u8 {
    if n == 0 || n > flaw.most_routers(Flaw::PathsUpTo32, Flaw::PathsUpTo63) {
        return 3;
    }
    if metric.len() != CELLS || other_sizes.iter().any(|&size| size != CELLS) {
        return 8;
    }
    let wrong = |cell: u32| cell == 0 || cell > UNUSED;
    if pairs(n).any(|(i, j)| wrong(metric[at(i, j)])) {
        6
    } else {
        0
    }
}

pub fn paths(n: usize, metric: &[u32], dist: &mut [u32], hops: &mut [Set], fours: &mut [Set], flaw: Flaw) -> u8 {
    let refused = refusal(n, metric, &[dist.len(), hops.len(), fours.len()], flaw);
    if refused == 0 {
        fill(n, metric, dist, hops, fours, flaw);
    }
    refused
}

/// Writes all cells of the three tables; the input has no fault.
pub fn fill(n: usize, metric: &[u32], dist: &mut [u32], hops: &mut [Set], fours: &mut [Set], flaw: Flaw) {
    let mut links = usable(n, metric, flaw);
    if flaw == Flaw::LinksTurnedRound {
        links = turned(&links);
    }
    let least = least_sums(n, &links);
    dist.fill(UNREACHED);
    hops.fill(0);
    let is_filled = |i: usize, j: usize| {
        (flaw != Flaw::LastRowLeftOut || i < WIDTH - 1) && (flaw != Flaw::LastDestinationLeftOut || j < n - 1)
    };
    for i in (0..n).filter(|&i| is_filled(i, i)) {
        dist[at(i, i)] = 0;
    }
    for (i, j) in pairs(n).filter(|&(i, j)| is_filled(i, j) && least[at(i, j)] < FAR) {
        dist[at(i, j)] = least[at(i, j)] as u32;
        hops[at(i, j)] = next_hops(n, &links, &least, i, j, flaw);
    }
    if flaw == Flaw::ColumnBehindWritten && n < WIDTH {
        for i in 0..n {
            dist[at(i, n)] = dist[at(i, n - 1)];
        }
    }
    if flaw != Flaw::FoursKeptBeyondN {
        fours.fill(0);
    }
    for cell in (0..n).flat_map(|i| at(i, 0)..at(i, n)) {
        fours[cell] = four(hops[cell], flaw);
    }
}

/// The usable metrics: a pair's own where it and its reverse both have one that is used (02, No. 4), else `FAR`.
pub fn usable(n: usize, metric: &[u32], flaw: Flaw) -> Vec<u64> {
    let used = |i, j| metric[at(i, j)] < UNUSED || flaw == Flaw::MaximumUsed;
    let reverse_counts = flaw != Flaw::ReverseNotRead;
    let mut links = vec![FAR; CELLS];
    for (i, j) in pairs(n).filter(|&(i, j)| used(i, j) && (used(j, i) || !reverse_counts)) {
        links[at(i, j)] = u64::from(metric[at(i, j)]);
    }
    links
}

/// A table in which the cell (i, j) is the cell (j, i) of another.
pub fn turned<T: Copy>(table: &[T]) -> Vec<T> {
    (0..CELLS).map(|cell| table[at(cell % WIDTH, cell / WIDTH)]).collect()
}

/// Floyd–Warshall: after round k, each cell is the least sum over walks whose inner routers are at most k.
fn least_sums(n: usize, links: &[u64]) -> Vec<u64> {
    let mut least = links.to_vec();
    for i in 0..n {
        least[at(i, i)] = 0;
    }
    for k in 0..n {
        let through: Vec<u64> = least[at(k, 0)..at(k, n)].to_vec();
        for i in 0..n {
            let first = least[at(i, k)];
            for (cell, rest) in least[at(i, 0)..at(i, n)].iter_mut().zip(&through) {
                *cell = (*cell).min(first + rest);
            }
        }
    }
    least
}

/// The definition itself: each k whose link and remaining distance together make up the distance.
fn next_hops(n: usize, links: &[u64], least: &[u64], i: usize, j: usize, flaw: Flaw) -> Set {
    let mut set: Set = 0;
    for k in (0..n).filter(|&k| k != i) {
        if links[at(i, k)] + least[at(k, j)] == least[at(i, j)] {
            let handed_on = flaw == Flaw::HopsHandedOn && k != j;
            set |= if handed_on { next_hops(n, links, least, k, j, Flaw::None) } else { 1 << k };
        }
    }
    if flaw == Flaw::OneNextHop && set != 0 {
        return 1 << set.trailing_zeros();
    }
    flaw.cut_by(Flaw::HopsOf32Bits, set)
}
