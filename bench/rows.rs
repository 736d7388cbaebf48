//! Distances by a tree for each destination, and then the next-hop sets, in loops over all routers that the compiler
//! turns into vector code: 32-bit lanes, no branch, every lane stored. All of the nearest routers are settled together.

use crate::entries::members;
use crate::limits::{CELLS, Set, UNREACHED, UNUSED, WIDTH};

/// Signed lanes, since the vectors of every x86-64 compare signed numbers.
type Row = [i32; WIDTH];

/// The distance of a router that is not reached: above every sum of a walk.
const FAR: i32 = 1 << 30;

/// The metric of a pair without a used link: every sum over it is above FAR.
const NONE: i32 = FAR + 1;

/// Joined with a distance, it makes it the largest number.
const OUT: i32 = i32::MAX;

/// The bit of each router in its half of a set.
const BITS: Row = {
    let mut bits = [0; WIDTH];
    let mut i = 0;
    while i < WIDTH {
        bits[i] = 1 << (i % 32);
        i += 1;
    }
    bits
};

/// The distances and next-hop sets of an area that is not refused.
pub fn trees(n: usize, metric: &[u32], dist: &mut [u32], hops: &mut [Set]) {
    let links = turned(n, metric);
    let mut rows = [[FAR; WIDTH]; WIDTH];
    for d in 0..n {
        let column = distances(&links, d);
        for i in 0..n {
            rows[i][d] = column[i];
        }
    }
    for i in 0..WIDTH {
        put_distances(&rows[i], &mut dist[WIDTH * i..][..WIDTH]);
        put_next_hops(&links, &rows, i, &mut hops[WIDTH * i..][..WIDTH]);
    }
}

/// The used links by their far ends: row q has the metrics of the links to q.
fn turned(n: usize, metric: &[u32]) -> [Row; WIDTH] {
    let metric: &[u32; CELLS] = metric.try_into().expect("a table has a cell for each pair");
    let mut links = [[NONE; WIDTH]; WIDTH];
    for q in 0..n {
        for i in 0..n {
            let (to, back) = (metric[WIDTH * i + q], metric[WIDTH * q + i]);
            let is_used = i != q && to != UNUSED && back != UNUSED;
            links[q][i] = if is_used { to as i32 } else { NONE };
        }
    }
    links
}

/// The distances to d.
fn distances(links: &[Row; WIDTH], d: usize) -> Row {
    let mut dist = [FAR; WIDTH];
    let mut out = [0; WIDTH];
    let mut low = 0;
    dist[d] = 0;
    while low < FAR {
        for q in members(settle(low, &dist, &mut out)) {
            offer(low, &links[q], &mut dist);
        }
        low = lowest(&dist, &out);
    }
    dist
}

/// Settles the routers at a distance that are not settled yet, and gives their set.
fn settle(low: i32, dist: &Row, out: &mut Row) -> Set {
    let mut halves = [0; 2];
    for (h, half) in halves.iter_mut().enumerate() {
        for i in 32 * h..32 * h + 32 {
            let is_at = dist[i] | out[i] == low;
            *half |= if is_at { BITS[i] } else { 0 };
            out[i] |= if is_at { OUT } else { 0 };
        }
    }
    joined(halves[0], halves[1])
}

/// Offers every router the way over its link to a router at distance `base`.
fn offer(base: i32, links: &Row, dist: &mut Row) {
    for i in 0..WIDTH {
        let sum = base + links[i];
        let old = dist[i];
        dist[i] = if sum < old { sum } else { old };
    }
}

/// The least distance of a router that is not settled.
fn lowest(dist: &Row, out: &Row) -> i32 {
    let mut low = OUT;
    for i in 0..WIDTH {
        let x = dist[i] | out[i];
        low = if x < low { x } else { low };
    }
    low
}

/// The set of two halves.
fn joined(low: i32, high: i32) -> Set {
    low as u32 as Set | (high as u32 as Set) << 32
}

/// Puts a router's distances into its row of the table.
fn put_distances(row: &Row, dist: &mut [u32]) {
    for (cell, &x) in dist.iter_mut().zip(row) {
        *cell = if x == FAR { UNREACHED } else { x as u32 };
    }
}

/// Puts a router's next hops into its row of the table: the neighbours over which its distance is met.
fn put_next_hops(links: &[Row; WIDTH], rows: &[Row; WIDTH], router: usize, hops: &mut [Set]) {
    let mut halves = [[0; WIDTH]; 2];
    for q in 0..WIDTH {
        if links[q][router] != NONE {
            meet(links[q][router], BITS[q], &rows[q], &rows[router], &mut halves[q / 32]);
        }
    }
    for (d, cell) in hops.iter_mut().enumerate() {
        *cell = joined(halves[0][d], halves[1][d]);
    }
}

/// Adds the bit of a neighbour to the next hops of the destinations whose distance is met over it.
fn meet(metric: i32, bit: i32, by: &Row, row: &Row, half: &mut Row) {
    for d in 0..WIDTH {
        half[d] |= if metric + by[d] == row[d] { bit } else { 0 };
    }
}
