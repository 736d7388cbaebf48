//! Distances and next-hop sets of one topology: a tree for each destination, by Dijkstra's search over the used links
//! with all of the nearest routers settled together, and then the sets of four.

use crate::entries::members;
use crate::limits::{CELLS, Set, UNREACHED, UNUSED, WIDTH};
use crate::refusal::Refusal;

/// Paths: fills the three tables, or refuses and writes no cell.
pub fn paths(n: usize, metric: &[u32], dist: &mut [u32], hops: &mut [Set], fours: &mut [Set]) -> Result<(), Refusal> {
    let sizes = [metric.len(), dist.len(), hops.len(), fours.len()];
    check(n, metric, sizes == [CELLS; 4])?;
    trees(n, metric, dist, hops);
    for (set, &full) in fours.iter_mut().zip(hops.iter()) {
        *set = four(full);
    }
    Ok(())
}

/// The four lowest members, or all where there are fewer.
fn four(full: Set) -> Set {
    full ^ rest(rest(rest(rest(full))))
}

/// The set without its lowest member.
fn rest(set: Set) -> Set {
    set & set.wrapping_sub(1)
}

/// Is n a number of routers?
pub fn check_count(n: usize) -> Result<(), Refusal> {
    if n < 1 || n > WIDTH {
        return Err(Refusal::RouterCount);
    }
    Ok(())
}

/// The refusals of n routers and their metric table. `sized` says whether every table has the right size.
pub fn check(n: usize, metric: &[u32], sized: bool) -> Result<(), Refusal> {
    check_count(n)?;
    if !sized {
        return Err(Refusal::TableSize);
    }
    for i in 0..n {
        let row = &metric[WIDTH * i..WIDTH * i + n];
        if row.iter().enumerate().any(|(j, &m)| j != i && (m == 0 || m > UNUSED)) {
            return Err(Refusal::Metric);
        }
    }
    Ok(())
}

/// The metric of the link from i to j, which is used only if both directions have one.
pub fn usable(metric: &[u32], i: usize, j: usize) -> u32 {
    if metric[WIDTH * j + i] == UNUSED {
        UNUSED
    } else {
        metric[WIDTH * i + j]
    }
}

/// The distances and next-hop sets of an area that is not refused. Rows and columns from n on are blank.
pub fn trees(n: usize, metric: &[u32], dist: &mut [u32], hops: &mut [Set]) {
    trees_by(nearest, n, metric, dist, hops);
}

/// The same by any choice of some nearest routers of a set, which is given the distances.
pub fn trees_by(
    nearest: impl Fn(Set, &[u32; WIDTH]) -> Set,
    n: usize,
    metric: &[u32],
    dist: &mut [u32],
    hops: &mut [Set],
) {
    let metric = metric.try_into().expect("a table has a cell for each pair");
    let neighbours = neighbours(n, metric);
    for d in 0..n {
        let mut column = Column::blank();
        column.grow(&nearest, metric, &neighbours, d);
        column.put(d, dist, hops);
    }
    for i in 0..WIDTH {
        let tail = WIDTH * i + n..WIDTH * (i + 1);
        dist[tail.clone()].fill(UNREACHED);
        hops[tail].fill(0);
    }
}

/// For each router, those that it has a used link with.
fn neighbours(n: usize, metric: &[u32; CELLS]) -> [Set; WIDTH] {
    let mut sets = [0; WIDTH];
    for q in 0..n {
        for i in 0..n {
            let is_used = i != q && metric[WIDTH * i + q] != UNUSED && metric[WIDTH * q + i] != UNUSED;
            sets[q] |= (is_used as Set) << i;
        }
    }
    sets
}

/// All routers of a set that have the least distance in it, found without a branch that depends on a distance.
fn nearest(set: Set, dist: &[u32; WIDTH]) -> Set {
    let mut nearest = 0;
    let mut low = UNREACHED;
    for k in members(set) {
        let x = dist[k];
        let kept = if x < low { 0 } else { nearest };
        let added = if x <= low { 1 << k } else { 0 };
        nearest = kept | added;
        low = if x < low { x } else { low };
    }
    nearest
}

/// The distances of all routers to one destination, and their next-hop sets.
struct Column {
    dist: [u32; WIDTH],
    hops: [Set; WIDTH],
}

impl Column {
    fn blank() -> Column {
        Column {
            dist: [UNREACHED; WIDTH],
            hops: [0; WIDTH],
        }
    }

    /// Fills a blank column with the tree to destination d.
    fn grow(
        &mut self,
        nearest: impl Fn(Set, &[u32; WIDTH]) -> Set,
        metric: &[u32; CELLS],
        neighbours: &[Set; WIDTH],
        d: usize,
    ) {
        let mut reached: Set = 1 << d;
        let mut settled: Set = 0;
        self.dist[d] = 0;
        while reached != 0 {
            let nearest = nearest(reached, &self.dist);
            reached ^= nearest;
            settled |= nearest;
            for q in members(nearest) {
                let links = neighbours[q] & !settled;
                reached |= links;
                self.offer(metric, q, links);
            }
        }
    }

    /// Offers the way by the settled router q to the routers of a set, which have a used link with q.
    fn offer(&mut self, metric: &[u32; CELLS], q: usize, links: Set) {
        let base = self.dist[q];
        for i in members(links) {
            let sum = base + metric[WIDTH * i + q];
            if sum < self.dist[i] {
                self.dist[i] = sum;
                self.hops[i] = 1 << q;
            } else if sum == self.dist[i] {
                self.hops[i] |= 1 << q;
            }
        }
    }

    /// Puts the column into the tables, as that of destination d.
    fn put(&self, d: usize, dist: &mut [u32], hops: &mut [Set]) {
        for i in 0..WIDTH {
            dist[WIDTH * i + d] = self.dist[i];
            hops[WIDTH * i + d] = self.hops[i];
        }
    }
}
