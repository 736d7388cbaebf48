//! Dijkstra's search from each source, which fills the source's row and looks at all routers in every step.

use crate::limits::{Set, UNREACHED, UNUSED, WIDTH};
use crate::paths::usable;

/// The distances and next-hop sets of an area that is not refused.
pub fn searches(n: usize, metric: &[u32], dist: &mut [u32], hops: &mut [Set]) {
    dist.fill(UNREACHED);
    hops.fill(0);
    for source in 0..n {
        let row = WIDTH * source..WIDTH * source + n;
        search(metric, source, &mut dist[row.clone()], &mut hops[row]);
    }
}

/// The source's rows, which are blank before. They have as many cells as there are routers.
fn search(metric: &[u32], source: usize, dist: &mut [u32], hops: &mut [Set]) {
    let mut settled: Set = 0;
    dist[source] = 0;
    while let Some(q) = nearest(dist, settled) {
        settled |= 1 << q;
        relax(metric, source, q, dist, hops);
    }
}

/// The nearest reached router that is not settled.
fn nearest(dist: &[u32], settled: Set) -> Option<usize> {
    let mut best = None;
    let mut low = UNREACHED;
    for (k, &d) in dist.iter().enumerate() {
        if settled >> k & 1 == 0 && d < low {
            low = d;
            best = Some(k);
        }
    }
    best
}

/// Offers the way by the settled router q to every router that has a link from q.
fn relax(metric: &[u32], source: usize, q: usize, dist: &mut [u32], hops: &mut [Set]) {
    let base = dist[q];
    let via = hops[q];
    for j in 0..dist.len() {
        let m = usable(metric, q, j);
        if j == q || m == UNUSED {
            continue;
        }
        let sum = base + m;
        let by = if q == source { 1 << j } else { via };
        if sum < dist[j] {
            dist[j] = sum;
            hops[j] = by;
        } else if sum == dist[j] {
            hops[j] |= by;
        }
    }
}
