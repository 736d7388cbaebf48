//! The trees of `paths` by other choices of the routers that are settled next.

use crate::entries::members;
use crate::limits::{Set, UNREACHED, WIDTH};
use crate::paths::trees_by;

/// One router at a time.
pub fn single(n: usize, metric: &[u32], dist: &mut [u32], hops: &mut [Set]) {
    trees_by(first, n, metric, dist, hops);
}

/// The first router of a set that has the least distance in it.
fn first(set: Set, dist: &[u32; WIDTH]) -> Set {
    let mut first = 0;
    let mut low = UNREACHED;
    for k in members(set) {
        if dist[k] < low {
            low = dist[k];
            first = 1 << k;
        }
    }
    first
}

/// All of the nearest, found with branches that depend on the distances.
pub fn branched(n: usize, metric: &[u32], dist: &mut [u32], hops: &mut [Set]) {
    trees_by(nearest, n, metric, dist, hops);
}

/// All routers of a set that have the least distance in it.
fn nearest(set: Set, dist: &[u32; WIDTH]) -> Set {
    let mut nearest = 0;
    let mut low = UNREACHED;
    for k in members(set) {
        if dist[k] < low {
            low = dist[k];
            nearest = 1 << k;
        } else if dist[k] == low {
            nearest |= 1 << k;
        }
    }
    nearest
}
