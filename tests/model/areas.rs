//! Random areas of all sizes and shapes.

use crate::ofib::{CELLS, WIDTH};
use crate::paths::{UNUSED, at, pairs};
use crate::random::Random;

/// The routers' number and the old metrics. Cells that Paths must not read hold anything at all.
pub struct Area {
    pub n: usize,
    pub metric: Vec<u32>,
}

pub fn area(random: &mut Random) -> Area {
    let n = match random.below(50) {
        0..4 => random.between(1, WIDTH),
        // Sets of 32 bits are just enough, or not, and tables are full, or not.
        4 => random.pick(&[31, 32, 33, WIDTH - 2, WIDTH - 1, WIDTH]),
        5..20 => random.between(3, 24),
        20..40 => random.between(2, 8),
        _ => random.between(1, 4),
    };
    area_of_size(random, n)
}

pub fn area_of_size(random: &mut Random, n: usize) -> Area {
    let links = match random.below(11) {
        0 => random_links(random, n),
        1 => ring(random, n),
        2 => tree(random, n),
        3 => grid(random, n),
        4 => layers(random, n),
        5 => parts(random, n),
        6 => half_ring(random, n),
        7 => pairs(n).collect(),
        8 => hypercube(n),
        9 => between(random, n),
        _ => sparse(random, n),
    };
    let mut area = Area {
        n,
        metric: unread_cells(random, n),
    };
    put_metrics(random, &mut area, &links);
    thin_out(random, &mut area);
    area
}

/// A full mesh in which every metric can still rise and fall.
pub fn full_mesh(random: &mut Random, n: usize) -> Area {
    let mut area = Area {
        n,
        metric: unread_cells(random, n),
    };
    for (i, j) in pairs(n) {
        area.metric[at(i, j)] = random.between(2, 20) as u32;
    }
    area
}

/// No link between routers below n; anything on the diagonal and beyond n.
pub fn unread_cells(random: &mut Random, n: usize) -> Vec<u32> {
    let mut cells: Vec<u32> = (0..CELLS).map(|_| anything(random)).collect();
    for (i, j) in pairs(n) {
        cells[at(i, j)] = UNUSED;
    }
    cells
}

fn anything(random: &mut Random) -> u32 {
    match random.below(4) {
        0 => random.pick(&[0, 1, UNUSED, UNUSED + 1, u32::MAX]),
        1 => random.between(1, 9) as u32,
        _ => random.word(),
    }
}

/// The metrics that an area's links are drawn from.
fn choices(random: &mut Random) -> Vec<u32> {
    match random.below(7) {
        0 => vec![random.between(1, 5) as u32],
        1 => vec![1, 2],
        2 => vec![1, 2, 3],
        3 => (1..=10).collect(),
        4 => vec![1, 2, UNUSED - 1, UNUSED],
        5 => vec![UNUSED - 1],
        _ => (0..40).map(|_| random.between(1, UNUSED as usize - 1) as u32).collect(),
    }
}

fn put_metrics(random: &mut Random, area: &mut Area, links: &[(usize, usize)]) {
    let metrics = choices(random);
    for &(i, j) in links {
        area.metric[at(i, j)] = random.pick(&metrics);
    }
    if random.chance(50) {
        for &(i, j) in links.iter().filter(|(i, j)| i < j) {
            if area.metric[at(j, i)] < UNUSED {
                area.metric[at(j, i)] = area.metric[at(i, j)];
            }
        }
    }
}

/// Takes some directions, so that half a link is left, or all links of a router out of use.
fn thin_out(random: &mut Random, area: &mut Area) {
    if random.chance(30) {
        let percent = random.between(1, 50);
        for (i, j) in pairs(area.n) {
            if random.chance(percent) {
                area.metric[at(i, j)] = UNUSED;
            }
        }
    }
    if random.chance(10) {
        let down = random.below(area.n);
        for (i, j) in pairs(area.n).filter(|&(i, j)| i == down || j == down) {
            area.metric[at(i, j)] = UNUSED;
        }
    }
}

fn both_ways(links: impl IntoIterator<Item = (usize, usize)>) -> Vec<(usize, usize)> {
    links
        .into_iter()
        .filter(|(i, j)| i != j)
        .flat_map(|(i, j)| [(i, j), (j, i)])
        .collect()
}

fn random_links(random: &mut Random, n: usize) -> Vec<(usize, usize)> {
    let percent = random.between(0, 100);
    pairs(n).filter(|_| random.chance(percent)).collect()
}

/// About two to six links at each router.
fn sparse(random: &mut Random, n: usize) -> Vec<(usize, usize)> {
    let degree = random.between(1, 3);
    both_ways((0..n * degree).map(|k| (k % n, random.below(n))))
}

fn one_way_ring(n: usize) -> Vec<(usize, usize)> {
    (0..n).map(|i| (i, (i + 1) % n)).filter(|(i, j)| i != j).collect()
}

/// A ring in which some links, or all, are up at one end only.
fn half_ring(random: &mut Random, n: usize) -> Vec<(usize, usize)> {
    let percent = random.pick(&[10, 40, 100]);
    let mut links = Vec::new();
    for (i, j) in one_way_ring(n) {
        links.push((i, j));
        if !random.chance(percent) {
            links.push((j, i));
        }
    }
    random.shuffle(&mut links);
    links
}

/// A ring with a few links across it.
fn ring(random: &mut Random, n: usize) -> Vec<(usize, usize)> {
    let mut links = both_ways(one_way_ring(n));
    let across = random.below(4);
    links.extend(both_ways((0..across).map(|_| (random.below(n), random.below(n)))));
    links
}

fn tree(random: &mut Random, n: usize) -> Vec<(usize, usize)> {
    both_ways((1..n).map(|i| (i, random.below(i))))
}

fn grid(random: &mut Random, n: usize) -> Vec<(usize, usize)> {
    let width = random.between(1, n.min(8));
    let right = (1..n).filter(|i| i % width != 0).map(|i| (i, i - 1));
    let down = (width..n).map(|i| (i, i - width));
    both_ways(right.chain(down))
}

/// Routers whose numbers differ in one bit are neighbours, as far as there are both: six neighbours each of 64 routers.
fn hypercube(n: usize) -> Vec<(usize, usize)> {
    pairs(n).filter(|(i, j)| (i ^ j).is_power_of_two()).collect()
}

/// Every router of a layer is linked with every router of the next: many walks of equal cost.
fn layers(random: &mut Random, n: usize) -> Vec<(usize, usize)> {
    let width = random.between(1, 8);
    both_ways(pairs(n).filter(|(i, j)| i / width + 1 == j / width))
}

/// A few routers, any of them, are linked with each of the others, which all are between any two of the few.
fn between(random: &mut Random, n: usize) -> Vec<(usize, usize)> {
    let mut routers: Vec<usize> = (0..n).collect();
    random.shuffle(&mut routers);
    let (few, others) = routers.split_at(random.between(1, n.min(4)));
    both_ways(few.iter().flat_map(|&i| others.iter().map(move |&j| (i, j))))
}

/// Groups of routers with no link between them.
fn parts(random: &mut Random, n: usize) -> Vec<(usize, usize)> {
    let groups = random.between(2, 4);
    let percent = random.between(20, 100);
    pairs(n)
        .filter(|(i, j)| i % groups == j % groups && random.chance(percent))
        .collect()
}
