//! The inputs: areas with a change each, lists of steps, and the largest bench file.
//! Random numbers have fixed seeds, so every run has the same inputs.

use crate::isis;
use crate::limits::{CELLS, ENTRY, MOST_STEPS, STEP, Set, UNUSED, WIDTH};
use crate::plan::{Record, TIMES};

pub struct Area {
    pub n: usize,
    pub metric: Vec<u32>,
    pub changes: Vec<u8>,
}

/// A linear congruential generator.
pub struct Random(pub u64);

impl Random {
    pub fn below(&mut self, bound: u32) -> u32 {
        self.0 = self
            .0
            .wrapping_mul(6_364_136_223_846_793_005)
            .wrapping_add(1_442_695_040_888_963_407);
        (self.0 >> 33) as u32 % bound
    }
}

/// An area of n routers with the metrics and the changed links that are given. The table has its full size.
fn area(
    n: usize,
    mut metric: impl FnMut(usize, usize) -> u32,
    changed: &[(usize, usize)],
    change: impl Fn(u32) -> u32,
) -> Area {
    let mut table = vec![UNUSED; CELLS];
    for i in 0..n {
        for j in (0..n).filter(|&j| j != i) {
            table[WIDTH * i + j] = metric(i, j);
        }
    }
    let mut changes = Vec::new();
    for &(i, j) in changed {
        put_entry(&mut changes, i, j, change(table[WIDTH * i + j]));
    }
    Area {
        n,
        metric: table,
        changes,
    }
}

fn put_entry(list: &mut Vec<u8>, from: usize, to: usize, metric: u32) {
    list.extend([from as u8, to as u8]);
    list.extend(&metric.to_be_bytes()[1..]);
}

/// A ring with a chord for every second router: three links a router. The link 0–1 goes down.
pub fn sparse(n: usize) -> Area {
    let mut random = Random(1);
    let chord = 11 % n;
    let metric = |i: usize, j: usize| {
        let apart = (j + n - i) % n;
        let is_chord = (apart == chord && i % 2 == 0) || (apart == n - chord && j % 2 == 0);
        if apart == 1 || apart == n - 1 || is_chord {
            1 + random.below(100)
        } else {
            UNUSED
        }
    };
    area(n, metric, &[(0, 1), (1, 0)], |_| UNUSED)
}

/// A link from each router to each other, and router 0 with the best ones. All the links of router 0 become worse.
pub fn dense(n: usize) -> Area {
    let mut random = Random(2);
    let metric = |i: usize, j: usize| {
        let most = if i == 0 || j == 0 { 60 } else { 1000 };
        1 + random.below(most)
    };
    let changed: Vec<_> = (1..n).flat_map(|j| [(0, j), (j, 0)]).collect();
    area(n, metric, &changed, |m| if m % 3 == 0 { UNUSED } else { m + 120 })
}

/// A hypercube of metrics 1. The links between router 0 and the router opposite come up.
pub fn hypercube() -> Area {
    let metric = |i: usize, j: usize| if (i ^ j).is_power_of_two() { 1 } else { UNUSED };
    let opposite = WIDTH - 1;
    area(WIDTH, metric, &[(0, opposite), (opposite, 0)], |_| 1)
}

/// A link from each router to each other, all of metric 1. Those between router 0 and the odd ones become worse.
pub fn equal() -> Area {
    let changed: Vec<_> = (1..WIDTH).step_by(2).flat_map(|j| [(0, j), (j, 0)]).collect();
    area(WIDTH, |_, _| 1, &changed, |_| 3)
}

/// The steps by which a fresh record is brought to its end, all of which are answered "ok".
pub fn progress(fresh: &Record) -> Vec<u8> {
    let mut steps = Vec::new();
    for kind in [1, 2] {
        for r in 0..fresh.n {
            steps.extend([kind, r, 0]);
        }
    }
    let mut order: Vec<u8> = (0..fresh.n).collect();
    order.sort_by_key(|&r| fresh.ranks[r as usize]);
    for r in order {
        for d in routers(fresh.due[r as usize]) {
            steps.extend([3, r, d]);
        }
        steps.extend([4, r, 0]);
        for t in routers(fresh.telling[r as usize]) {
            steps.extend([5, r, t]);
        }
    }
    steps
}

fn routers(set: Set) -> impl Iterator<Item = u8> {
    (0..WIDTH as u8).filter(move |&r| set >> r & 1 == 1)
}

/// As many steps as a file may have: those of `progress`, evenly spread, and between them steps of any routers and any
/// kind but ticks, which would let routers go on before they are told. Kind 0 is unknown.
pub fn mixed(fresh: &Record) -> Vec<u8> {
    let mut random = Random(3);
    let progress = progress(fresh);
    let count = progress.len() / STEP;
    let mut steps = Vec::new();
    let mut taken = 0;
    for k in 1..=MOST_STEPS {
        if taken < k * count / MOST_STEPS {
            steps.extend(&progress[STEP * taken..][..STEP]);
            taken += 1;
        } else {
            let kind = (1 + random.below(6) as u8) % 6;
            steps.extend([kind, any_router(&mut random), any_router(&mut random)]);
        }
    }
    steps
}

/// Any router, or the first number beyond them.
fn any_router(random: &mut Random) -> u8 {
    random.below(WIDTH as u32 + 1) as u8
}

/// The largest file: all links of the dense area, the changes of router 0, and as many steps as may be.
pub fn largest_file(area: &Area, steps: &[u8]) -> Vec<u8> {
    let mut links = Vec::new();
    for i in 0..WIDTH {
        for j in (0..WIDTH).filter(|&j| j != i) {
            put_entry(&mut links, i, j, area.metric[WIDTH * i + j]);
        }
    }
    let mut file = vec![WIDTH as u8];
    file.extend(((links.len() / ENTRY) as u16).to_be_bytes());
    file.extend(links);
    file.push((area.changes.len() / ENTRY) as u8);
    file.extend(&area.changes);
    file.extend(TIMES.hold.to_be_bytes());
    file.extend(TIMES.step.to_be_bytes());
    file.extend(((steps.len() / STEP) as u16).to_be_bytes());
    file.extend(steps);
    file
}

/// The identity of a router.
fn identity(router: usize) -> [u8; isis::IDENTITY] {
    [0x49, 0, 1, 0, 0, router as u8 + 1, 0]
}

/// The table of identities of all routers.
pub fn identities() -> Vec<u8> {
    (0..WIDTH)
        .flat_map(|r| identity(r).into_iter().chain([r as u8]))
        .collect()
}

/// The links of an area as lists of IS-IS entries, each entry with sub-TLVs of 6 bytes.
pub fn lists(area: &Area) -> Vec<u8> {
    let mut lists = Vec::new();
    for i in 0..WIDTH {
        let mut list = Vec::new();
        for j in (0..WIDTH).filter(|&j| area.metric[WIDTH * i + j] != UNUSED) {
            list.extend(identity(j));
            list.extend(&area.metric[WIDTH * i + j].to_be_bytes()[1..]);
            list.extend([6, 3, 4, 0, 0, 0, 0]);
        }
        lists.extend((list.len() as u16).to_be_bytes());
        lists.extend(list);
    }
    lists
}
