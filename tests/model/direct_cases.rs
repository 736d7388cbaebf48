//! Calls that no bench file leads to: any n, any times, any table size, any metric, any record.

use crate::area_cases::compare_area;
use crate::areas::{self, Area};
use crate::changes::{self, FAULTS};
use crate::compare::Comparison;
use crate::difference::{Difference, describe_area, describe_step};
use crate::files;
use crate::lent::RIGHT_SIZES;
use crate::ofib::{Answer, CELLS, Record, Set, WIDTH};
use crate::paths::{UNUSED, at, pairs};
use crate::plan::{Change, Request};
use crate::random::Random;
use crate::{clock_cases, steps, timers};

const PART: u64 = 2;
/// Among them numbers that are 0 to 64 when cut to 8, 16 or 32 bits.
pub const WRONG_N: [usize; 16] = [
    0,
    WIDTH + 1,
    WIDTH + 2,
    2 * WIDTH,
    255,
    256,
    257,
    256 + WIDTH,
    65_541,
    1 << 32,
    (1 << 32) + 1,
    (1 << 32) + WIDTH,
    1 << 63,
    usize::MAX - 255 + WIDTH,
    usize::MAX - 1,
    usize::MAX,
];
/// Among them the cells of 32 rows of 32.
pub const WRONG_SIZES: [usize; 8] = [0, 1, WIDTH, 1024, CELLS - 1, CELLS + 1, 2 * CELLS, 1 << 16];
const WRONG_METRICS: [u32; 5] = [0, UNUSED + 1, UNUSED + 2, 1 << 31, u32::MAX];

/// The calls that are the same for every seed but for the areas they are made on, and then `count` random ones of each
/// sort.
pub fn direct_cases(comparison: &mut Comparison, seed: u64, count: u64) -> Result<(), Difference> {
    let mut random = Random::for_case(seed, PART, 0);
    faults_at_each_place(comparison, &mut random)?;
    one_effect_at_each_place(comparison, &mut random)?;
    two_faults(comparison, &mut random)?;
    wrong_n(comparison, &mut random)?;
    wrong_sizes(comparison, &mut random)?;
    wrong_sizes_with_a_file(comparison, &mut random)?;
    wrong_metric_at_each_place(comparison, &mut random)?;
    every_kind(comparison, &mut random)?;
    wrong_state_at_each_index(comparison, &mut random)?;
    full_and_empty_sets(comparison, &mut random)?;
    clock_cases::clock_cases(comparison, &mut random)?;
    for number in 1..=count {
        let mut random = Random::for_case(seed, PART, number);
        wrong_at_random(comparison, &mut random)?;
        any_record(comparison, &mut random)?;
    }
    Ok(())
}

/// The longest list, with each fault at each place.
fn faults_at_each_place(comparison: &mut Comparison, random: &mut Random) -> Result<(), Difference> {
    for fault in FAULTS {
        let (area, changes) = longest_list(random);
        for place in 0..changes.len() {
            let mut spoiled = changes.clone();
            changes::spoil(random, &area, &mut spoiled, fault, place);
            let title = format!("{fault:?} at entry {place}");
            compare_list(comparison, random, &title, &area, &spoiled)?;
        }
    }
    Ok(())
}

/// The longest list, in which one entry has an effect, at each place, and then none.
fn one_effect_at_each_place(comparison: &mut Comparison, random: &mut Random) -> Result<(), Difference> {
    let (area, changes) = longest_list(random);
    let idle = |change: Change| Change {
        metric: area.metric[change.cell()],
        ..change
    };
    let same: Vec<Change> = changes.iter().map(|&change| idle(change)).collect();
    for place in 0..=changes.len() {
        let mut list = same.clone();
        if let Some(entry) = list.get_mut(place) {
            *entry = changes[place];
        }
        let title = format!("an effect at entry {place} alone");
        compare_list(comparison, random, &title, &area, &list)?;
    }
    Ok(())
}

/// A full mesh of all routers, and a rise or fall of all links of one of them.
fn longest_list(random: &mut Random) -> (Area, Vec<Change>) {
    let area = areas::full_mesh(random, WIDTH);
    let router = random.below(WIDTH);
    let rise = random.chance(50);
    let of_router = pairs(WIDTH).filter(|&(i, j)| i == router || j == router);
    let mut changes: Vec<Change> = of_router
        .map(|(i, j)| {
            let old = area.metric[at(i, j)];
            let metric = if rise {
                old + random.between(1, 9) as u32
            } else {
                random.between(1, old as usize - 1) as u32
            };
            Change {
                from: i as u8,
                to: j as u8,
                metric,
            }
        })
        .collect();
    random.shuffle(&mut changes);
    (area, changes)
}

/// A short list, with each two faults at each two places.
fn two_faults(comparison: &mut Comparison, random: &mut Random) -> Result<(), Difference> {
    for (first, second) in FAULTS.iter().flat_map(|&x| FAULTS.iter().map(move |&y| (x, y))) {
        let mut area = areas::full_mesh(random, 5);
        let mut changes = changes::faultless(random, &mut area);
        changes.truncate(4);
        for (p, q) in pairs(changes.len()) {
            let mut spoiled = changes.clone();
            changes::spoil(random, &area, &mut spoiled, first, p);
            changes::spoil(random, &area, &mut spoiled, second, q);
            let title = format!("{first:?} at entry {p}, {second:?} at entry {q}");
            compare_list(comparison, random, &title, &area, &spoiled)?;
        }
    }
    Ok(())
}

/// One area and one list, with times that are not refused.
fn compare_list(
    comparison: &mut Comparison,
    random: &mut Random,
    title: &str,
    area: &Area,
    changes: &[Change],
) -> Result<(), Difference> {
    let times = timers::of_plan(random);
    let list = &changes::bytes_of(changes);
    compare_area(comparison, random, title, area, Request { n: area.n, times, list })
}

fn wrong_n(comparison: &mut Comparison, random: &mut Random) -> Result<(), Difference> {
    for n in WRONG_N {
        for size in [CELLS, 0, CELLS - 1] {
            let (mut area, list) = area_and_list(random);
            area.n = n;
            area.metric.resize(size, 0);
            compare_both(comparison, random, &area, [CELLS; 7], &list)?;
            compare_both(comparison, random, &area, [size; 7], &list)?;
        }
    }
    Ok(())
}

/// Each table by itself with each wrong size; the metric table is the eighth.
fn wrong_sizes(comparison: &mut Comparison, random: &mut Random) -> Result<(), Difference> {
    for size in WRONG_SIZES {
        for table in 0..RIGHT_SIZES.len() {
            let (mut area, list) = area_and_list(random);
            let mut sizes = [CELLS; 7];
            match sizes.get_mut(table) {
                Some(other) => *other = size,
                None => area.metric.resize(size, 1),
            }
            compare_both(comparison, random, &area, sizes, &list)?;
        }
    }
    Ok(())
}

/// Read, rehearsal and routes with each of their tables of a wrong size, on files with and without a fault.
fn wrong_sizes_with_a_file(comparison: &mut Comparison, random: &mut Random) -> Result<(), Difference> {
    for size in WRONG_SIZES {
        for table in 0..RIGHT_SIZES.len() {
            let mut parts = files::faultless(random, 6);
            if random.chance(30) {
                files::spoil(random, &mut parts);
            }
            let file = parts.bytes();
            let mut sizes = RIGHT_SIZES;
            sizes[table] = size;
            sizes[random.below(RIGHT_SIZES.len())] = random.pick(&[CELLS, CELLS, size]);
            let mut compare = || {
                comparison.read(random, &file, size)?;
                comparison.rehearsal(random, &file, sizes, None)?;
                comparison.routes(random, &file, sizes, None)
            };
            compare().map_err(|what| Difference::in_file(format!("table sizes {sizes:?}: {what}"), &file))?;
        }
    }
    Ok(())
}

/// At the places that are read a wrong metric is refused, at the others it changes nothing.
fn wrong_metric_at_each_place(comparison: &mut Comparison, random: &mut Random) -> Result<(), Difference> {
    for n in [1, 2, 5, 32, 33, WIDTH - 1, WIDTH] {
        let mut area = areas::area_of_size(random, n);
        for place in 0..CELLS {
            let metric = random.pick(&WRONG_METRICS);
            let right = std::mem::replace(&mut area.metric[place], metric);
            let outcome = comparison.paths(random, n, &area.metric, [CELLS; 3]);
            outcome.map_err(|what| Difference::in_calls(what, describe_area("wrong metric", &area, None, &[], &[])))?;
            area.metric[place] = right;
        }
    }
    Ok(())
}

/// Some of n, sizes and metrics wrong at once.
pub fn wrong_at_random(comparison: &mut Comparison, random: &mut Random) -> Result<(), Difference> {
    let (mut area, list) = area_and_list(random);
    let mut sizes = [CELLS; 7];
    if random.chance(50) {
        for _ in 0..random.between(1, 3) {
            let place = if random.chance(70) {
                at(random.below(area.n), random.below(area.n))
            } else {
                random.below(CELLS)
            };
            area.metric[place] = random.pick(&WRONG_METRICS);
        }
    }
    if random.chance(20) {
        let size = random.pick(&WRONG_SIZES);
        sizes = sizes.map(|right| if random.chance(30) { size } else { right });
    }
    if random.chance(10) {
        area.metric.resize(random.pick(&WRONG_SIZES), 1);
    }
    if random.chance(10) {
        area.n = random.pick(&WRONG_N);
    }
    compare_both(comparison, random, &area, sizes, &list)
}

fn area_and_list(random: &mut Random) -> (Area, Vec<u8>) {
    let mut area = areas::area(random);
    let list = changes::list(random, &mut area);
    (area, list)
}

/// Paths and Plan, with or without a step time; the sizes are those of the tables that Plan fills, and Paths gets those
/// of the old topology.
fn compare_both(
    comparison: &mut Comparison,
    random: &mut Random,
    area: &Area,
    sizes: [usize; 7],
    list: &[u8],
) -> Result<(), Difference> {
    let times = timers::of_request(random, 20);
    let mut compare = || {
        comparison.paths(random, area.n, &area.metric, [sizes[1], sizes[2], sizes[3]])?;
        let request = Request { n: area.n, times, list };
        comparison.plan(random, request, &area.metric, sizes)
    };
    let title = format!("direct calls with table sizes {sizes:?}");
    compare().map_err(|what| Difference::in_calls(what, describe_area(&title, area, Some(times), list, &[])))?;
    Ok(())
}

fn every_kind(comparison: &mut Comparison, random: &mut Random) -> Result<(), Difference> {
    for kind in 0..=255 {
        for _ in 0..20 {
            let record = steps::any_record(random);
            let [_, a, b] = steps::edge(random, &record);
            compare_one_step(comparison, &record, [kind, a, b])?;
        }
    }
    Ok(())
}

/// A state that does not exist is refused at every index, whether or not the router at it is below n.
fn wrong_state_at_each_index(comparison: &mut Comparison, random: &mut Random) -> Result<(), Difference> {
    for index in 0..WIDTH {
        for state in [0, 3, 4, 5, 128, 255] {
            for n in [0, 1, 16, 32, 33, WIDTH as u8 - 1, WIDTH as u8, WIDTH as u8 + 1, 255] {
                let mut record = steps::any_record(random);
                record.n = n;
                record.states = record.states.map(|state| state % 4);
                record.states[index] = state;
                let call = steps::within(random, &record);
                compare_one_step(comparison, &record, call)?;
            }
        }
    }
    Ok(())
}

/// What records need and are short of whose sets are full or empty, with every number of routers.
fn full_and_empty_sets(comparison: &mut Comparison, random: &mut Random) -> Result<(), Difference> {
    for n in 0..=255 {
        let sets = |_| random.pick(&[[0; WIDTH], [Set::MAX; WIDTH]]);
        let [waiting, due, written] = std::array::from_fn(sets);
        let record = Record {
            n,
            waiting,
            due,
            written,
            states: [random.pick(&[0, 1, 3, 4, 255]); WIDTH],
            ..steps::any_record(random)
        };
        let outcome = compare_counts(comparison, &record);
        outcome.map_err(|what| Difference::in_calls(what, describe_step(&record, &[])))?;
    }
    Ok(())
}

fn compare_counts(comparison: &mut Comparison, record: &Record) -> Result<(), String> {
    comparison.needs(record)?;
    comparison.missing(record)?;
    Ok(())
}

pub fn compare_one_step(comparison: &mut Comparison, record: &Record, call: [u8; 3]) -> Result<Answer, Difference> {
    let (mut library, mut model) = (record.clone(), record.clone());
    let outcome = compare_counts(comparison, record).and_then(|()| comparison.step(&mut library, &mut model, call));
    outcome.map_err(|what| Difference::in_calls(what, describe_step(record, &call)))
}

/// Steps on a record that no plan gives, one after the other and as one list, and what the record needs and is short
/// of before each of them.
pub fn any_record(comparison: &mut Comparison, random: &mut Random) -> Result<(), Difference> {
    let start = steps::any_record(random);
    let (mut library, mut model) = (start.clone(), start.clone());
    let mut bytes = Vec::new();
    for _ in 0..random.between(1, 8) {
        let call = match random.below(10) {
            0 => [random.byte(), random.byte(), random.byte()],
            1 | 2 => steps::edge(random, &library),
            _ => steps::within(random, &library),
        };
        bytes.extend(call);
        let outcome = compare_counts(comparison, &library);
        let outcome = outcome.and_then(|()| comparison.step(&mut library, &mut model, call));
        outcome.map_err(|what| Difference::in_calls(what, describe_step(&start, &bytes)))?;
    }
    let left_over = random.below(3);
    bytes.extend(random.bytes(left_over));
    let outcome = comparison.run(&start, &bytes);
    outcome.map_err(|what| Difference::in_calls(what, describe_step(&start, &bytes)))?;
    Ok(())
}
