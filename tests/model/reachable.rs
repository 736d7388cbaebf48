//! Small areas: every record that a plan can get to by calls without a tick; `timely.rs` has those with ticks. On each
//! of them all walks along the pointers (01, "The steps", what demand 3 is about), which are sets of four (02, No. 9),
//! whether some call is answered ok, and how many were (No. 8).

use std::collections::HashMap;
use std::hash::{BuildHasherDefault, Hasher};

use crate::areas::{self, Area};
use crate::changes::{self, bytes_of};
use crate::compare::Comparison;
use crate::course::{Course, is_counted};
use crate::difference::{Difference, describe_area};
use crate::flaw::Flaw;
use crate::fours_worked;
use crate::lent::{PathTables, PlanTables};
use crate::ofib::{self, Answer, CELLS, Record, Set};
use crate::paths::{UNREACHED, UNUSED, at, pairs};
use crate::plan::{Change, Request, Times, WITHOUT_TIMERS};
use crate::random::Random;
use crate::sets::{has, members};
use crate::step::{DELIVER, FINISH, LEARN, RELEASE, TICK, WRITE};
use crate::steps::all_done;
use crate::timely::Lists;

const PART: u64 = 4;
/// The metrics of the areas that are listed completely.
const METRICS: [u32; 3] = [1, 2, UNUSED];

pub struct Amount {
    /// From one listed change of an area with three routers that is searched to the next.
    pub stride: u64,
    /// Areas with four routers are searched until there are this many records.
    pub records: u64,
    /// Areas are searched by calls with ticks until there are this many records.
    pub timely_records: u64,
    /// Whether the plans with seven routers are searched, of which some have 400,000 records.
    pub has_seven: bool,
}

/// A record that a search has come to.
pub struct Visit<'a> {
    pub record: &'a Record,
    /// How many calls on the way to it were answered ok, ticks not counted.
    pub oks: usize,
    /// Whether some call on it that is no tick is answered ok, or would be after the ticks of a hold time at most.
    pub goes_on: bool,
}

pub fn small_areas(comparison: &mut Comparison, seed: u64, amount: &Amount) -> Result<(), Difference> {
    let mut search = |random: &mut Random, area: &Area, list: &[u8]| search_area(comparison, random, area, list);
    listed_areas(2, 1, &mut search)?;
    listed_areas(3, amount.stride, &mut search)?;
    let (area, list) = unchanged_between();
    search_area(comparison, &mut Random::for_case(seed, PART, 0), &area, &list)?;
    search_all(comparison, seed, five_next_hops())?;
    if amount.has_seven {
        search_all(comparison, seed, fours_worked::plans())?;
    }
    let mut number = 1;
    let before = comparison.counts.records;
    while comparison.counts.records - before < amount.records {
        let mut random = Random::for_case(seed, PART, number);
        let (area, list) = small_area(&mut random, 4);
        search_area(comparison, &mut random, &area, &list)?;
        number += 1;
    }
    Ok(())
}

fn search_all(comparison: &mut Comparison, seed: u64, plans: Vec<(Area, Vec<u8>)>) -> Result<(), Difference> {
    for (area, list) in plans {
        search_area(comparison, &mut Random::for_case(seed, PART, 0), &area, &list)?;
    }
    Ok(())
}

/// Router 1 has nothing due: it uses router 2 towards router 3 before and after the change. Router 0 uses router 1
/// before, and router 2 uses router 0 after. If router 1 does not wait for router 0, then 0, 1, 2 is a cycle until
/// router 0 has written. The other directions, which each link needs, are dear.
pub fn unchanged_between() -> (Area, Vec<u8>) {
    let mut metric = vec![UNUSED; CELLS];
    for (i, j, m) in [(0, 1, 1), (1, 2, 1), (2, 3, 1), (2, 0, 1), (0, 3, 9)] {
        metric[at(i, j)] = m;
        metric[at(j, i)] = 9;
    }
    (
        Area { n: 4, metric },
        bytes_of(&[Change {
            from: 2,
            to: 3,
            metric: UNUSED,
        }]),
    )
}

/// One link of the six routers below goes down, or comes up: that of 0 and 5, or at either of them that of the first
/// router between them or of the last.
pub fn five_next_hops() -> Vec<(Area, Vec<u8>)> {
    let mut plans = Vec::new();
    for (i, j) in [(0, 5), (0, 1), (0, 4), (1, 5), (4, 5)] {
        let (whole, mut without) = (six_routers(), six_routers());
        put_link(&mut without, i, j, UNUSED);
        let metric = whole.metric[at(i, j)];
        plans.push((whole, both_ends(i, j, UNUSED)));
        plans.push((without, both_ends(i, j, metric)));
    }
    plans
}

/// Routers 1 to 4 are between routers 0 and 5, whose own link costs as much as the walks over them, so that 0 and 5
/// have five next hops to each other.
fn six_routers() -> Area {
    let mut area = Area {
        n: 6,
        metric: vec![UNUSED; CELLS],
    };
    put_link(&mut area, 0, 5, 2);
    for between in 1..5 {
        put_link(&mut area, 0, between, 1);
        put_link(&mut area, between, 5, 1);
    }
    area
}

fn put_link(area: &mut Area, i: usize, j: usize, metric: u32) {
    area.metric[at(i, j)] = metric;
    area.metric[at(j, i)] = metric;
}

/// The changes that give a link this metric in both directions.
fn both_ends(i: usize, j: usize, metric: u32) -> Vec<u8> {
    let (from, to) = (i as u8, j as u8);
    bytes_of(&[
        Change { from, to, metric },
        Change {
            from: to,
            to: from,
            metric,
        },
    ])
}

/// An area with few different metrics, so that walks often cost the same, and a change of it.
pub fn small_area(random: &mut Random, n: usize) -> (Area, Vec<u8>) {
    let mut area = Area {
        n,
        metric: areas::unread_cells(random, n),
    };
    let unused = random.between(0, 60);
    for (i, j) in pairs(n) {
        let metric = random.between(1, 4) as u32;
        area.metric[at(i, j)] = if random.chance(unused) { UNUSED } else { metric };
    }
    let list = bytes_of(&changes::faultless(random, &mut area));
    (area, list)
}

/// All areas of n routers with metrics from the list above, and all changes of each with metrics from it; or of these
/// by the stride.
pub fn listed_areas(
    n: usize,
    stride: u64,
    mut search: impl FnMut(&mut Random, &Area, &[u8]) -> Result<(), Difference>,
) -> Result<(), Difference> {
    let links: Vec<(usize, usize)> = pairs(n).collect();
    let mut random = Random::for_case(0, PART, u64::MAX);
    let mut number = 0;
    for code in 0..3_usize.pow(links.len() as u32) {
        let mut area = Area {
            n,
            metric: areas::unread_cells(&mut random, n),
        };
        for (place, &(i, j)) in links.iter().enumerate() {
            area.metric[at(i, j)] = METRICS[digit(code, place)];
        }
        for list in all_changes(&area) {
            number += 1;
            if number % stride == 0 {
                search(&mut random, &area, &list)?;
            }
        }
    }
    Ok(())
}

fn digit(code: usize, place: usize) -> usize {
    code / 3_usize.pow(place as u32) % 3
}

/// For each router, all lists that give its links other metrics; Plan refuses the mixed ones. A list between two
/// routers alone comes up for both of them and is kept once.
fn all_changes(area: &Area) -> Vec<Vec<u8>> {
    let mut lists = Vec::new();
    for router in 0..area.n {
        let links: Vec<(usize, usize)> = pairs(area.n).filter(|&(i, j)| i == router || j == router).collect();
        for code in 0..3_usize.pow(links.len() as u32) {
            lists.push(bytes_of(&changes_by_code(area, &links, code)));
        }
    }
    lists.sort();
    lists.dedup();
    lists
}

/// One digit of the code for each link's new metric; a link that keeps its metric is left out.
fn changes_by_code(area: &Area, links: &[(usize, usize)], code: usize) -> Vec<Change> {
    let mut list = Vec::new();
    for (place, &(i, j)) in links.iter().enumerate() {
        let metric = METRICS[digit(code, place)];
        if metric != area.metric[at(i, j)] {
            list.push(Change {
                from: i as u8,
                to: j as u8,
                metric,
            });
        }
    }
    list
}

/// Searches the records of one change by calls without a tick.
fn search_area(comparison: &mut Comparison, random: &mut Random, area: &Area, list: &[u8]) -> Result<(), Difference> {
    let found = search_plan(comparison, random, area, list, (WITHOUT_TIMERS, Lists::WithoutTicks))?;
    comparison.counts.small_plans[area.n] += u64::from(found.records > 0);
    comparison.counts.records += found.records;
    comparison.counts.walks += found.walks;
    Ok(())
}

/// How many records a search has come to, and how many walks there are on them.
#[derive(Default)]
pub struct Found {
    pub records: u64,
    pub walks: u64,
}

/// Plans the change with the library and searches all records that such lists lead to from there, if the plan is
/// accepted.
pub fn search_plan(
    comparison: &mut Comparison,
    random: &mut Random,
    area: &Area,
    list: &[u8],
    (times, lists): (Times, Lists),
) -> Result<Found, Difference> {
    let mut compare = || {
        let request = Request { n: area.n, times, list };
        let planned = comparison.plan(random, request, &area.metric, [CELLS; 7])?;
        let mut found = Found::default();
        if planned.answer != 0 {
            return Ok(found);
        }
        let needs = comparison.needs(&planned.record)?;
        let step = |record: &mut Record, call| {
            let mut model = record.clone();
            comparison.step(record, &mut model, call)
        };
        let judge = |visit: &Visit| {
            if lists.are_covered() {
                found.walks += judge_pointers(&planned.tables, visit.record)?;
            }
            judge_progress(needs, ofib::missing(visit.record), visit)
        };
        found.records = search(&planned.record, lists, step, judge)?;
        comparison.counts.progress.missing += found.records;
        Ok(found)
    };
    let title = format!("reachable records, {lists:?}");
    compare().map_err(|what: String| Difference::in_calls(what, describe_area(&title, area, Some(times), list, &[])))
}

/// Visits every record that such lists lead to from the fresh one, and judges each. On every way to a record as many
/// calls are answered ok. The number of records.
pub fn search(
    fresh: &Record,
    lists: Lists,
    mut step: impl FnMut(&mut Record, [u8; 3]) -> Result<Answer, String>,
    mut judge: impl FnMut(&Visit) -> Result<(), String>,
) -> Result<u64, String> {
    let mut seen = Seen::default();
    seen.is_new(fresh, 0)?;
    let mut open = vec![(fresh.clone(), 0)];
    let mut records = 0;
    while let Some((record, oks)) = open.pop() {
        records += 1;
        let mut goes_on = false;
        let mut next = record.clone();
        let any = records as u8;
        for call in untimed_calls(record.n, any).chain([[TICK, any, any]]) {
            let answer = step(&mut next, call).map_err(|what| format!("from {record:?}: {what}"))?;
            if answer != Answer::Ok && key(&next) == key(&record) {
                continue;
            }
            let is_counted = is_counted(call[0], answer, Flaw::None);
            goes_on |= is_counted;
            let reached = std::mem::replace(&mut next, record.clone());
            let oks = oks + usize::from(is_counted);
            if lists.lead_on(&reached) && seen.is_new(&reached, oks)? {
                open.push((reached, oks));
            }
        }
        let record = &record;
        goes_on = goes_on || all_done(record) || goes_on_later(record, &mut step)?;
        judge(&Visit { record, oks, goes_on })?;
    }
    Ok(records)
}

/// Whether some call that is no tick is answered ok after as many ticks as the hold time says, or fewer.
fn goes_on_later(
    record: &Record,
    step: &mut impl FnMut(&mut Record, [u8; 3]) -> Result<Answer, String>,
) -> Result<bool, String> {
    let mut later = record.clone();
    for _ in 0..record.hold_time {
        step(&mut later, [TICK, 0, 0])?;
        for call in untimed_calls(record.n, 0) {
            if step(&mut later.clone(), call)? == Answer::Ok {
                return Ok(true);
            }
        }
    }
    Ok(false)
}

/// The records that a search has come to, each with how many calls were answered ok on the way.
#[derive(Default)]
struct Seen(HashMap<Key, usize, BuildHasherDefault<KeyHasher>>);

impl Seen {
    fn is_new(&mut self, record: &Record, oks: usize) -> Result<bool, String> {
        match self.0.insert(key(record), oks) {
            Some(others) if others != oks => Err(format!(
                "{oks} calls answered ok, and {others} another time with {record:?}"
            )),
            before => Ok(before.is_none()),
        }
    }
}

/// It always gets there: unless all routers are done, some call is answered ok.
pub fn judge_progress(needs: usize, missing: usize, visit: &Visit) -> Result<(), String> {
    let &Visit { record, oks, goes_on } = visit;
    if !goes_on && !all_done(record) {
        return Err(format!("no call is answered ok with {record:?}"));
    }
    let course = Course { needs, oks };
    course.judge(record, Flaw::None)?;
    course.judge_missing(missing)
}

/// All calls of the first five kinds with routers of the area. Three kinds do not read b, which is then any byte.
fn untimed_calls(n: u8, any: u8) -> impl Iterator<Item = [u8; 3]> {
    let of_one = (0..n).flat_map(move |a| [[LEARN, a, any], [RELEASE, a, any], [FINISH, a, any]]);
    let of_two = (0..n).flat_map(move |a| (0..n).flat_map(move |b| [[WRITE, a, b], [DELIVER, a, b]]));
    of_one.chain(of_two)
}

/// States, waiting and written sets of up to seven routers, and their learn times and the clock, which searches keep
/// below 256. A step changes nothing else of a record, as the comparison of every field has shown before.
type Key = (u128, u64);

fn key(record: &Record) -> Key {
    let routers = 0..usize::from(record.n).min(7);
    let start = (0, u64::from(record.clock));
    routers.fold(start, |(sets, times), r| {
        let of_router = u64::from(record.states[r]) << 14 | record.waiting[r] << 7 | record.written[r];
        let learn_time = u64::from(record.learn_times[r]);
        (sets << 16 | u128::from(of_router), times << 8 | learn_time)
    })
}

/// The key is two numbers, so mixing their bits is enough.
#[derive(Default)]
struct KeyHasher(u64);

impl Hasher for KeyHasher {
    fn finish(&self) -> u64 {
        self.0
    }

    fn write(&mut self, bytes: &[u8]) {
        for &byte in bytes {
            self.write_u64(byte.into());
        }
    }

    fn write_u64(&mut self, key: u64) {
        let mixed = (self.0 ^ key).wrapping_mul(0x9E37_79B9_7F4A_7C15);
        self.0 = mixed ^ (mixed >> 32);
    }

    fn write_u128(&mut self, key: u128) {
        self.write_u64((key >> 64) as u64);
        self.write_u64(key as u64);
    }
}

/// For every destination and every start: no walk goes round in a cycle, and where the start reaches the destination
/// in both topologies no walk ends elsewhere. The number of walks.
pub fn judge_pointers(tables: &PlanTables, record: &Record) -> Result<u64, String> {
    let n = usize::from(record.n);
    let mut walks = 0;
    for destination in 0..n {
        for start in 0..n {
            let pointers = Pointers {
                tables,
                record,
                destination,
                must_arrive: reaches(tables, start, destination),
            };
            walks += pointers
                .follow(start, 0)
                .map_err(|what| format!("walk from {start} to {destination}: {what}"))?;
        }
    }
    Ok(walks)
}

fn reaches(tables: &PlanTables, start: usize, destination: usize) -> bool {
    let cell = at(start, destination);
    let reached = |paths: &PathTables| paths.dist.cells()[cell] != UNREACHED;
    reached(&tables.old_paths) && reached(&tables.new_paths)
}

/// The pointers of all routers for one destination.
struct Pointers<'a> {
    tables: &'a PlanTables,
    record: &'a Record,
    destination: usize,
    must_arrive: bool,
}

impl Pointers<'_> {
    /// The new set of four where the router has written the destination, else the old one.
    fn of(&self, router: usize) -> Set {
        let written = has(self.record.written[router], self.destination);
        let paths = if written {
            &self.tables.new_paths
        } else {
            &self.tables.old_paths
        };
        paths.fours.cells()[at(router, self.destination)]
    }

    /// Prolongs a walk of so many links in every way; a walk of n links visits a router twice. The number of walks.
    fn follow(&self, router: usize, links: usize) -> Result<u64, String> {
        if links >= usize::from(self.record.n) {
            return Err(format!("a cycle through router {router} with {:?}", self.record));
        }
        let pointers = self.of(router);
        if pointers == 0 && router != self.destination && self.must_arrive {
            return Err(format!("it ends at router {router} with {:?}", self.record));
        }
        let mut walks = 1;
        for next in members(pointers) {
            walks += self.follow(next, links + 1)?;
        }
        Ok(walks)
    }
}
