//! Lists of calls with ticks (02, No. 10): the suppositions under which demand 3 speaks of them, and every record that
//! they lead to from small plans, with any messages lost.

use crate::areas::Area;
use crate::compare::Comparison;
use crate::difference::Difference;
use crate::flaw::Flaw;
use crate::ofib::Record;
use crate::plan::Times;
use crate::random::Random;
use crate::reachable::{self, listed_areas, search_plan, small_area, unchanged_between};
use crate::step::{DONE, IDLE, due_time};

const PART: u64 = 6;
/// How many ticks lists have that need not be timely.
const TICKS: u32 = 2;
/// So many changes are searched without ticks for one with ticks.
const STRIDE: u64 = 37;

/// S, by which learn times may differ, and F, by which a router may be late.
#[derive(Clone, Copy, Debug, PartialEq, Eq)]
pub struct Supposed {
    pub s: u64,
    pub f: u64,
}

impl Supposed {
    /// What 02 supposes of the record after each call. Learn times are those of the routers that have learned.
    pub fn is_timely(self, record: &Record) -> bool {
        let clock = u64::from(record.clock);
        let (idle, learned): (Vec<usize>, Vec<usize>) =
            (0..usize::from(record.n)).partition(|&r| record.states[r] == IDLE);
        let learn_times = || learned.iter().map(|&r| u64::from(record.learn_times[r]));
        let (Some(first), Some(last)) = (learn_times().min(), learn_times().max()) else {
            return true;
        };
        let is_late = |r: usize| record.states[r] != DONE && clock > due_time(record, r, Flaw::None) + self.f;
        let is_together = last - first <= self.s;
        let is_awake = idle.is_empty() || clock <= first + self.s;
        is_together && is_awake && !learned.into_iter().any(is_late)
    }

    /// All with F + S one below the step time. A record that is timely by smaller ones is timely by some of these.
    pub fn all(step_time: u16) -> impl Iterator<Item = Supposed> {
        let most = u64::from(step_time) - 1;
        (0..=most).map(move |s| Supposed { s, f: most - s })
    }
}

/// Which lists of calls a search goes through.
#[derive(Clone, Copy, Debug, PartialEq, Eq)]
pub enum Lists {
    WithoutTicks,
    /// With ticks, after each call of which the record is timely.
    Timely(Supposed),
    /// With so many ticks at most, whether timely or not.
    UpTo(u32),
}

impl Lists {
    /// Whether demand 3 speaks of them.
    pub fn are_covered(self) -> bool {
        !matches!(self, Lists::UpTo(_))
    }

    /// Whether they go on from a record. Nothing depends on how long the clock ticks before the first router learns, or
    /// after the last one must be done.
    pub fn lead_on(self, record: &Record) -> bool {
        match self {
            Lists::WithoutTicks => record.clock == 0,
            Lists::Timely(supposed) => {
                let learned = (0..usize::from(record.n)).filter(|&r| record.states[r] != IDLE);
                let last_due = learned.map(|r| due_time(record, r, Flaw::None) + supposed.f).max();
                u64::from(record.clock) <= 1 + last_due.unwrap_or(0) && supposed.is_timely(record)
            }
            Lists::UpTo(ticks) => record.clock <= ticks,
        }
    }
}

/// Short times, and all that can be supposed with each.
pub fn short_times() -> Vec<(Times, Supposed)> {
    let mut all = Vec::new();
    for (hold, step) in [(0, 1), (1, 1), (0, 2), (1, 2), (2, 2), (0, 3), (1, 3)] {
        all.extend(Supposed::all(step).map(|supposed| (Times { hold, step }, supposed)));
    }
    all
}

/// All areas of two routers with all short times, some of three with one of them each, and areas of three and four
/// until there are enough records.
pub fn small_areas(comparison: &mut Comparison, seed: u64, amount: &reachable::Amount) -> Result<(), Difference> {
    let mut with_all = |random: &mut Random, area: &Area, list: &[u8]| {
        let mut turns = short_times().into_iter();
        turns.try_for_each(|turn| search_area(comparison, random, area, list, turn))
    };
    listed_areas(2, 1, &mut with_all)?;
    let (area, list) = unchanged_between();
    with_all(&mut Random::for_case(seed, PART, 0), &area, &list)?;
    let mut turns = short_times().into_iter().cycle();
    listed_areas(3, STRIDE * amount.stride, |random, area, list| {
        let turn = turns.next().expect("there are short times");
        search_area(comparison, random, area, list, turn)
    })?;
    let mut number = 1;
    while comparison.counts.timers.timely_records < amount.timely_records {
        let mut random = Random::for_case(seed, PART, number);
        let n = random.between(3, 4);
        let (area, list) = small_area(&mut random, n);
        let turn = random.pick(&short_times());
        search_area(comparison, &mut random, &area, &list, turn)?;
        number += 1;
    }
    Ok(())
}

/// Searches the records of one change by timely lists, and those by lists with few ticks.
fn search_area(
    comparison: &mut Comparison,
    random: &mut Random,
    area: &Area,
    list: &[u8],
    (times, supposed): (Times, Supposed),
) -> Result<(), Difference> {
    let found = search_plan(comparison, random, area, list, (times, Lists::Timely(supposed)))?;
    comparison.counts.timers.timely_records += found.records;
    comparison.counts.timers.walks += found.walks;
    let found = search_plan(comparison, random, area, list, (times, Lists::UpTo(TICKS)))?;
    comparison.counts.timers.other_records += found.records;
    Ok(())
}
