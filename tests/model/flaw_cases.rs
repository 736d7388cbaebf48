//! Each mistake that the model can be given must show: in the comparison, where it breaks the order of the writes also
//! in the walks along the pointers, after lists without a tick or with ticks, where it makes a run stick or end early
//! also in the calls answered ok, where the plan hangs on the order of the changes also beside another order, and where
//! a stored file is rewritten, or an area, the steps of a sheet or what is unfinished printed, also beside the program
//! that does it. And a loop must show where F + S is as large as the step time.

use std::path::Path;

use crate::area_cases::area_case;
use crate::areas::Area;
use crate::changes::in_another_order;
use crate::compare::{Comparison, Planned, same_plan};
use crate::difference::Difference;
use crate::direct_cases::{any_record, wrong_at_random};
use crate::file_cases::{self, file_case};
use crate::files::{self, LONG_SHEETS};
use crate::flaw::{
    COURSE_FLAWS, FLAWS, Flaw, ISIS_FLAWS, PRINTED_FLAWS, REWRITING_FLAWS, SHEET_FLAWS, TIMER_FLAWS, UNFINISHED_FLAWS,
};
use crate::isis_cases::{isis_case, printed_case, printed_on_purpose};
use crate::lent::{PlanTables, RIGHT_SIZES};
use crate::needs::{missing, needs};
use crate::ofib::Record;
use crate::plan::{Request, Times, WITHOUT_TIMERS, plan};
use crate::process;
use crate::random::Random;
use crate::reachable::{Visit, five_next_hops, judge_pointers, judge_progress, search, small_area, unchanged_between};
use crate::read::Format;
use crate::step::step;
use crate::timely::{Lists, Supposed, short_times};

const PART: u64 = 5;
/// So many areas and as many files are compared before a mistake counts as not seen.
const MOST_CASES: u64 = 2000;
/// So many inputs of link-state data, which take less time.
const MOST_LISTS: u64 = 20_000;
const MOST_SEARCHES: u64 = 2000;

pub fn flaw_cases(seed: u64, programs: &file_cases::Amount, from_isis: Option<&Path>) -> Result<(), String> {
    for flaw in FLAWS {
        let (cases, what) =
            first_difference(flaw, seed).ok_or(format!("flaw {flaw:?}: the comparison did not see it"))?;
        println!(
            "flaw {flaw:?}: caught at case {cases} ({})",
            what.lines().next().unwrap_or_default()
        );
    }
    for flaw in ISIS_FLAWS {
        let (cases, what) = first_isis_difference(flaw, seed).ok_or(format!("flaw {flaw:?}: no lists showed it"))?;
        println!("flaw {flaw:?}: caught at lists {cases} ({what})");
    }
    record_flaws(seed)?;
    timer_flaws(seed)?;
    let flaw = Flaw::RootFarEnd;
    let (plans, what) = first_other_plan(flaw, seed).ok_or(format!("flaw {flaw:?}: no other order showed it"))?;
    println!("flaw {flaw:?}: caught by another order at plan {plans} ({what})");
    program_flaws(seed, programs)?;
    if let Some(program) = from_isis {
        printed_flaws(seed, program)?;
    }
    let without = |judge: Judge| first_bad_record(Flaw::None, seed, judge);
    match without(walks)
        .or(without(progress))
        .or(first_bad_by_ticks(Flaw::None, seed, walks, 0))
        .or(first_bad_by_ticks(Flaw::None, seed, progress, 0))
        .or(first_other_plan(Flaw::None, seed))
    {
        None => Ok(()),
        Some((_, what)) => Err(format!("the model without a flaw: {what}")),
    }
}

/// The records of small plans, by the model alone, show the mistakes that break the order of the writes, or by which a
/// run sticks or ends early.
fn record_flaws(seed: u64) -> Result<(), String> {
    for flaw in [Flaw::FinishUnordered, Flaw::FallAsRise] {
        let (plans, what) = first_bad_record(flaw, seed, walks).ok_or(format!("flaw {flaw:?}: no walk showed it"))?;
        let what = what.split(" with ").next().unwrap_or_default();
        println!("flaw {flaw:?}: caught by a walk at plan {plans} ({what})");
    }
    // In the plans before, no router has more than three next hops, so that sets of four and full sets are the same.
    for flaw in [Flaw::FallAsRise, Flaw::LargeDropped] {
        let (plans, what) = first_bad_walk(flaw, seed).ok_or(format!("flaw {flaw:?}: no walk by five showed it"))?;
        let what = what.split(" with ").next().unwrap_or_default();
        println!("flaw {flaw:?}: caught by a walk at plan {plans} with five next hops ({what})");
    }
    for flaw in COURSE_FLAWS {
        let (plans, what) =
            first_bad_record(flaw, seed, progress).ok_or(format!("flaw {flaw:?}: no calls showed it"))?;
        let what = what.split(" with ").next().unwrap_or_default();
        println!("flaw {flaw:?}: caught by the calls answered ok at plan {plans} ({what})");
    }
    Ok(())
}

/// The timely records of small plans, by the model alone, show the mistakes by which a timer goes off too early, or a
/// hold time does not end. Where F + S is as large as the step time, a loop forms without a mistake.
fn timer_flaws(seed: u64) -> Result<(), String> {
    let early = TIMER_FLAWS.map(|flaw| (flaw, walks as Judge, 0));
    let others = [(Flaw::ReleaseTickLate, progress as Judge, 0), (Flaw::None, walks, 1)];
    for (flaw, judge, more) in early.into_iter().chain(others) {
        let (plans, what) = first_bad_by_ticks(flaw, seed, judge, more)
            .ok_or(format!("flaw {flaw:?}, F and S {more} too large: no record showed it"))?;
        let what = what.split(" with ").next().unwrap_or_default();
        match more {
            0 => println!("flaw {flaw:?}: caught by ticks at plan {plans} ({what})"),
            _ => println!("F + S as large as the step time: a loop at plan {plans} ({what})"),
        }
    }
    Ok(())
}

fn program_flaws(seed: u64, programs: &file_cases::Amount) -> Result<(), String> {
    if let Some(program) = &programs.rewrite {
        rewriting_flaws(seed, program)?;
    }
    if let Some(program) = &programs.sheet_steps {
        sheet_flaws(seed, program)?;
    }
    if let Some(program) = &programs.unfinished {
        unfinished_flaws(seed, program)?;
    }
    Ok(())
}

/// Areas, files, wrong input and arbitrary records in turn; after how many cases library and flawed model differ, and
/// in what.
fn first_difference(flaw: Flaw, seed: u64) -> Option<(u64, String)> {
    let mut comparison = Comparison::new(flaw);
    let amount = file_cases::Amount {
        cases: 0,
        link_stride: 1,
        program: None,
        program_stride: 1,
        rewrite: None,
        rewrite_stride: 1,
        sheet_steps: None,
        sheet_stride: 1,
        unfinished: None,
        unfinished_stride: 1,
    };
    for number in 0..MOST_CASES {
        let outcome = area_case(&mut comparison, seed, number);
        let outcome = outcome.and_then(|()| file_case(&mut comparison, seed, number, &amount));
        let mut random = Random::for_case(seed, PART, number);
        let outcome = outcome
            .and_then(|()| wrong_at_random(&mut comparison, &mut random))
            .and_then(|()| any_record(&mut comparison, &mut random));
        if let Err(Difference { what, .. }) = outcome {
            return Some((comparison.counts.areas + comparison.counts.files, what));
        }
    }
    None
}

/// Link-state data: after how many inputs library and flawed model differ, and in what.
fn first_isis_difference(flaw: Flaw, seed: u64) -> Option<(u64, String)> {
    let mut comparison = Comparison::new(flaw);
    let differs = |number: u64| {
        let outcome = isis_case(&mut comparison, seed, number);
        outcome.err().map(|difference| (number + 1, difference.what))
    };
    (0..MOST_LISTS).find_map(differs)
}

/// What the program writes for stored files shows the mistakes of the rewriting.
fn rewriting_flaws(seed: u64, program: &Path) -> Result<(), String> {
    for flaw in REWRITING_FLAWS {
        let mut random = Random::for_case(seed, PART, 0);
        let stored = (1..=MOST_CASES).map(|number| (number, files::stored(&mut random, 8).in_format(Format::Old)));
        let mut other = Random::for_case(seed, PART, 1);
        let differs = |(number, file): (u64, Vec<u8>)| {
            let outcome = process::compare_rewriting(&mut other, program, &file, flaw);
            outcome.err().map(|what| (number, what))
        };
        let mut caught = stored.filter_map(differs);
        let (files, what) = caught
            .next()
            .ok_or(format!("flaw {flaw:?}: the program did not show it"))?;
        println!("flaw {flaw:?}: caught by the program at file {files} ({what})");
    }
    Ok(())
}

/// The steps that the program prints of long sheets, and of any, show that they are counted, and where the ticks are.
fn sheet_flaws(seed: u64, program: &Path) -> Result<(), String> {
    for flaw in SHEET_FLAWS {
        let mut random = Random::for_case(seed, PART, 3);
        let mut comparison = Comparison::new(flaw);
        let long = LONG_SHEETS.map(|steps| files::long_sheet(&mut random, steps).bytes());
        let any: Vec<Vec<u8>> = (0..MOST_CASES / 10)
            .map(|_| files::faultless(&mut random, 8).bytes())
            .collect();
        let mut numbered = (1..).zip(long.iter().chain(&any));
        let differs = |(number, file): (u64, &Vec<u8>)| {
            let outcome = comparison.sheet_steps(&mut random, program, file);
            outcome.err().map(|what| (number, what))
        };
        let (sheets, what) = numbered
            .find_map(differs)
            .ok_or(format!("flaw {flaw:?}: the program did not show it"))?;
        println!("flaw {flaw:?}: caught by the program at sheet {sheets} ({what})");
    }
    Ok(())
}

/// What the program prints as unfinished shows the mistakes of its text.
fn unfinished_flaws(seed: u64, program: &Path) -> Result<(), String> {
    for flaw in UNFINISHED_FLAWS {
        let mut comparison = Comparison::new(flaw);
        let mut random = Random::for_case(seed, PART, 4);
        let differs = |number: u64| {
            let file = files::faultless(&mut random, 8).bytes();
            let outcome = comparison.unfinished(&mut random, program, &file);
            outcome.err().map(|what| (number, what))
        };
        let (files, what) = (1..=MOST_CASES)
            .find_map(differs)
            .ok_or(format!("flaw {flaw:?}: the program did not show it"))?;
        println!("flaw {flaw:?}: caught by the program at file {files} ({what})");
    }
    Ok(())
}

/// What the program prints for link-state data shows the mistakes of the printing, at inputs that are made for it or at
/// random ones.
fn printed_flaws(seed: u64, program: &Path) -> Result<(), String> {
    for flaw in PRINTED_FLAWS {
        let mut comparison = Comparison::new(flaw);
        let mut random = Random::for_case(seed, PART, 2);
        let on_purpose = printed_on_purpose(&mut comparison, &mut random, program);
        let outcome = on_purpose
            .and_then(|()| (0..MOST_CASES).try_for_each(|number| printed_case(&mut comparison, seed, number, program)));
        let Err(Difference { what, .. }) = outcome else {
            return Err(format!("flaw {flaw:?}: the program did not show it"));
        };
        println!("flaw {flaw:?}: caught by the program ({what})");
    }
    Ok(())
}

/// How a record of the model is judged by itself.
type Judge = fn(&Planned, &Visit) -> Result<(), String>;

fn walks(planned: &Planned, visit: &Visit) -> Result<(), String> {
    judge_pointers(&planned.tables, visit.record).map(|_| ())
}

fn progress(planned: &Planned, visit: &Visit) -> Result<(), String> {
    let needed = needs(&planned.record, Flaw::None);
    judge_progress(needed, missing(visit.record, Flaw::None), visit)
}

/// The records that the flawed model by itself gets to: after how many plans one is judged to be wrong, and why.
fn first_bad_record(flaw: Flaw, seed: u64, judge: Judge) -> Option<(u64, String)> {
    for number in 1..=if flaw == Flaw::None { 20 } else { MOST_SEARCHES } {
        let mut random = Random::for_case(seed, PART, number);
        let n = random.between(2, 4);
        let (area, list) = if number == 1 {
            unchanged_between()
        } else {
            small_area(&mut random, n)
        };
        if let Err(what) = judge_all(&mut random, &area, &list, UNTIMED, (flaw, judge)) {
            return Some((number, what));
        }
    }
    None
}

/// The same of the records after timely lists with ticks, where F is so much more than it may be.
fn first_bad_by_ticks(flaw: Flaw, seed: u64, judge: Judge, more: u64) -> Option<(u64, String)> {
    let is_sound = flaw == Flaw::None && more == 0;
    for number in 1..=if is_sound { 50 } else { MOST_SEARCHES } {
        let mut random = Random::for_case(seed, PART, number);
        let n = random.between(2, 3);
        let (area, list) = small_area(&mut random, n);
        let (times, Supposed { s, f }) = random.pick(&short_times());
        let sought = (times, Lists::Timely(Supposed { s, f: f + more }));
        if let Err(what) = judge_all(&mut random, &area, &list, sought, (flaw, judge)) {
            return Some((number, what));
        }
    }
    None
}

/// The same of the walks on the plans with five next hops.
fn first_bad_walk(flaw: Flaw, seed: u64) -> Option<(u64, String)> {
    let mut random = Random::for_case(seed, PART, 0);
    for (number, (area, list)) in (1..).zip(five_next_hops()) {
        if let Err(what) = judge_all(&mut random, &area, &list, UNTIMED, (flaw, walks)) {
            return Some((number, what));
        }
    }
    None
}

/// The times of a plan, and the lists by which its records are sought.
type Sought = (Times, Lists);
const UNTIMED: Sought = (WITHOUT_TIMERS, Lists::WithoutTicks);

/// Every record that the flawed model gets to from its plan, if that is accepted.
fn judge_all(
    random: &mut Random,
    area: &Area,
    list: &[u8],
    (times, lists): Sought,
    (flaw, judge): (Flaw, Judge),
) -> Result<(), String> {
    let planned = model_plan(area, times, list, PlanTables::filled(random, RIGHT_SIZES), flaw);
    if planned.answer != 0 {
        return Ok(());
    }
    let step = |record: &mut Record, call| Ok(step(record, call, flaw));
    search(&planned.record, lists, step, |visit| judge(&planned, visit)).map(|_| ())
}

/// The flawed model by itself on the same changes in two orders: after how many plans these differ, and in what.
fn first_other_plan(flaw: Flaw, seed: u64) -> Option<(u64, String)> {
    for number in 1..=MOST_SEARCHES {
        let mut random = Random::for_case(seed, PART, number);
        let n = random.between(2, 4);
        let (area, list) = small_area(&mut random, n);
        let reordered = in_another_order(&mut random, &list);
        let tables = PlanTables::filled(&mut random, RIGHT_SIZES);
        let first = model_plan(&area, WITHOUT_TIMERS, &list, tables.clone(), flaw);
        let other = model_plan(&area, WITHOUT_TIMERS, &reordered, tables, flaw);
        if let Err(what) = same_plan(&other, &first) {
            return Some((number, what));
        }
    }
    None
}

fn model_plan(area: &Area, times: Times, list: &[u8], mut tables: PlanTables, flaw: Flaw) -> Planned {
    tables.old.cells_mut().copy_from_slice(&area.metric);
    let mut record = Record::default();
    let request = Request { n: area.n, times, list };
    let answer = plan(request, &mut tables.lend(), &mut record, flaw);
    Planned { answer, record, tables }
}
