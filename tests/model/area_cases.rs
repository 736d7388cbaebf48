//! Random areas: Paths on both topologies, Plan, and a list of steps.

use crate::areas::{self, Area};
use crate::changes;
use crate::compare::{Comparison, Planned, records};
use crate::counts::Usable;
use crate::course::Course;
use crate::difference::{Difference, case_title, describe_area};
use crate::flaw::Flaw;
use crate::ofib::{self, CELLS, Record};
use crate::paths::{at, pairs, usable};
use crate::plan::{Change, Request, changes_of, first_fault, raw_moves, root, with_effect};
use crate::random::Random;
use crate::steps::{self, Caller};
use crate::timers;

/// The part's number in the seeds of its cases.
const PART: u64 = 1;
/// The first word of a case's title.
pub const KIND: &str = "area";

pub fn area_case(comparison: &mut Comparison, seed: u64, number: u64) -> Result<(), Difference> {
    let mut random = Random::for_case(seed, PART, number);
    let mut area = areas::area(&mut random);
    let list = &changes::list(&mut random, &mut area);
    let times = timers::of_request(&mut random, 2);
    let request = Request { n: area.n, times, list };
    compare_area(comparison, &mut random, &case_title(KIND, seed, number), &area, request)
}

/// One area, one list, and a list of steps that is chosen on the way.
pub fn compare_area(
    comparison: &mut Comparison,
    random: &mut Random,
    title: &str,
    area: &Area,
    request: Request,
) -> Result<(), Difference> {
    let mut calls = Vec::new();
    let Request { times, list, .. } = request;
    let outcome = compare_calls(comparison, random, area, request, &mut calls);
    outcome.map_err(|what| Difference::in_calls(what, describe_area(title, area, Some(times), list, &calls)))
}

fn compare_calls(
    comparison: &mut Comparison,
    random: &mut Random,
    area: &Area,
    request: Request,
    calls: &mut Vec<u8>,
) -> Result<(), String> {
    comparison.counts.areas += 1;
    comparison.counts.sizes[area.n] += 1;
    comparison.paths(random, area.n, &area.metric, [CELLS; 3])?;
    let planned = comparison.plan(random, request, &area.metric, [CELLS; 7])?;
    if planned.answer == 0 {
        let new = planned.tables.new.cells();
        comparison.paths(random, area.n, new, [CELLS; 3])?;
        let last = compare_steps(comparison, random, &planned.record, calls)?;
        compare_run(comparison, random, &planned.record, calls, &last)?;
    }
    count_place(comparison, area, request.list, planned.answer);
    count_usable(comparison, area, &changes_of(request.list), &planned);
    Ok(())
}

/// Each answer and each record on the way; gives the last record.
fn compare_steps(
    comparison: &mut Comparison,
    random: &mut Random,
    fresh: &Record,
    calls: &mut Vec<u8>,
) -> Result<Record, String> {
    let (mut library, mut model) = (fresh.clone(), fresh.clone());
    let mut caller = Caller::new(random);
    let mut course = Course {
        needs: comparison.needs(fresh)?,
        oks: 0,
    };
    for _ in 0..steps::length(random, fresh) {
        let call = caller.next(random, &library);
        calls.extend(call);
        let answer = comparison.step(&mut library, &mut model, call);
        let outcome = answer.and_then(|answer| course.went_on(comparison, call[0], answer, &library));
        outcome.map_err(|what| format!("{what}\n{}", before_last(fresh, calls)))?;
    }
    let is_finished = steps::all_done(&library);
    comparison.counts.progress.finished_runs += u64::from(is_finished && steps::waits_for_none(&library));
    comparison.counts.timers.finished_runs += u64::from(is_finished && !steps::waits_for_none(&library));
    Ok(library)
}

/// The library's record before the last call, in words.
fn before_last(fresh: &Record, calls: &[u8]) -> String {
    let mut record = fresh.clone();
    ofib::run(&mut record, &calls[..calls.len() - 3]);
    format!("record before that step: {record:?}")
}

/// The list as a whole, sometimes with one or two bytes more, which are no step.
fn compare_run(
    comparison: &mut Comparison,
    random: &mut Random,
    fresh: &Record,
    calls: &[u8],
    last: &Record,
) -> Result<(), String> {
    let left_over = random.below(3);
    let mut bytes = calls.to_vec();
    bytes.extend(random.bytes(left_over));
    let record = comparison.run(fresh, &bytes)?;
    records(
        "record after run beside the record after the single steps",
        &record,
        last,
    )
}

/// Where in its list a refused entry stands.
fn count_place(comparison: &mut Comparison, area: &Area, list: &[u8], answer: u8) {
    if matches!(answer, 4..=7)
        && let Some((place, number)) = first_fault(area.n, &changes_of(list))
    {
        comparison.counts.list_place(place, number);
    }
}

/// What the list shows of usable metrics.
fn count_usable(comparison: &mut Comparison, area: &Area, changes: &[Change], planned: &Planned) {
    let (n, old) = (area.n, &area.metric);
    if !matches!(planned.answer, 0 | 11 | 13) {
        return;
    }
    let raw = raw_moves(n, old, changes);
    let active = with_effect(n, old, changes, Flaw::None);
    let root_of_active = root(&active, Flaw::None);
    let seen = match planned.answer {
        0 => vec![
            (Usable::IdleEntry, active.len() < changes.len()),
            (Usable::RawMixed, raw.rise && raw.fall),
            (
                Usable::Unlisted,
                moves_unlisted(n, old, planned.tables.new.cells(), changes),
            ),
            (Usable::IdleRoot, root_of_active != Some(planned.record.root)),
        ],
        11 => vec![
            (Usable::RawDiffers, raw.rise || raw.fall),
            (Usable::SameNoCommon, root(changes, Flaw::None).is_none()),
        ],
        _ => vec![(Usable::IdleNoCommon, root_of_active.is_some())],
    };
    for (what, _) in seen.into_iter().filter(|&(_, is_seen)| is_seen) {
        comparison.counts.usable(what);
    }
}

/// Whether a pair that is in no entry has another usable metric.
fn moves_unlisted(n: usize, old: &[u32], new: &[u32], changes: &[Change]) -> bool {
    let (before, after) = (usable(n, old, Flaw::None), usable(n, new, Flaw::None));
    let is_listed = |cell| changes.iter().any(|change| change.cell() == cell);
    pairs(n)
        .map(|(i, j)| at(i, j))
        .any(|cell| before[cell] != after[cell] && !is_listed(cell))
}
