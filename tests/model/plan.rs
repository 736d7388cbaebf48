//! Plan: the new metrics, both topologies' paths and the fresh record (01, "The plan"; 02, No. 2, for the root, No. 4
//! for rise, fall and refusal 11, No. 9 for what is due, and No. 10 for the times).

use crate::flaw::Flaw;
use crate::ofib::{CELLS, Record, Set, Tables, WIDTH};
use crate::paths::{self, UNUSED, at, pairs, usable};
use crate::sets::{has, members, set_of};

pub const MOST_CHANGES: usize = 126;
pub const RISE: u8 = 1;
pub const FALL: u8 = 2;

/// One entry of the change list.
#[derive(Clone, Copy, Debug, PartialEq, Eq)]
pub struct Change {
    pub from: u8,
    pub to: u8,
    pub metric: u32,
}

impl Change {
    pub fn from_bytes(bytes: &[u8]) -> Change {
        Change {
            from: bytes[0],
            to: bytes[1],
            metric: u32::from_be_bytes([0, bytes[2], bytes[3], bytes[4]]),
        }
    }

    pub fn to_bytes(self) -> [u8; 5] {
        let [_, high, middle, low] = self.metric.to_be_bytes();
        [self.from, self.to, high, middle, low]
    }

    /// The cell of the link that is changed; both routers are below the width.
    pub fn cell(self) -> usize {
        at(self.from.into(), self.to.into())
    }

    fn has_end(self, router: u8) -> bool {
        self.from == router || self.to == router
    }

    fn same_pair(self, other: Change) -> bool {
        self.from == other.from && self.to == other.to
    }
}

pub fn changes_of(list: &[u8]) -> Vec<Change> {
    list.chunks_exact(5).map(Change::from_bytes).collect()
}

/// The hold time and the step time of a plan, in ticks (02, No. 10).
#[derive(Clone, Copy, Debug, PartialEq, Eq)]
pub struct Times {
    pub hold: u16,
    pub step: u16,
}

/// With these and without a tick, a plan goes as it did before there were times. A stored file gets them.
pub const WITHOUT_TIMERS: Times = Times { hold: 0, step: 1 };

/// What Plan is asked, beside its tables.
#[derive(Clone, Copy)]
pub struct Request<'a> {
    pub n: usize,
    pub times: Times,
    pub list: &'a [u8],
}

pub fn plan(request: Request, t: &mut Tables, record: &mut Record, flaw: Flaw) -> u8 {
    let Request { n, times, list } = request;
    *record = Record::default();
    let refused = refusal(request, t, flaw);
    if refused != 0 {
        return refused;
    }
    let changes = changes_of(list);
    apply(n, &changes, t.old, t.new);
    if flaw == Flaw::NewMetricsUsable {
        cut_half_links(n, t.new);
    }
    paths::fill(n, t.old, t.old_dist, t.old_hops, t.old_fours, flaw);
    paths::fill(n, t.new, t.new_dist, t.new_hops, t.new_fours, flaw);
    *record = fresh_record(n, &changes, t, flaw);
    (record.hold_time, record.step_time) = match flaw {
        Flaw::TimesExchanged => (times.step, times.hold),
        _ => (times.hold, times.step),
    };
    0
}

/// The number of the first refusal in the order of 01 and of 02, No. 10, or 0.
fn refusal(Request { n, times, list }: Request, t: &Tables, flaw: Flaw) -> u8 {
    let sizes = [
        t.new.len(),
        t.old_dist.len(),
        t.old_hops.len(),
        t.old_fours.len(),
        t.new_dist.len(),
        t.new_hops.len(),
        t.new_fours.len(),
    ];
    let common = paths::refusal(n, t.old, &sizes, flaw);
    let before_36: &[u8] = match flaw {
        Flaw::NoStepTimeFirst => &[],
        Flaw::NoStepTimeAfterSizes => &[3, 8],
        _ => &[3],
    };
    if times.step == 0 && !before_36.contains(&common) && flaw != Flaw::NoStepTimeTaken {
        return 36;
    }
    if common != 0 {
        return common;
    }
    if list.len() % 5 != 0 {
        return 1;
    }
    if list.len() / 5 > flaw.most_changes(Flaw::PlanUpTo62) {
        return 9;
    }
    if list.is_empty() {
        return 10;
    }
    let changes = changes_of(list);
    match first_fault(n, &changes) {
        Some((_, number)) => number,
        None if flaw == Flaw::DeadChangeRefused && changes.iter().any(|change| change.metric == UNUSED) => 30,
        None => together(n, t.old, &changes, flaw),
    }
}

/// The place and the number of the first faulty entry.
pub fn first_fault(n: usize, changes: &[Change]) -> Option<(usize, u8)> {
    (0..changes.len())
        .map(|place| (place, entry_fault(n, changes, place)))
        .find(|&(_, number)| number != 0)
}

fn entry_fault(n: usize, changes: &[Change], place: usize) -> u8 {
    let change = changes[place];
    if usize::from(change.from) >= n || usize::from(change.to) >= n {
        4
    } else if change.from == change.to {
        5
    } else if change.metric == 0 {
        6
    } else if changes[..place].iter().any(|&earlier| earlier.same_pair(change)) {
        7
    } else {
        0
    }
}

/// 11, 12 and 13: what is wrong with the changes together, of which no entry has a fault.
fn together(n: usize, old: &[u32], changes: &[Change], flaw: Flaw) -> u8 {
    let has_no_common = root(&deciding(n, old, changes, flaw), Flaw::None).is_none();
    let moved = moves(n, old, changes, flaw);
    match flaw {
        Flaw::CommonRouterFirst if has_no_common => return 13,
        Flaw::MixedFirst if !moved.rise && !moved.fall => return 12,
        Flaw::EqualEntry if with_effect(n, old, changes, flaw).len() < changes.len() => return 11,
        _ => {}
    }
    if !moved.rise && !moved.fall {
        11
    } else if direction(n, old, changes, flaw).is_none() {
        12
    } else if has_no_common {
        13
    } else {
        0
    }
}

/// Whether a metric of some pair becomes larger, and whether one becomes smaller.
#[derive(Clone, Copy, Debug, PartialEq, Eq)]
pub struct Moves {
    pub rise: bool,
    pub fall: bool,
}

impl Moves {
    fn between<T: Ord>(n: usize, before: &[T], after: &[T]) -> Moves {
        let cells = || pairs(n).map(|(i, j)| (&before[at(i, j)], &after[at(i, j)]));
        Moves {
            rise: cells().any(|(old, new)| old < new),
            fall: cells().any(|(old, new)| old > new),
        }
    }
}

/// How the usable metrics of all pairs move, also of pairs that are in no entry (02, No. 4).
pub fn moves(n: usize, old: &[u32], changes: &[Change], flaw: Flaw) -> Moves {
    let new = new_metrics(n, old, changes);
    Moves::between(n, &usable(n, old, flaw), &usable(n, &new, flaw))
}

/// How the metrics of the entries move.
pub fn raw_moves(n: usize, old: &[u32], changes: &[Change]) -> Moves {
    Moves::between(n, old, &new_metrics(n, old, changes))
}

/// The changes whose pairs have another usable metric after all of them.
pub fn with_effect(n: usize, old: &[u32], changes: &[Change], flaw: Flaw) -> Vec<Change> {
    let (before, after) = (usable(n, old, flaw), usable(n, &new_metrics(n, old, changes), flaw));
    let has_effect = |change: &&Change| before[change.cell()] != after[change.cell()];
    changes.iter().filter(has_effect).copied().collect()
}

/// Rise or fall by the pairs whose usable metrics differ; none where both occur, or neither.
fn direction(n: usize, old: &[u32], changes: &[Change], flaw: Flaw) -> Option<u8> {
    let moved = match flaw {
        Flaw::RawDirection => raw_moves(n, old, changes),
        _ => moves(n, old, changes, flaw),
    };
    match (moved.rise, moved.fall) {
        (true, false) => Some(RISE),
        (false, true) => Some(FALL),
        _ => None,
    }
}

/// The changes among which the common router is sought: all of them.
fn deciding(n: usize, old: &[u32], changes: &[Change], flaw: Flaw) -> Vec<Change> {
    match flaw {
        Flaw::RootByEffect => with_effect(n, old, changes, flaw),
        _ => changes.to_vec(),
    }
}

/// The router that is an end of every change; of two the one with the lower number (02, No. 2).
pub fn root(changes: &[Change], flaw: Flaw) -> Option<u8> {
    let first = changes.first()?;
    let is_common = |&router: &u8| changes.iter().all(|change| change.has_end(router));
    let mut routers = 0..WIDTH as u8;
    match flaw {
        Flaw::RootHigher => routers.rfind(is_common),
        Flaw::RootFarEnd => [first.to, first.from].into_iter().find(is_common),
        Flaw::RootLowerEnd => Some(first.from.min(first.to)),
        _ => routers.find(is_common),
    }
}

fn new_metrics(n: usize, old: &[u32], changes: &[Change]) -> Vec<u32> {
    let mut new = vec![UNUSED; CELLS];
    apply(n, changes, old, &mut new);
    new
}

/// The old metrics with the changes applied; all other cells say that there is no link.
fn apply(n: usize, changes: &[Change], old: &[u32], new: &mut [u32]) {
    new.fill(UNUSED);
    for (i, j) in pairs(n) {
        new[at(i, j)] = old[at(i, j)];
    }
    for change in changes {
        new[change.cell()] = change.metric;
    }
}

/// Takes the links out that are up at one end only.
fn cut_half_links(n: usize, metric: &mut [u32]) {
    for (i, j) in pairs(n) {
        if metric[at(i, j)] == UNUSED {
            metric[at(j, i)] = UNUSED;
        }
    }
}

fn fresh_record(n: usize, changes: &[Change], t: &Tables, flaw: Flaw) -> Record {
    let root = root(&deciding(n, t.old, changes, flaw), flaw).expect("the list has been judged");
    let direction = direction(n, t.old, changes, flaw).expect("the list has been judged");
    let mut record = Record {
        n: n as u8,
        root,
        direction,
        ..Record::default()
    };
    for r in 0..n {
        record.waiting[r] = waiting_set(n, r, root.into(), direction, t, flaw);
        record.due[r] = due(n, r, t, flaw);
    }
    let mut known = [None; WIDTH];
    for r in 0..n {
        record.telling[r] = set_of(n, |other| has(record.waiting[other], r));
        record.ranks[r] = rank(r, &record.waiting, &mut known, flaw);
    }
    record
}

/// In a rise, r waits for the routers that used r towards the root in the old topology; in a fall, for the routers that
/// r will use towards the root in the new one. Both are by the full sets.
fn waiting_set(n: usize, r: usize, root: usize, direction: u8, t: &Tables, flaw: Flaw) -> Set {
    let (old, new) = match flaw {
        Flaw::WaitingByFours => (&t.old_fours, &t.new_fours),
        _ => (&t.old_hops, &t.new_hops),
    };
    if direction == RISE || flaw == Flaw::FallAsRise {
        set_of(n, |other| has(old[at(other, root)], r))
    } else {
        new[at(r, root)]
    }
}

/// The destinations to which r has another set of four in the new topology (02, No. 9).
fn due(n: usize, r: usize, t: &Tables, flaw: Flaw) -> Set {
    let (old, new) = match flaw {
        Flaw::DueByFullSets => (&t.old_hops, &t.new_hops),
        _ => (&t.old_fours, &t.new_fours),
    };
    let differing = set_of(n, |d| old[at(r, d)] != new[at(r, d)]);
    flaw.cut_by(Flaw::DueOf32Bits, differing)
}

/// The links of the longest chain from r in which each router waits for the next. There is no cycle: along a chain the
/// distance to the root rises (in a rise) or falls (in a fall) with every link, since no metric is 0.
fn rank(r: usize, waiting: &[Set; WIDTH], known: &mut [Option<u8>; WIDTH], flaw: Flaw) -> u8 {
    if let Some(rank) = known[r] {
        return rank;
    }
    let behind: Vec<u8> = members(waiting[r])
        .map(|next| 1 + rank(next, waiting, known, flaw))
        .collect();
    let longest = match flaw {
        Flaw::ShortestRank => behind.iter().min(),
        _ => behind.iter().max(),
    };
    let rank = match longest {
        Some(links) => *links,
        None if flaw == Flaw::RankOffByOne => 1,
        None => 0,
    };
    known[r] = Some(rank);
    rank
}
