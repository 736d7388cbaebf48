//! Change lists: rises and falls, also with entries that have no effect, and lists with one or more faults.

use crate::areas::Area;
use crate::ofib::WIDTH;
use crate::paths::{UNUSED, at, pairs};
use crate::plan::{Change, MOST_CHANGES};
use crate::random::Random;

/// What can be wrong with a list, by the refusal that it is aimed at; an earlier fault may come first.
#[derive(Clone, Copy, Debug, PartialEq, Eq)]
pub enum Fault {
    UnknownRouter,
    SameRouter,
    ZeroMetric,
    Repeated,
    /// By itself it is 11; beside an entry that has an effect it is no fault.
    EqualMetric,
    OtherDirection,
    Elsewhere,
    /// An entry without effect, of two other routers.
    EqualElsewhere,
}

pub const FAULTS: [Fault; 8] = [
    Fault::UnknownRouter,
    Fault::SameRouter,
    Fault::ZeroMetric,
    Fault::Repeated,
    Fault::EqualMetric,
    Fault::OtherDirection,
    Fault::Elsewhere,
    Fault::EqualElsewhere,
];

/// A list for the area. The area itself may be changed, for a router or the end of a link that comes up.
pub fn list(random: &mut Random, area: &mut Area) -> Vec<u8> {
    match random.below(21) {
        0..=13 => bytes_of(&faultless(random, area)),
        20 => bytes_of(&without_effect(random, area)),
        14..=18 => faulty(random, area),
        _ => {
            let length = random.between(0, 6 * MOST_CHANGES);
            random.bytes(length)
        }
    }
}

pub fn bytes_of(changes: &[Change]) -> Vec<u8> {
    changes.iter().flat_map(|change| change.to_bytes()).collect()
}

/// A rise or a fall of links of one router, often with entries that have no effect; empty where the area has no link
/// that can move.
pub fn faultless(random: &mut Random, area: &mut Area) -> Vec<Change> {
    for _ in 0..4 {
        let router = random.below(area.n);
        let rise = random.chance(50);
        let mut changes = match random.below(10) {
            0 => router_down(area, router),
            1 => router_up(area, router),
            2 => one_end(random, area, router, rise),
            3 => against_raw(random, area, router, rise),
            kind => some_links(random, area, router, rise, kind),
        };
        if !changes.is_empty() {
            if random.chance(30) {
                add_idle(random, area, router, &mut changes);
            }
            random.shuffle(&mut changes);
            return changes;
        }
    }
    Vec::new()
}

/// The same entries in another order, which differs wherever two of them do; bytes that are no entry stay at the end.
pub fn in_another_order(random: &mut Random, list: &[u8]) -> Vec<u8> {
    let mut entries: Vec<&[u8]> = list.chunks_exact(5).collect();
    random.shuffle(&mut entries);
    let rest = list.chunks_exact(5).remainder();
    if entries.concat() == list[..list.len() - rest.len()] && !entries.is_empty() {
        entries.rotate_left(1);
    }
    [entries.concat().as_slice(), rest].concat()
}

fn links_of(n: usize, router: usize) -> impl Iterator<Item = (usize, usize)> {
    pairs(n).filter(move |&(i, j)| i == router || j == router)
}

fn change(i: usize, j: usize, metric: u32) -> Change {
    Change {
        from: i as u8,
        to: j as u8,
        metric,
    }
}

/// All links of the router go down.
pub fn router_down(area: &Area, router: usize) -> Vec<Change> {
    let used = links_of(area.n, router).filter(|&(i, j)| area.metric[at(i, j)] < UNUSED);
    used.map(|(i, j)| change(i, j, UNUSED)).collect()
}

/// The router's links are taken out of the area and come back by the list.
fn router_up(area: &mut Area, router: usize) -> Vec<Change> {
    let mut changes = Vec::new();
    for (i, j) in links_of(area.n, router) {
        let metric = std::mem::replace(&mut area.metric[at(i, j)], UNUSED);
        if metric < UNUSED {
            changes.push(change(i, j, metric));
        }
    }
    changes
}

/// Any link of the router that is up at its first end.
fn any_link(random: &mut Random, area: &Area, router: usize) -> Option<(usize, usize)> {
    let is_up = |&(i, j): &(usize, usize)| area.metric[at(i, j)] < UNUSED;
    let mut links: Vec<(usize, usize)> = links_of(area.n, router).filter(is_up).collect();
    random.shuffle(&mut links);
    links.first().copied()
}

/// One end of a link goes down, and with it the reverse, which is in no entry; or it comes up where the other end is.
fn one_end(random: &mut Random, area: &mut Area, router: usize, rise: bool) -> Vec<Change> {
    let Some((i, j)) = any_link(random, area, router) else {
        return Vec::new();
    };
    if rise {
        return vec![change(i, j, UNUSED)];
    }
    area.metric[at(j, i)] = UNUSED;
    vec![change(j, i, random.between(1, 6) as u32)]
}

/// Both directions of a link, one of which moves the other way than the usable metrics do: it becomes cheaper while the
/// reverse goes down, or dearer while the reverse comes up.
fn against_raw(random: &mut Random, area: &mut Area, router: usize, rise: bool) -> Vec<Change> {
    let Some((i, j)) = any_link(random, area, router) else {
        return Vec::new();
    };
    let metric = area.metric[at(i, j)];
    if rise {
        return vec![
            change(i, j, random.between(1, metric as usize) as u32),
            change(j, i, UNUSED),
        ];
    }
    area.metric[at(j, i)] = UNUSED;
    let dearer = random.between(metric as usize, UNUSED as usize - 1) as u32;
    vec![change(i, j, dearer), change(j, i, random.between(1, 6) as u32)]
}

/// Adds entries of the router's other links that have no effect.
fn add_idle(random: &mut Random, area: &Area, router: usize, changes: &mut Vec<Change>) {
    let is_free = |&(i, j): &(usize, usize)| !lists(changes, i, j) && !lists(changes, j, i);
    let links = links_of(area.n, router).filter(is_free).collect();
    let most = random.pick(&[1, 2, 5, MOST_CHANGES]).min(MOST_CHANGES - changes.len());
    changes.extend(idle(random, area, links, most));
}

/// A list in which no entry has an effect, of one router or of any.
fn without_effect(random: &mut Random, area: &Area) -> Vec<Change> {
    let router = random.below(area.n);
    let of_one = random.chance(50);
    let is_wanted = |&(i, j): &(usize, usize)| !of_one || i == router || j == router;
    let links = pairs(area.n).filter(is_wanted).collect();
    let most = random.pick(&[1, 1, 2, 3, MOST_CHANGES]);
    idle(random, area, links, most)
}

fn lists(changes: &[Change], i: usize, j: usize) -> bool {
    let ends = |change: &Change| (usize::from(change.from), usize::from(change.to));
    changes.iter().any(|change| ends(change) == (i, j))
}

/// Entries of some of these links that have no effect together, since one direction of each stays as it is.
fn idle(random: &mut Random, area: &Area, mut links: Vec<(usize, usize)>, most: usize) -> Vec<Change> {
    random.shuffle(&mut links);
    links.truncate(most);
    let mut changes = Vec::new();
    for (i, j) in links {
        let metric = if lists(&changes, j, i) {
            area.metric[at(i, j)]
        } else {
            idle_metric(random, area, i, j)
        };
        changes.push(change(i, j, metric));
    }
    changes
}

/// A metric of (i, j) that has no effect while the reverse stays: any one where that is not used, else the old one.
fn idle_metric(random: &mut Random, area: &Area, i: usize, j: usize) -> u32 {
    let old = area.metric[at(i, j)];
    if area.metric[at(j, i)] == UNUSED {
        random.pick(&[1, 2, 5, UNUSED - 1, UNUSED, old])
    } else {
        old
    }
}

/// One link in one direction, one in both, some or all links of the router.
fn some_links(random: &mut Random, area: &Area, router: usize, rise: bool, kind: usize) -> Vec<Change> {
    let movable = |&(i, j): &(usize, usize)| can_move(area.metric[at(i, j)], rise);
    let mut links: Vec<(usize, usize)> = links_of(area.n, router).filter(movable).collect();
    random.shuffle(&mut links);
    let Some(&(i, j)) = links.first() else {
        return Vec::new();
    };
    match kind {
        4 => links.truncate(1),
        5 | 6 => links.retain(|&link| link == (i, j) || link == (j, i)),
        7 | 8 => links.truncate(random.between(1, links.len())),
        _ => {}
    }
    links
        .into_iter()
        .map(|(i, j)| change(i, j, moved(random, area, area.metric[at(i, j)], rise)))
        .collect()
}

fn can_move(metric: u32, rise: bool) -> bool {
    if rise { metric < UNUSED } else { metric > 1 }
}

/// A metric above (rise) or below (fall) the given one, often one that makes two walks cost the same.
fn moved(random: &mut Random, area: &Area, metric: u32, rise: bool) -> u32 {
    let (low, high) = if rise { (metric + 1, UNUSED) } else { (1, metric - 1) };
    let (i, j) = (random.below(area.n), random.below(area.n));
    let wanted = match random.below(7) {
        0 => low,
        1 => high,
        2 => area.metric[at(i, j)],
        3 => random.between(1, 6) as u32,
        4 => metric.saturating_add(random.between(1, 4) as u32),
        5 => metric.saturating_sub(random.between(1, 4) as u32),
        _ => random.between(low as usize, high as usize) as u32,
    };
    wanted.clamp(low, high)
}

/// One to three faults in a list that had none, or a fault of the list's length.
fn faulty(random: &mut Random, area: &mut Area) -> Vec<u8> {
    let mut changes = faultless(random, area);
    let count = random.pick(&[0, 1, 1, 1, 1, 2, 3]);
    for _ in 0..count {
        let fault = random.pick(&FAULTS);
        let place = random.below(changes.len() + 1);
        spoil(random, area, &mut changes, fault, place);
    }
    let mut bytes = bytes_of(&changes);
    if count == 0 || random.chance(10) {
        spoil_length(random, &mut bytes);
    }
    bytes
}

/// Puts a fault at the place, in the entry that stands there or in one that is put there.
pub fn spoil(random: &mut Random, area: &Area, changes: &mut Vec<Change>, fault: Fault, place: usize) {
    let insert = place >= changes.len() || (changes.len() < MOST_CHANGES && random.chance(30));
    let sample = changes
        .get(place)
        .or(changes.last())
        .copied()
        .unwrap_or(change(0, area.n - 1, 5));
    if let Some(entry) = spoiled(random, area, changes, fault, place, sample) {
        if insert {
            changes.insert(place, entry);
        } else {
            changes[place] = entry;
        }
    }
}

/// The entry with the fault; none where the list or the area does not allow it.
fn spoiled(
    random: &mut Random,
    area: &Area,
    changes: &[Change],
    fault: Fault,
    place: usize,
    entry: Change,
) -> Option<Change> {
    match fault {
        Fault::UnknownRouter => Some(with_unknown_router(random, area, entry)),
        Fault::SameRouter => Some(Change {
            from: entry.to,
            ..entry
        }),
        Fault::ZeroMetric => Some(Change { metric: 0, ..entry }),
        Fault::Repeated => {
            let earlier = *changes[..place.min(changes.len())].get(random.below(place))?;
            let metric = random.pick(&[earlier.metric, entry.metric]);
            Some(Change { metric, ..earlier })
        }
        Fault::EqualMetric => Some(Change {
            metric: old_metric(area, entry)?,
            ..entry
        }),
        Fault::OtherDirection => {
            let old = old_metric(area, entry)?;
            let rise = entry.metric < old;
            can_move(old, rise).then(|| Change {
                metric: moved(random, area, old, rise),
                ..entry
            })
        }
        Fault::Elsewhere => elsewhere(random, area, entry),
        Fault::EqualElsewhere => {
            let (i, j) = apart(random, area, entry, |_| true)?;
            Some(change(i, j, idle_metric(random, area, i, j)))
        }
    }
}

/// One end or both become a router that the area does not have.
fn with_unknown_router(random: &mut Random, area: &Area, entry: Change) -> Change {
    let n = area.n as u8;
    let unknown = random.pick(&[n, n + 1, WIDTH as u8, WIDTH as u8 + 1, 128, 255]).max(n);
    match random.below(5) {
        0 => Change {
            from: unknown,
            to: unknown,
            ..entry
        },
        1 | 2 => Change { from: unknown, ..entry },
        _ => Change { to: unknown, ..entry },
    }
}

/// The old metric of the entry's link; none where the entry names no link.
fn old_metric(area: &Area, entry: Change) -> Option<u32> {
    let known = usize::from(entry.from.max(entry.to)) < area.n && entry.from != entry.to;
    known.then(|| area.metric[entry.cell()])
}

/// A change in the same direction between two routers of which neither is an end of the given entry.
fn elsewhere(random: &mut Random, area: &Area, entry: Change) -> Option<Change> {
    let rise = entry.metric > old_metric(area, entry)?;
    let (i, j) = apart(random, area, entry, |metric| can_move(metric, rise))?;
    Some(change(i, j, moved(random, area, area.metric[at(i, j)], rise)))
}

/// A pair with such a metric, of which neither router is an end of the given entry.
fn apart(random: &mut Random, area: &Area, entry: Change, is_wanted: impl Fn(u32) -> bool) -> Option<(usize, usize)> {
    let ends = [usize::from(entry.from), usize::from(entry.to)];
    let is_apart = |&(i, j): &(usize, usize)| !ends.contains(&i) && !ends.contains(&j);
    let mut links: Vec<(usize, usize)> = pairs(area.n).filter(is_apart).collect();
    links.retain(|&(i, j)| is_wanted(area.metric[at(i, j)]));
    random.shuffle(&mut links);
    links.first().copied()
}

/// A list that is empty, not a multiple of five bytes, or too long.
fn spoil_length(random: &mut Random, bytes: &mut Vec<u8>) {
    match random.below(4) {
        0 => bytes.clear(),
        1 => bytes.truncate(bytes.len().saturating_sub(random.between(1, 4))),
        2 => {
            let more = random.between(1, 4);
            bytes.extend(random.bytes(more));
        }
        _ => {
            let length = 5 * random.between(MOST_CHANGES + 1, MOST_CHANGES + 10) + random.pick(&[0, 0, 0, 1, 4]);
            let missing = length.saturating_sub(bytes.len());
            bytes.extend(random.bytes(missing));
        }
    }
}
