//! Bench files and stored ones: faultless, and with faults at chosen places.

use crate::areas::{self, Area};
use crate::changes;
use crate::flaw::Flaw;
use crate::lent::{PlanTables, RIGHT_SIZES};
use crate::needs::needs;
use crate::ofib::{CELLS, Record, WIDTH};
use crate::paths::{UNUSED, at, pairs};
use crate::plan::{Change, MOST_CHANGES, Request, Times, WITHOUT_TIMERS, plan};
use crate::random::Random;
use crate::read::{Format, MOST_STEPS};
use crate::step::step;
use crate::steps::Caller;
use crate::timers;

/// The parts of a file. The counts stand by themselves, so that they can be wrong.
#[derive(Clone)]
pub struct Parts {
    pub n: u8,
    pub link_count: usize,
    pub links: Vec<Change>,
    pub change_count: usize,
    pub changes: Vec<u8>,
    /// A stored file has none.
    pub times: Times,
    pub step_count: usize,
    pub steps: Vec<u8>,
}

impl Parts {
    /// With the times that go without ticks.
    pub fn new(n: usize, links: Vec<Change>, changes: Vec<u8>, steps: Vec<u8>) -> Parts {
        Parts {
            n: n as u8,
            link_count: links.len(),
            links,
            change_count: changes.len() / 5,
            changes,
            times: WITHOUT_TIMERS,
            step_count: steps.len() / 3,
            steps,
        }
    }

    pub fn bytes(&self) -> Vec<u8> {
        self.in_format(Format::New)
    }

    pub fn in_format(&self, format: Format) -> Vec<u8> {
        self.sections(format).concat()
    }

    fn sections(&self, format: Format) -> Vec<Vec<u8>> {
        let two = |number: u16| number.to_be_bytes().to_vec();
        let times = match format {
            Format::Old => Vec::new(),
            Format::New => [two(self.times.hold), two(self.times.step)].concat(),
        };
        vec![
            vec![self.n],
            two(self.link_count as u16),
            changes::bytes_of(&self.links),
            vec![self.change_count as u8],
            self.changes.clone(),
            times,
            two(self.step_count as u16),
            self.steps.clone(),
        ]
    }

    /// Where each section begins and ends.
    pub fn borders(&self, format: Format) -> Vec<usize> {
        let mut borders = vec![0];
        for section in self.sections(format) {
            borders.push(borders[borders.len() - 1] + section.len());
        }
        borders
    }
}

/// A file without a fault of Read's; its changes may be ones that Plan refuses.
pub fn faultless(random: &mut Random, most_routers: usize) -> Parts {
    with_dead_links(random, most_routers, 0)
}

/// A file without a fault of the old reader's if it has no times, now and then with dead links: of pairs that were not
/// used anyway, or of pairs that were.
pub fn stored(random: &mut Random, most_routers: usize) -> Parts {
    let percent = random.pick(&[0, 0, 0, 0, 0, 0, 20, 100]);
    let mut parts = with_dead_links(random, most_routers, percent);
    if random.chance(8) {
        let percent = random.pick(&[5, 50, 100]);
        for link in &mut parts.links {
            if random.chance(percent) {
                link.metric = UNUSED;
            }
        }
    }
    parts
}

/// A file that lists such a part of the pairs that are not used, often of just as many routers as there may be.
fn with_dead_links(random: &mut Random, most_routers: usize, percent: usize) -> Parts {
    let least = if random.chance(10) { most_routers } else { 1 };
    let n = random.between(least, most_routers);
    let mut area = areas::area_of_size(random, n);
    let mut list = changes::list(random, &mut area);
    list.truncate(list.len().min(5 * MOST_CHANGES) / 5 * 5);
    let times = timers::of_request(random, 2);
    let steps = steps_for(random, &area, times, &list);
    Parts {
        times,
        ..Parts::new(n, links_of(random, &area, percent), list, steps)
    }
}

/// The largest file that can be accepted: all links, all changes of a router, all steps.
pub fn largest(random: &mut Random) -> Parts {
    let area = areas::full_mesh(random, WIDTH);
    let router = random.below(WIDTH);
    let list = changes::bytes_of(&changes::router_down(&area, router));
    let steps = calls(random, &area, WITHOUT_TIMERS, &list, MOST_STEPS);
    Parts::new(WIDTH, links_of(random, &area, 0), list, steps)
}

/// How many steps a sheet of `long_sheet` can have: the fewest, about as many as a file can have, and the most.
pub const LONG_SHEETS: [usize; 5] = [
    FEWEST,
    MOST_STEPS - 1,
    MOST_STEPS,
    MOST_STEPS + 1,
    FEWEST + (WIDTH - 1) * (WIDTH - 2),
];
/// How often a run of many steps is stopped.
const STOPS: usize = 50;
/// Three of each router, the writes of router 0 and those to it, and a message from each other router to router 0.
const FEWEST: usize = 3 * WIDTH + 2 * (WIDTH - 1) + (WIDTH - 1);

/// All links of router 0, over which any two others reach each other at 2, go down. Two others write to each other,
/// unless their own link is better, so by the number of better ones the sheet has as many steps as wanted, or by it and
/// the hold time.
pub fn long_sheet(random: &mut Random, steps: usize) -> Parts {
    let most = steps - FEWEST;
    let hold = random.pick(&[0, most.min(1), most / 2, most]);
    let mut others: Vec<(usize, usize)> = pairs(WIDTH).filter(|&(i, j)| i > 0 && j > 0).collect();
    random.shuffle(&mut others);
    let mut metric = vec![1; CELLS];
    for &(i, j) in &others[..most - hold] {
        metric[at(i, j)] = random.pick(&[2, 3, 9]);
    }
    let area = Area { n: WIDTH, metric };
    let list = changes::bytes_of(&changes::router_down(&area, 0));
    Parts {
        times: Times {
            hold: hold as u16,
            step: 1,
        },
        ..Parts::new(WIDTH, links_of(random, &area, 0), list, Vec::new())
    }
}

/// A router of a full mesh goes down: a run that brings every router to its end, stopped after each step, or after each
/// of some steps where they are many, and not at all.
pub fn stopped(random: &mut Random, n: usize) -> Vec<Parts> {
    let area = areas::full_mesh(random, n);
    let list = changes::bytes_of(&changes::router_down(&area, random.below(n)));
    let times = Times {
        hold: random.below(4) as u16,
        step: random.between(1, 9) as u16,
    };
    let record = fresh(random, &area, times, &list).expect("a router that goes down is planned");
    let count = needs(&record, Flaw::None) + usize::from(times.hold);
    let caller = Caller::orderly(random);
    let steps = chosen(random, record, caller, count);
    let whole = Parts {
        times,
        ..Parts::new(n, links_of(random, &area, 0), list, steps)
    };
    let stops = (0..count).step_by(count.div_ceil(STOPS)).chain([count]);
    let stopped = |stop: usize| Parts {
        step_count: stop,
        steps: whole.steps[..3 * stop].to_vec(),
        ..whole.clone()
    };
    stops.map(stopped).collect()
}

/// The area's links in any order; such a part of the pairs that are not used is listed as well.
pub fn links_of(random: &mut Random, area: &Area, percent: usize) -> Vec<Change> {
    let link = |(i, j)| Change {
        from: i as u8,
        to: j as u8,
        metric: area.metric[at(i, j)],
    };
    let mut links: Vec<Change> = pairs(area.n).map(link).collect();
    links.retain(|link| link.metric < UNUSED || random.chance(percent));
    random.shuffle(&mut links);
    links
}

fn steps_for(random: &mut Random, area: &Area, times: Times, list: &[u8]) -> Vec<u8> {
    let most = random.pick(&[0, 3, 20, 20, 100, 300]);
    let count = random.between(0, most);
    calls(random, area, times, list, count)
}

/// Calls chosen along the run of the area's plan; any bytes where there is no plan.
fn calls(random: &mut Random, area: &Area, times: Times, list: &[u8], count: usize) -> Vec<u8> {
    let Some(record) = fresh(random, area, times, list) else {
        return random.bytes(3 * count);
    };
    let caller = Caller::new(random);
    chosen(random, record, caller, count)
}

/// The fresh record of the area's plan, where there is one.
fn fresh(random: &mut Random, area: &Area, times: Times, list: &[u8]) -> Option<Record> {
    let mut tables = PlanTables::filled(random, RIGHT_SIZES);
    tables.old.cells_mut().copy_from_slice(&area.metric);
    let mut record = Record::default();
    let request = Request { n: area.n, times, list };
    let answer = plan(request, &mut tables.lend(), &mut record, Flaw::None);
    (answer == 0).then_some(record)
}

/// So many calls of the caller's choice, from the record on.
fn chosen(random: &mut Random, mut record: Record, mut caller: Caller, count: usize) -> Vec<u8> {
    let mut bytes = Vec::new();
    for _ in 0..count {
        let call = caller.next(random, &record);
        step(&mut record, call, Flaw::None);
        bytes.extend(call);
    }
    bytes
}

/// Files that list all pairs of n routers: dead are the first link, the last, the one in the middle, all, every second
/// one, and any; then a dead link is listed twice.
pub fn dead_on_purpose(random: &mut Random, n: usize) -> Vec<Parts> {
    let area = areas::full_mesh(random, n);
    let links = links_of(random, &area, 0);
    let (middle, last) = (links.len() / 2, links.len() - 1);
    let any = random.next();
    let is_dead: [&dyn Fn(usize) -> bool; 7] = [
        &|place| place == 0,
        &|place| place == last,
        &|place| place == middle,
        &|_| true,
        &|place| place % 2 == 0,
        &|place| place % 2 == 1,
        &|place| any >> (place % 64) & 1 == 1,
    ];
    let change = Change {
        from: 0,
        to: 1,
        metric: UNUSED,
    };
    let whole = Parts::new(n, links, change.to_bytes().to_vec(), vec![1, 0, 0]);
    let mut files: Vec<Parts> = is_dead.iter().map(|dead| with_dead(&whole, dead)).collect();
    let mut twice = with_dead(&whole, |place| place == 0 || place == last);
    twice.links[last] = twice.links[0];
    files.push(twice);
    files
}

fn with_dead(whole: &Parts, is_dead: impl Fn(usize) -> bool) -> Parts {
    let mut parts = whole.clone();
    for (place, link) in parts.links.iter_mut().enumerate() {
        if is_dead(place) {
            link.metric = UNUSED;
        }
    }
    parts
}

/// What can be wrong in one link entry.
#[derive(Clone, Copy, Debug)]
pub enum LinkFault {
    UnknownRouter,
    SameRouter,
    ZeroMetric,
    Dead,
    Repeated,
    /// A dead link whose pair is listed before it.
    RepeatedDead,
}

pub const LINK_FAULTS: [LinkFault; 6] = [
    LinkFault::UnknownRouter,
    LinkFault::SameRouter,
    LinkFault::ZeroMetric,
    LinkFault::Dead,
    LinkFault::Repeated,
    LinkFault::RepeatedDead,
];

/// Puts a fault into the link at the place. The first link repeats none.
pub fn spoil_link(random: &mut Random, parts: &mut Parts, fault: LinkFault, place: usize) {
    let earlier = parts.links[random.below(place)];
    let unknown = random
        .pick(&[parts.n, parts.n.wrapping_add(1), 32, WIDTH as u8, 255])
        .max(parts.n);
    let link = &mut parts.links[place];
    match fault {
        LinkFault::UnknownRouter if random.chance(50) => link.from = unknown,
        LinkFault::UnknownRouter => link.to = unknown,
        LinkFault::SameRouter => link.to = link.from,
        LinkFault::ZeroMetric => link.metric = 0,
        LinkFault::Dead => link.metric = UNUSED,
        LinkFault::Repeated | LinkFault::RepeatedDead if place > 0 => {
            (link.from, link.to) = (earlier.from, earlier.to);
        }
        LinkFault::Repeated | LinkFault::RepeatedDead => {}
    }
    let may_be_dead = !matches!(fault, LinkFault::ZeroMetric);
    if matches!(fault, LinkFault::RepeatedDead) || may_be_dead && random.chance(10) {
        link.metric = UNUSED;
    }
}

/// A file with one to three faults, sometimes cut or lengthened as well.
pub fn faulty(random: &mut Random, most_routers: usize, format: Format) -> Vec<u8> {
    let mut parts = stored(random, most_routers);
    for _ in 0..random.between(1, 3) {
        spoil(random, &mut parts);
    }
    let mut file = parts.in_format(format);
    match random.below(10) {
        0 | 1 => file.truncate(random.below(file.len())),
        2 => {
            let more = random.between(1, 9);
            file.extend(random.bytes(more));
        }
        _ => {}
    }
    file
}

/// Puts one random fault anywhere into the file's parts.
pub fn spoil(random: &mut Random, parts: &mut Parts) {
    let n = usize::from(parts.n);
    match random.below(8) {
        0 => {
            let beyond = WIDTH as u8 + 1;
            parts.n = random.pick(&[
                0,
                beyond,
                2 * WIDTH as u8,
                255,
                parts.n.wrapping_sub(1),
                parts.n.wrapping_add(1),
            ]);
        }
        1 => parts.link_count = near(random, parts.link_count, n * n.saturating_sub(1), u16::MAX.into()),
        2 => parts.change_count = near(random, parts.change_count, MOST_CHANGES, u8::MAX.into()),
        3 => parts.step_count = near(random, parts.step_count, MOST_STEPS, u16::MAX.into()),
        4 => {
            let odd = random.between(1, 6);
            parts.steps.extend(random.bytes(odd));
        }
        _ if parts.links.is_empty() => parts.n = 0,
        _ => {
            let fault = random.pick(&LINK_FAULTS);
            let place = random.below(parts.links.len());
            spoil_link(random, parts, fault, place);
        }
    }
}

/// A count near the right one or near the largest that is allowed.
fn near(random: &mut Random, count: usize, most: usize, top: usize) -> usize {
    let choices = [
        count + 1,
        count.saturating_sub(1),
        most,
        most + 1,
        top,
        random.below(top + 1),
    ];
    random.pick(&choices).min(top)
}

/// Bytes that are no bench file, though often with a right number of routers and a small link count.
pub fn any_bytes(random: &mut Random) -> Vec<u8> {
    let length = random.pick(&[0, 1, 2, 3, 4, 5, 8, 20, 60, 200, 1000]);
    let mut file = random.bytes(length);
    if random.chance(70) && length > 3 {
        file[0] = random.between(1, WIDTH) as u8;
        file[1] = 0;
        file[2] = random.below(4) as u8;
    }
    file
}

/// Changes some bytes of a file.
pub fn alter(random: &mut Random, file: &mut [u8]) {
    for _ in 0..random.between(1, 4) {
        let place = random.below(file.len());
        if let Some(byte) = file.get_mut(place) {
            *byte = random.pick(&[0, 1, *byte ^ 1, *byte ^ 128, 255]);
        }
    }
}

/// Hexadecimal digits in pairs; from `#` to the end of a line is a comment.
pub fn bytes(text: &str) -> Vec<u8> {
    let digits = |line: &str| {
        let text = line.split('#').next().unwrap_or_default();
        text.chars().filter_map(|c| c.to_digit(16)).collect::<Vec<u32>>()
    };
    let digits: Vec<u32> = text.lines().flat_map(digits).collect();
    digits.chunks(2).map(|pair| (16 * pair[0] + pair[1]) as u8).collect()
}
