//! Lists of steps: orderly runs, also with ticks and lost messages, random calls, repeated and late messages, and any
//! bytes.

use crate::flaw::Flaw;
use crate::needs::needs;
use crate::ofib::{Record, Set, WIDTH};
use crate::random::Random;
use crate::sets::{has, members};
use crate::step::{DELIVER, DONE, FINISH, HOLDING, IDLE, LEARN, ONGOING, RELEASE, TICK, WRITE, due_time, held_until};
use crate::timers;

/// No list has more ticks than these that wait for timers.
const MOST_TICKS: u64 = 300;

/// Chooses calls one after the other, each from the record as it then is.
pub struct Caller {
    orderly_percent: usize,
    any_bytes_percent: usize,
    /// How often the clock ticks though a router can go on without it.
    tick_percent: usize,
    /// Routers that learn of the change only when no other router can go on, so that messages find them idle.
    late_learners: Set,
    /// Routers to which messages are lost, so that they go by their timers.
    unreached: Set,
    last: [u8; 3],
}

impl Caller {
    pub fn new(random: &mut Random) -> Caller {
        let (orderly_percent, any_bytes_percent) =
            random.pick(&[(100, 0), (95, 1), (70, 3), (40, 5), (0, 5), (0, 100)]);
        Caller {
            orderly_percent,
            any_bytes_percent,
            tick_percent: random.pick(&[0, 0, 5, 20]),
            late_learners: random.set(),
            unreached: if random.chance(50) { 0 } else { random.set() },
            last: [0; 3],
        }
    }

    /// Every call brings some router forward, as long as not all are done. Where the hold time is 0, there is no tick.
    pub fn orderly(random: &mut Random) -> Caller {
        Caller {
            orderly_percent: 100,
            any_bytes_percent: 0,
            tick_percent: 0,
            late_learners: random.set(),
            unreached: 0,
            last: [0; 3],
        }
    }

    pub fn next(&mut self, random: &mut Random, record: &Record) -> [u8; 3] {
        self.last = if random.chance(self.any_bytes_percent) {
            [random.byte(), random.byte(), random.byte()]
        } else if random.chance(self.orderly_percent) {
            self.orderly_call(random, record)
        } else {
            match random.below(10) {
                0 | 1 => self.last,
                2 | 3 => late(random, record),
                4 => edge(random, record),
                5 | 6 => hasty(random, record),
                _ => within(random, record),
            }
        };
        self.last
    }

    /// A call that brings some router forward, or a tick where there is none; a late message when all are done.
    fn orderly_call(&self, random: &mut Random, record: &Record) -> [u8; 3] {
        if all_done(record) {
            return late(random, record);
        }
        let tick = [TICK, random.byte(), random.byte()];
        if random.chance(self.tick_percent) {
            return tick;
        }
        self.useful(random, record).unwrap_or(tick)
    }

    /// A call that brings some router forward without a tick.
    fn useful(&self, random: &mut Random, record: &Record) -> Option<[u8; 3]> {
        let n = usize::from(record.n);
        let first = random.below(n);
        let routers = (0..n).map(|k| (first + k) % n);
        let (later, sooner): (Vec<usize>, Vec<usize>) =
            routers.partition(|&r| record.states[r] == IDLE && has(self.late_learners, r));
        sooner
            .into_iter()
            .chain(later)
            .find_map(|r| self.useful_for(random, record, r))
    }

    /// Learn, release and finish do not read b, so it is any byte.
    fn useful_for(&self, random: &mut Random, record: &Record, r: usize) -> Option<[u8; 3]> {
        let a = r as u8;
        let has_come = |time: u64| time <= record.clock.into();
        let can_be_released = has_come(held_until(record, r, Flaw::None));
        let can_write = record.waiting[r] == 0 || has_come(due_time(record, r, Flaw::None));
        match record.states[r] {
            IDLE => Some([LEARN, a, random.byte()]),
            HOLDING if can_be_released && random.chance(50) => Some([RELEASE, a, random.byte()]),
            HOLDING => match self.message_to(random, record, r) {
                None if can_be_released => Some([RELEASE, a, random.byte()]),
                message => message,
            },
            ONGOING if can_write && random.chance(80) => Some(write_or_finish(random, record, r)),
            ONGOING => match self.message_to(random, record, r) {
                None if can_write => Some(write_or_finish(random, record, r)),
                message => message,
            },
            _ => None,
        }
    }

    /// A message that router r waits for and that is not lost.
    fn message_to(&self, random: &mut Random, record: &Record, r: usize) -> Option<[u8; 3]> {
        if has(self.unreached, r) {
            return None;
        }
        let told = members(record.waiting[r]).filter(|&other| record.states[other] == DONE);
        let senders = told.fold(0, |set: Set, other| set | 1 << other);
        Some([DELIVER, member(random, senders)?, r as u8])
    }
}

fn write_or_finish(random: &mut Random, record: &Record, r: usize) -> [u8; 3] {
    match member(random, record.due[r] & !record.written[r]) {
        Some(destination) => [WRITE, r as u8, destination],
        None => [FINISH, r as u8, random.byte()],
    }
}

/// How many calls a list has: none, a few, or enough for a whole run of most plans.
pub fn length(random: &mut Random, record: &Record) -> usize {
    let routers = 0..usize::from(record.n);
    let last_due = routers.map(|r| due_time(record, r, Flaw::None)).max().unwrap_or(0);
    let whole = needs(record, Flaw::None) + last_due.min(MOST_TICKS) as usize;
    match random.below(10) {
        0 => 0,
        1 | 2 => random.between(1, 40),
        3..=6 => whole + random.below(10),
        _ => (whole + whole / 2).min(900),
    }
}

pub fn all_done(record: &Record) -> bool {
    record.states[..usize::from(record.n)]
        .iter()
        .all(|&state| state == DONE)
}

pub fn waits_for_none(record: &Record) -> bool {
    record.waiting.iter().all(|&set| set == 0)
}

/// A random call with routers of the area; the kind may be one that does not exist.
pub fn within(random: &mut Random, record: &Record) -> [u8; 3] {
    let n = usize::from(record.n).max(1);
    let kind = if random.chance(3) {
        random.byte()
    } else {
        random.between(LEARN.into(), TICK.into()) as u8
    };
    [kind, random.below(n) as u8, random.below(n) as u8]
}

/// A call in which one or both of the routers are the last ones of the area or the first ones beyond it.
pub fn edge(random: &mut Random, record: &Record) -> [u8; 3] {
    let near = [
        record.n.wrapping_sub(1),
        record.n,
        record.n.wrapping_add(1),
        31,
        32,
        WIDTH as u8 - 2,
        WIDTH as u8 - 1,
        WIDTH as u8,
        WIDTH as u8 + 1,
        255,
    ];
    let [kind, a, b] = within(random, record);
    match random.below(3) {
        0 => [kind, random.pick(&near), b],
        1 => [kind, a, random.pick(&near)],
        _ => [kind, random.pick(&near), random.pick(&near)],
    }
}

/// A completion message of a done router to one that it tells, whether or not that one still waits.
fn late(random: &mut Random, record: &Record) -> [u8; 3] {
    let done: Vec<usize> = (0..usize::from(record.n))
        .filter(|&r| record.states[r] == DONE)
        .collect();
    if done.is_empty() {
        return within(random, record);
    }
    let sender = random.pick(&done);
    match member(random, record.telling[sender]) {
        Some(receiver) => [DELIVER, sender as u8, receiver],
        None => within(random, record),
    }
}

/// A write or a finish of an ongoing router, whether or not its time has come.
fn hasty(random: &mut Random, record: &Record) -> [u8; 3] {
    let ongoing: Vec<usize> = (0..usize::from(record.n))
        .filter(|&r| record.states[r] == ONGOING)
        .collect();
    if ongoing.is_empty() {
        return within(random, record);
    }
    let router = random.pick(&ongoing);
    match member(random, record.due[router]) {
        Some(destination) if random.chance(60) => [WRITE, router as u8, destination],
        _ => [FINISH, router as u8, random.byte()],
    }
}

/// A random member of the set.
fn member(random: &mut Random, set: Set) -> Option<u8> {
    let start = random.below(WIDTH);
    (0..WIDTH)
        .map(|k| (start + k) % WIDTH)
        .find(|&router| has(set, router))
        .map(|router| router as u8)
}

/// A record that no plan gives: any numbers, with enough right ones that every refusal of Step comes up.
pub fn any_record(random: &mut Random) -> Record {
    let mut record = Record {
        n: random.between(1, WIDTH) as u8,
        ..Record::default()
    };
    if random.chance(5) {
        record.n = random.pick(&[0, WIDTH as u8 + 1, WIDTH as u8 + 2, 128, 255]);
    }
    record.root = random.byte();
    record.direction = random.byte();
    let favoured = random.below(4) as u8;
    for r in 0..WIDTH {
        let any = random.byte();
        record.ranks[r] = random.pick(&[0, 1, 2, 63, 255, any]);
        record.waiting[r] = random.set();
        record.telling[r] = random.set();
        record.due[r] = random.set();
        record.written[r] = if random.chance(40) {
            record.due[r] | random.set()
        } else {
            random.set()
        };
        record.states[r] = if random.chance(50) {
            favoured
        } else {
            random.below(4) as u8
        };
    }
    if random.chance(10) {
        record.states[random.below(WIDTH)] = random.pick(&[4, 5, 128, 255]);
    }
    if random.chance(2) {
        record.states.fill_with(|| random.byte());
    }
    timers::set_any(random, &mut record);
    record
}
