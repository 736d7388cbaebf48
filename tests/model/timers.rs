//! Times of plans and of any records, and what steps show of the clock and of rank timers (02, No. 10).

use crate::counts::require;
use crate::flaw::Flaw;
use crate::ofib::{Answer, Record, WIDTH};
use crate::plan::Times;
use crate::random::Random;
use crate::sets::has;
use crate::step::{CLOCK_END, DELIVER, DONE, FINISH, LEARN, ONGOING, RELEASE, TICK, WRITE, due_time, held_until};

/// The last clock from which on it is promised that a call is answered ok, after some ticks.
pub const LAST_PROMISED: u32 = 4_294_901_760;

const LONG: [u16; 7] = [255, 256, 257, 32_767, 32_768, 65_534, 65_535];

/// Of a plan: mostly short times, so that a list of calls sees them go by. The step time is not 0.
pub fn of_plan(random: &mut Random) -> Times {
    let hold = match random.below(500) {
        0..=199 => 0,
        200..=449 => random.between(1, 6),
        450..=498 => random.between(7, 60),
        _ => random.pick(&LONG).into(),
    };
    let step = match random.below(50) {
        0..=20 => 1,
        21..=40 => random.between(2, 4),
        41..=46 => random.between(5, 60),
        47 | 48 => random.pick(&LONG).into(),
        _ => random.between(1, 65_535),
    };
    Times {
        hold: hold as u16,
        step: step as u16,
    }
}

/// The same, but so often the step time is 0.
pub fn of_request(random: &mut Random, percent: usize) -> Times {
    let times = of_plan(random);
    match random.chance(percent) {
        true => Times { step: 0, ..times },
        false => times,
    }
}

/// Gives a record any times, clock and learn times. Many are such that the time of a router comes just now, or would if
/// sums had 32 bits.
pub fn set_any(random: &mut Random, record: &mut Record) {
    let mut time = || match random.below(4) {
        0 => 0,
        1 => random.between(1, 3) as u16,
        2 => random.pick(&LONG),
        _ => random.next() as u16,
    };
    (record.hold_time, record.step_time) = (time(), time());
    record.clock = match random.below(8) {
        0 => random.pick(&[CLOCK_END, CLOCK_END - 1, LAST_PROMISED, LAST_PROMISED + 1]),
        1 | 2 => random.below(10) as u32,
        3 => random.below(1 << 17) as u32,
        4 => CLOCK_END - random.below(1 << 17) as u32,
        _ => random.word(),
    };
    for router in 0..WIDTH {
        record.learn_times[router] = 0;
        let after = match random.below(2) {
            0 => held_until(record, router, Flaw::None),
            _ => due_time(record, router, Flaw::None),
        };
        let just_now = record.clock.wrapping_sub(after as u32);
        record.learn_times[router] = match random.below(8) {
            0 => 0,
            1 => record.clock,
            2 => random.word(),
            3 => just_now.wrapping_sub(1),
            4 | 5 => just_now.wrapping_add(1),
            _ => just_now,
        };
    }
}

/// What a call, its answer and the record after it can show.
type Shows = fn(&Record, [u8; 3], Answer) -> bool;

const SHOWN: [(&str, Shows); 13] = [
    ("learn at a clock above 0", |record, [kind, ..], answer| {
        kind == LEARN && answer == Answer::Ok && record.clock > 0
    }),
    (
        "release just when the hold time is over",
        |record, [kind, a, _], answer| {
            kind == RELEASE && answer == Answer::Ok && record.hold_time > 0 && to_release(record, a) == 0
        },
    ),
    ("34 one tick early", |record, [_, a, _], answer| {
        answer == Answer::Refused(34) && to_release(record, a) == 1
    }),
    ("34 by a sum above 32 bits", |record, [_, a, _], answer| {
        answer == Answer::Refused(34) && to_release(record, a) > i64::from(CLOCK_END - record.clock)
    }),
    ("write by the timer", |record, [kind, a, _], answer| {
        kind == WRITE && answer == Answer::Ok && waits(record, a)
    }),
    ("finish by the timer", |record, [kind, a, _], answer| {
        kind == FINISH && answer == Answer::Ok && waits(record, a)
    }),
    ("write just at the due time", |record, [kind, a, _], answer| {
        kind == WRITE && answer == Answer::Ok && waits(record, a) && to_due(record, a) == 0
    }),
    ("24 one tick before the due time", |record, [_, a, _], answer| {
        answer == Answer::Refused(24) && to_due(record, a) == 1
    }),
    ("24 by a due time above 32 bits", |record, [_, a, _], answer| {
        answer == Answer::Refused(24) && to_due(record, a) > i64::from(CLOCK_END - record.clock)
    }),
    (
        "message that is taken after the due time",
        |record, [kind, _, b], answer| {
            kind == DELIVER
                && answer == Answer::Ok
                && record.states[usize::from(b)] == ONGOING
                && to_due(record, b) <= 0
        },
    ),
    (
        "message to a router that is done by its timer",
        |record, [kind, a, b], answer| {
            kind == DELIVER
                && answer == Answer::Ignored
                && record.states[usize::from(b)] == DONE
                && has(record.waiting[usize::from(b)], a.into())
        },
    ),
    ("tick with bytes that are no routers", |record, [kind, a, b], answer| {
        kind == TICK && answer == Answer::Ok && a >= record.n && b >= record.n
    }),
    ("tick to the end of the clock", |record, [kind, ..], answer| {
        kind == TICK && answer == Answer::Ok && record.clock == CLOCK_END
    }),
];

/// How many ticks are missing until router a may be released.
fn to_release(record: &Record, a: u8) -> i64 {
    held_until(record, a.into(), Flaw::None) as i64 - i64::from(record.clock)
}

/// How many are missing until its due time.
fn to_due(record: &Record, a: u8) -> i64 {
    due_time(record, a.into(), Flaw::None) as i64 - i64::from(record.clock)
}

fn waits(record: &Record, a: u8) -> bool {
    record.waiting[usize::from(a)] != 0
}

/// How often each of these came up, and what was compared of lists with ticks.
#[derive(Default)]
pub struct Timers {
    shown: [u64; SHOWN.len()],
    /// Sheets that were followed with ticks before the releases.
    pub sheets: u64,
    /// Runs in which every router got done, though a message did not come.
    pub finished_runs: u64,
    /// Records of small plans after lists with ticks: the timely ones with the walks along their pointers, and those
    /// that need not be timely.
    pub timely_records: u64,
    pub walks: u64,
    pub other_records: u64,
}

impl Timers {
    /// A step, its answer and the record after it.
    pub fn step(&mut self, record: &Record, call: [u8; 3], answer: Answer) {
        for (seen, (_, shows)) in self.shown.iter_mut().zip(SHOWN) {
            *seen += u64::from(shows(record, call, answer));
        }
    }

    pub fn not_seen(&self, missing: &mut Vec<String>) {
        for (seen, (what, _)) in self.shown.iter().zip(SHOWN) {
            require(missing, *seen, || what.to_string());
        }
        require(missing, self.sheets, || "sheet followed with ticks".to_string());
        require(missing, self.finished_runs, || {
            "run in which every router is done, though a message did not come".to_string()
        });
    }

    pub fn print(&self) {
        for (seen, (what, _)) in self.shown.iter().zip(SHOWN) {
            println!("{what}: {seen}");
        }
        println!(
            "sheets followed with ticks: {}; runs in which every router got done, though a message did not come: {}",
            self.sheets, self.finished_runs
        );
        println!(
            "records after lists with ticks: {} timely, walks {}; {} timely or not",
            self.timely_records, self.walks, self.other_records
        );
    }
}
