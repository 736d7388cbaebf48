//! Step: the machine of learn, release, write, finish and deliver (01, "The steps"), and of the ticks (02, No. 10).

use crate::flaw::Flaw;
use crate::ofib::{Answer, Record};
use crate::sets::has;

pub const LEARN: u8 = 1;
pub const RELEASE: u8 = 2;
pub const WRITE: u8 = 3;
pub const FINISH: u8 = 4;
pub const DELIVER: u8 = 5;
pub const TICK: u8 = 6;

pub const IDLE: u8 = 0;
pub const HOLDING: u8 = 1;
pub const ONGOING: u8 = 2;
pub const DONE: u8 = 3;

/// Where the clock stops.
pub const CLOCK_END: u32 = 4_294_967_295;

pub fn step(record: &mut Record, [kind, a, b]: [u8; 3], flaw: Flaw) -> Answer {
    let refused = refusal(record, kind, a, b, flaw);
    if refused != 0 {
        return Answer::Refused(refused);
    }
    let (a, b) = (usize::from(a), usize::from(b));
    match kind {
        TICK => record.clock = record.clock.wrapping_add(1),
        LEARN => learn(record, a, flaw),
        RELEASE => release(record, a, flaw),
        WRITE if flaw == Flaw::WriteMovesNothing => {}
        WRITE => record.written[a] |= flaw.cut_by(Flaw::WrittenOf32Bits, 1 << b),
        FINISH => record.states[a] = DONE,
        _ => return deliver(record, a, b, flaw),
    }
    if flaw == Flaw::TimerEndsWaiting && (kind == WRITE || kind == FINISH) {
        record.waiting[a] = 0;
    }
    Answer::Ok
}

/// All steps of a byte list; one or two bytes left over are no step.
pub fn run(record: &mut Record, steps: &[u8], flaw: Flaw) {
    for call in steps.chunks_exact(3) {
        step(record, [call[0], call[1], call[2]], flaw);
    }
}

/// When the router may be released at the earliest.
pub fn held_until(record: &Record, router: usize, flaw: Flaw) -> u64 {
    let (learned, hold) = (record.learn_times[router], record.hold_time);
    match flaw {
        Flaw::HeldOf32Bits => learned.wrapping_add(hold.into()).into(),
        _ => u64::from(learned) + u64::from(hold),
    }
}

/// From when on the router writes and finishes though it waits for others.
pub fn due_time(record: &Record, router: usize, flaw: Flaw) -> u64 {
    let held = match flaw {
        Flaw::DueWithoutHold => record.learn_times[router].into(),
        _ => held_until(record, router, Flaw::None),
    };
    let step_time = match flaw {
        Flaw::RankWithoutStepTime => 1,
        _ => record.step_time.into(),
    };
    let due = held + u64::from(record.ranks[router]) * step_time;
    match flaw {
        Flaw::DueTimeOf32Bits => u64::from(due as u32),
        Flaw::DueTickEarly => due.saturating_sub(1),
        Flaw::DueTickLate => due + 1,
        _ => due,
    }
}

fn learn(record: &mut Record, a: usize, flaw: Flaw) {
    record.states[a] = HOLDING;
    if flaw != Flaw::LearnTimeNotNoted && flaw != Flaw::LearnTimeAtRelease {
        record.learn_times[a] = record.clock;
    }
}

fn release(record: &mut Record, a: usize, flaw: Flaw) {
    record.states[a] = ONGOING;
    if flaw == Flaw::LearnTimeAtRelease {
        record.learn_times[a] = record.clock;
    }
}

/// A message is taken only by a router that has heard of the change, is not done, and still waits for the sender.
fn deliver(record: &mut Record, a: usize, b: usize, flaw: Flaw) -> Answer {
    let listens = match record.states[b] {
        HOLDING | ONGOING => flaw != Flaw::TimerEndsListening || !has_come(record, due_time(record, b, flaw)),
        IDLE => flaw == Flaw::IdleReceives,
        _ => false,
    };
    if !listens || !has(record.waiting[b], a) {
        return Answer::Ignored;
    }
    let struck = if flaw == Flaw::StruckModulo32 { a % 32 } else { a };
    record.waiting[b] &= !(1 << struck);
    Answer::Ok
}

/// The number of the first refusal in the order of 01 and of 02, No. 10, or 0.
fn refusal(record: &Record, kind: u8, a: u8, b: u8, flaw: Flaw) -> u8 {
    let most = flaw.most_routers(Flaw::StepUpTo32, Flaw::StepUpTo63);
    if record.n == 0 || usize::from(record.n) > most || record.states.iter().any(|&state| state > DONE) {
        return 20;
    }
    let last_kind = if flaw == Flaw::TickUnknown { DELIVER } else { TICK };
    if !(LEARN..=last_kind).contains(&kind) {
        return 21;
    }
    let reads_a = kind != TICK || flaw == Flaw::TickReadsA;
    let reads_b = kind == WRITE || kind == DELIVER || kind == TICK && flaw == Flaw::TickReadsB;
    if (reads_a && a >= record.n) || (reads_b && b >= record.n) {
        return 4;
    }
    let (a, b) = (usize::from(a), usize::from(b));
    match kind {
        TICK => unless(record.clock < CLOCK_END || flaw == Flaw::ClockStartsAnew, 35),
        LEARN => unless(record.states[a] == IDLE, 23),
        RELEASE => release_refusal(record, a, flaw),
        WRITE => write_refusal(record, a, b, flaw),
        FINISH => finish_refusal(record, a, flaw),
        _ if record.states[a] != DONE => 27,
        _ if flaw == Flaw::NothingDueNothingTold && record.due[a] == 0 => 28,
        _ => unless(has(record.telling[a], b), 28),
    }
}

fn unless(holds: bool, number: u8) -> u8 {
    if holds { 0 } else { number }
}

fn has_come(record: &Record, time: u64) -> bool {
    u64::from(record.clock) >= time
}

fn release_refusal(record: &Record, a: usize, flaw: Flaw) -> u8 {
    let held = held_until(record, a, flaw);
    let is_held = match flaw {
        Flaw::ReleaseTickEarly => !has_come(record, held.saturating_sub(1)),
        Flaw::ReleaseTickLate => !has_come(record, held + 1),
        _ => !has_come(record, held),
    };
    if is_held && flaw == Flaw::EarlyBeforeState {
        34
    } else if record.states[a] != HOLDING {
        23
    } else if is_held {
        34
    } else {
        0
    }
}

/// Whether the router's waiting set holds it back: not once its due time has come.
fn must_wait(record: &Record, a: usize, flaw: Flaw) -> bool {
    record.waiting[a] != 0 && !has_come(record, due_time(record, a, flaw))
}

fn write_refusal(record: &Record, a: usize, b: usize, flaw: Flaw) -> u8 {
    if record.states[a] != ONGOING {
        23
    } else if must_wait(record, a, flaw) {
        24
    } else if !has(record.due[a], b) || (has(record.written[a], b) && flaw != Flaw::WriteTwice) {
        25
    } else {
        0
    }
}

fn finish_refusal(record: &Record, a: usize, flaw: Flaw) -> u8 {
    let skips_waiting = flaw == Flaw::FinishUnordered && record.due[a] == 0;
    let waits = match flaw {
        Flaw::TimerForWritesOnly => record.waiting[a] != 0,
        _ => must_wait(record, a, flaw),
    };
    if record.states[a] != ONGOING {
        23
    } else if waits && !skips_waiting {
        24
    } else if record.due[a] & !record.written[a] != 0 {
        26
    } else {
        0
    }
}
