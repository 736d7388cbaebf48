//! The steps of an ordered update, on a plan's record.

use crate::limits::{STEP, WIDTH};
use crate::plan::Record;
use crate::refusal::Refusal;

const IDLE: u8 = 0;
const HOLDING: u8 = 1;
const ONGOING: u8 = 2;
const DONE: u8 = 3;

const LEARN: u8 = 1;
const RELEASE: u8 = 2;
const WRITE: u8 = 3;
const FINISH: u8 = 4;
const DELIVER: u8 = 5;
const TICK: u8 = 6;

#[derive(Clone, Copy, Debug, PartialEq, Eq)]
pub enum Answer {
    Ok,
    Ignored,
    Refused(Refusal),
}

/// One step, on the record in place.
pub fn step(record: &mut Record, kind: u8, a: u8, b: u8) -> Answer {
    take(record, kind, a, b).unwrap_or_else(Answer::Refused)
}

/// One step, with the record by value.
pub fn stepped(mut record: Record, kind: u8, a: u8, b: u8) -> (Record, Answer) {
    let answer = step(&mut record, kind, a, b);
    (record, answer)
}

/// All the steps that the bytes stand for, three bytes each, on the record in place.
pub fn run(record: &mut Record, steps: &[u8]) {
    for s in steps.chunks_exact(STEP) {
        step(record, s[0], s[1], s[2]);
    }
}

/// The same with the record by value.
pub fn run_by_value(mut record: Record, steps: &[u8]) -> Record {
    for s in steps.chunks_exact(STEP) {
        (record, _) = stepped(record, s[0], s[1], s[2]);
    }
    record
}

fn take(record: &mut Record, kind: u8, a: u8, b: u8) -> Result<Answer, Refusal> {
    if !is_record(record) {
        return Err(Refusal::Record);
    }
    if !(LEARN..=TICK).contains(&kind) {
        return Err(Refusal::Kind);
    }
    if kind == TICK {
        return tick(record);
    }
    let reads_b = kind == WRITE || kind == DELIVER;
    if a >= record.n || (reads_b && b >= record.n) {
        return Err(Refusal::UnknownRouter);
    }
    let (a, b) = (a as usize, b as usize);
    match kind {
        LEARN => learn(record, a),
        RELEASE => release(record, a),
        WRITE => write(record, a, b),
        FINISH => finish(record, a),
        _ => deliver(record, a, b),
    }
}

/// Is n a number of routers, and is every state one of the four?
fn is_record(record: &Record) -> bool {
    (1..=WIDTH).contains(&(record.n as usize)) && record.states.iter().all(|&state| state <= DONE)
}

fn tick(record: &mut Record) -> Result<Answer, Refusal> {
    record.clock = record.clock.checked_add(1).ok_or(Refusal::ClockEnd)?;
    Ok(Answer::Ok)
}

fn learn(record: &mut Record, r: usize) -> Result<Answer, Refusal> {
    if record.states[r] != IDLE {
        return Err(Refusal::State);
    }
    record.states[r] = HOLDING;
    record.learn_times[r] = record.clock;
    Ok(Answer::Ok)
}

fn release(record: &mut Record, r: usize) -> Result<Answer, Refusal> {
    if record.states[r] != HOLDING {
        return Err(Refusal::State);
    }
    if u64::from(record.clock) < held_until(record, r) {
        return Err(Refusal::TooEarly);
    }
    record.states[r] = ONGOING;
    Ok(Answer::Ok)
}

fn held_until(record: &Record, r: usize) -> u64 {
    u64::from(record.learn_times[r]) + u64::from(record.hold_time)
}

/// Does the router wait for another, with its due time still to come?
fn must_wait(record: &Record, r: usize) -> bool {
    let due_time = || held_until(record, r) + u64::from(record.ranks[r]) * u64::from(record.step_time);
    record.waiting[r] != 0 && u64::from(record.clock) < due_time()
}

fn write(record: &mut Record, r: usize, destination: usize) -> Result<Answer, Refusal> {
    if record.states[r] != ONGOING {
        return Err(Refusal::State);
    }
    if must_wait(record, r) {
        return Err(Refusal::Waiting);
    }
    let bit = 1 << destination;
    if record.due[r] & !record.written[r] & bit == 0 {
        return Err(Refusal::NotDue);
    }
    record.written[r] |= bit;
    Ok(Answer::Ok)
}

fn finish(record: &mut Record, r: usize) -> Result<Answer, Refusal> {
    if record.states[r] != ONGOING {
        return Err(Refusal::State);
    }
    if must_wait(record, r) {
        return Err(Refusal::Waiting);
    }
    if record.due[r] & !record.written[r] != 0 {
        return Err(Refusal::Unwritten);
    }
    record.states[r] = DONE;
    Ok(Answer::Ok)
}

fn deliver(record: &mut Record, from: usize, to: usize) -> Result<Answer, Refusal> {
    if record.states[from] != DONE {
        return Err(Refusal::NotDone);
    }
    if record.telling[from] >> to & 1 == 0 {
        return Err(Refusal::NotTold);
    }
    let bit = 1 << from;
    let listens = matches!(record.states[to], HOLDING | ONGOING);
    if !listens || record.waiting[to] & bit == 0 {
        return Ok(Answer::Ignored);
    }
    record.waiting[to] &= !bit;
    Ok(Answer::Ok)
}
