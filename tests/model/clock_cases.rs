//! Direct calls about the clock (02, No. 10): where a router's time just comes, where sums leave 32 bits, what a tick
//! reads, and the last ticks of all.

use crate::compare::{Comparison, same};
use crate::difference::{Difference, describe_step};
use crate::direct_cases::compare_one_step;
use crate::flaw::Flaw;
use crate::ofib::{Answer, Record, WIDTH};
use crate::random::Random;
use crate::step::{CLOCK_END, FINISH, HOLDING, IDLE, LEARN, ONGOING, RELEASE, TICK, WRITE, due_time, held_until};
use crate::steps;
use crate::timers::LAST_PROMISED;

const LEARN_TIMES: [u32; 7] = [
    0,
    1,
    1 << 31,
    CLOCK_END - 255 * 65_535,
    CLOCK_END - 65_535,
    CLOCK_END - 1,
    CLOCK_END,
];
const TIMES: [u16; 4] = [0, 1, 256, 65_535];
const RANKS: [u8; 4] = [0, 1, 63, 255];

pub fn clock_cases(comparison: &mut Comparison, random: &mut Random) -> Result<(), Difference> {
    for (hold_time, step_time) in TIMES.iter().flat_map(|&hold| TIMES.map(|step| (hold, step))) {
        for (learn_time, rank) in LEARN_TIMES.iter().flat_map(|&time| RANKS.map(|rank| (time, rank))) {
            let mut record = sound_record(random);
            let router = random.below(record.n.into());
            (record.hold_time, record.step_time) = (hold_time, step_time);
            (record.learn_times[router], record.ranks[router]) = (learn_time, rank);
            around_each_time(comparison, random, record, router)?;
        }
    }
    each_byte_of_a_tick(comparison, random)?;
    last_ticks(comparison, random)
}

/// Any record that is not refused with 20.
fn sound_record(random: &mut Random) -> Record {
    let mut record = steps::any_record(random);
    record.n = random.between(1, WIDTH) as u8;
    record.states = record.states.map(|state| state % 4);
    record
}

/// Calls of the router with the clock at the end of its hold time and at its due time, one tick before and one after.
/// Where the clock does not get there, it is at its end, and where it would be if sums had 32 bits.
fn around_each_time(
    comparison: &mut Comparison,
    random: &mut Random,
    mut record: Record,
    router: usize,
) -> Result<(), Difference> {
    let (held, due) = (
        held_until(&record, router, Flaw::None),
        due_time(&record, router, Flaw::None),
    );
    let around = [held, due].map(|time| [time.saturating_sub(1), time, time + 1]);
    for clock in around.concat() {
        for clock in [clock.min(CLOCK_END.into()), clock] {
            record.clock = clock as u32;
            calls_of_all_kinds(comparison, random, record.clone(), router)?;
        }
    }
    Ok(())
}

/// Release where it is holding, and write and finish where it is ongoing and waits for none, for router 0 and for any.
fn calls_of_all_kinds(
    comparison: &mut Comparison,
    random: &mut Random,
    mut record: Record,
    router: usize,
) -> Result<(), Difference> {
    let a = router as u8;
    record.states[router] = HOLDING;
    compare_one_step(comparison, &record, [RELEASE, a, random.byte()])?;
    record.states[router] = ONGOING;
    record.due[router] |= 1;
    for waiting in [0, 1, random.set()] {
        record.waiting[router] = waiting;
        record.written[router] = record.due[router] & !1;
        compare_one_step(comparison, &record, [WRITE, a, 0])?;
        record.written[router] = record.due[router];
        compare_one_step(comparison, &record, [FINISH, a, random.byte()])?;
    }
    Ok(())
}

/// A tick is answered ok whatever the two bytes are.
fn each_byte_of_a_tick(comparison: &mut Comparison, random: &mut Random) -> Result<(), Difference> {
    for byte in 0..=255 {
        for [a, b] in [[byte, 0], [0, byte], [byte, byte], [255, 255]] {
            let mut record = sound_record(random);
            record.clock = record.clock.min(CLOCK_END - 1);
            let answer = compare_one_step(comparison, &record, [TICK, a, b])?;
            let is_ok = same("a tick", answer, Answer::Ok);
            is_ok.map_err(|what| Difference::in_calls(what, describe_step(&record, &[TICK, a, b])))?;
        }
    }
    Ok(())
}

/// A router learns at the last clock of which anything is promised, and the hold time is the longest: it can be
/// released with the last tick of all.
fn last_ticks(comparison: &mut Comparison, random: &mut Random) -> Result<(), Difference> {
    let mut record = sound_record(random);
    let router = random.below(record.n.into());
    record.states[router] = IDLE;
    (record.clock, record.hold_time) = (LAST_PROMISED, u16::MAX);
    let outcome = compare_last_ticks(comparison, &record, router as u8);
    outcome.map_err(|what| Difference::in_calls(what, describe_step(&record, &[])))
}

fn compare_last_ticks(comparison: &mut Comparison, record: &Record, router: u8) -> Result<(), String> {
    let ticks = [TICK, 255, 255].repeat(u16::MAX.into());
    let mut learned = record.clone();
    answers(comparison, &mut learned, [LEARN, router, 0], Answer::Ok)?;
    let mut early = comparison.run(&learned, &ticks[3..])?;
    answers(comparison, &mut early, [RELEASE, router, 0], Answer::Refused(34))?;
    let mut last = comparison.run(&learned, &ticks)?;
    same("the clock after the last tick", last.clock, CLOCK_END)?;
    answers(comparison, &mut last, [TICK, 0, 0], Answer::Refused(35))?;
    answers(comparison, &mut last, [RELEASE, router, 0], Answer::Ok)
}

/// One step of the record, of which it is known how it is answered.
fn answers(comparison: &mut Comparison, record: &mut Record, call: [u8; 3], wanted: Answer) -> Result<(), String> {
    let mut model = record.clone();
    let answer = comparison.step(record, &mut model, call)?;
    same(&format!("answer to step {call:?}"), answer, wanted)
}
