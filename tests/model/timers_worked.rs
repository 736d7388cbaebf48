//! Rank timers (02, No. 10), worked out by hand on C1: refusals of the times, lists of calls with ticks, and that a
//! loop forms where F + S is as large as the step time.

use crate::compare::{Comparison, same};
use crate::difference::{Difference, describe_step};
use crate::files::bytes;
use crate::flaw::Flaw;
use crate::lent::{PlanTables, RIGHT_SIZES};
use crate::needs::{missing, needs};
use crate::ofib::{Answer, Record};
use crate::plan::Times;
use crate::random::Random;
use crate::reachable::judge_pointers;
use crate::sheet::{following, sheet};
use crate::step::{CLOCK_END, DELIVER, FINISH, LEARN, RELEASE, TICK, WRITE, due_time, held_until, step};
use crate::text::{rehearsal, sheet_steps, unfinished};
use crate::timely::Supposed;
use crate::worked::{Example, FIRST_CHANGES, FIRST_LINKS, planned_with};

/// The routers 0 and 2 wait for none and have rank 0. Router 1 waits for both and has rank 1. To router 2, router 0
/// goes by 1 before the change, and 1 goes by 0 after it. Three routers, four writes and two messages make 15 calls.
const C1: Example = (3, &FIRST_LINKS, &FIRST_CHANGES);

/// Any two bytes.
const TICKED: [u8; 3] = [TICK, 255, 255];

/// Calls and their answers: 0, the number of a refusal, or `IGNORED`.
type Calls = [([u8; 3], u8)];
const IGNORED: u8 = 255;

/// Router 1 learns at 1, so with a hold time of 2 and a step time of 3 it is held until 3, and its due time is 6.
/// Router 0 learns at 5 and is held until 7.
const BY_THE_TIMER: &Calls = &[
    (TICKED, 0),
    ([LEARN, 1, 0], 0),
    ([RELEASE, 0, 0], 23),
    ([RELEASE, 1, 0], 34),
    (TICKED, 0),
    ([RELEASE, 1, 0], 34),
    (TICKED, 0),
    ([RELEASE, 1, 0], 0),
    ([WRITE, 1, 2], 24),
    (TICKED, 0),
    (TICKED, 0),
    ([LEARN, 0, 0], 0),
    ([WRITE, 1, 2], 24),
    ([FINISH, 1, 0], 24),
    (TICKED, 0),
    ([FINISH, 1, 0], 26),
    ([WRITE, 1, 2], 0),
    ([WRITE, 1, 2], 25),
    ([RELEASE, 0, 0], 34),
    (TICKED, 0),
    ([RELEASE, 0, 0], 0),
    ([WRITE, 0, 2], 0),
    ([FINISH, 0, 0], 0),
];

/// Router 1 is still ongoing, so it takes the message of router 0. It finishes though it waits for router 2.
const MESSAGE_TAKEN: &Calls = &[([DELIVER, 0, 1], 0), ([DELIVER, 0, 1], IGNORED), ([FINISH, 1, 0], 0)];

/// Router 1 finishes though it waits for both, and then it does not listen.
const MESSAGE_IGNORED: &Calls = &[([FINISH, 1, 0], 0), ([DELIVER, 0, 1], IGNORED)];

/// A list with ticks after each call of which the record is timely with F + S as large as the step time. In the end
/// router 1 has written destination 2 and router 0 has not, so that each points to the other.
struct Loop {
    times: Times,
    supposed: Supposed,
    calls: &'static [[u8; 3]],
}

const LOOPS: [Loop; 3] = [
    // Router 1 has learned at 0, and router 0 may be idle until the clock is past 1.
    Loop {
        times: Times { hold: 0, step: 1 },
        supposed: Supposed { s: 1, f: 0 },
        calls: &[[LEARN, 1, 0], TICKED, [RELEASE, 1, 0], [WRITE, 1, 2]],
    },
    // All have learned at 0, and router 0 may be ongoing until the clock is past 1.
    Loop {
        times: Times { hold: 0, step: 1 },
        supposed: Supposed { s: 0, f: 1 },
        calls: &[
            [LEARN, 0, 0],
            [LEARN, 1, 0],
            [LEARN, 2, 0],
            TICKED,
            [RELEASE, 1, 0],
            [WRITE, 1, 2],
        ],
    },
    // Router 1 has learned at 0, and its due time is 3. That of routers 0 and 2, which have learned at 1, is 2, and
    // they may be ongoing until the clock is past 3.
    Loop {
        times: Times { hold: 1, step: 2 },
        supposed: Supposed { s: 1, f: 1 },
        calls: &[
            [LEARN, 1, 0],
            TICKED,
            [LEARN, 0, 0],
            [LEARN, 2, 0],
            [RELEASE, 1, 0],
            TICKED,
            TICKED,
            [WRITE, 1, 2],
        ],
    },
];

/// C1 as a bench file with hold time 1 and step time 2. Router 1, which learns at 0 and waits for 0 and 2, is held
/// until 1, and writes and finishes by its timer at 3. Router 2 learns at 3.
const FILE: &str = "03 0006 0001000001 0100000001 0102000001 0201000001 0002000003 0200000003 \
    02 0102FFFFFF 0201FFFFFF 0001 0002 \
    0010 010000 010100 020100 06FFFF 020100 06FFFF 030102 060000 030102 040100 010200 \
    020000 030002 040000 050001 010200";

const STEPS: &str = "\
step 1 ok
step 2 ok
step 3 refused 34
step 4 ok
step 5 ok
step 6 ok
step 7 refused 24
step 8 ok
step 9 ok
step 10 ok
step 11 ok
step 12 ok
step 13 ok
step 14 ok
step 15 ignored
step 16 refused 23
end
";

/// Nine calls were answered ok, not counting the ticks. Router 2 is short of its release, its finish and two writes,
/// and the two messages to router 1 will not be taken any more.
const UNFINISHED: &str = "\
router 2 holding waits none unwritten 0 1 holds until 4
missing 6
";

/// The same after the first two steps, and after seven.
const UNFINISHED_AT_TWO: &str = "\
router 0 holding waits none unwritten 2 holds until 1
router 1 holding waits 0 2 unwritten 2 holds until 1 waits until 3
router 2 idle waits none unwritten 0 1
missing 13
";
const UNFINISHED_AT_SEVEN: &str = "\
router 0 holding waits none unwritten 2 holds until 1
router 1 ongoing waits 0 2 unwritten 2 waits until 3
router 2 idle waits none unwritten 0 1
missing 12
";

/// The steps of its sheet, with a tick between the learns and the releases.
const SHEET: &str = "\
0010
01 00 00
01 01 00
01 02 00
06 00 00
02 00 00
02 01 00
02 02 00
03 00 02
04 00 00
05 00 01
03 02 00
03 02 01
04 02 00
05 02 01
03 01 02
04 01 00
";

pub fn check_model() -> Result<(), String> {
    plans()?;
    sums()?;
    for rest in [MESSAGE_TAKEN, MESSAGE_IGNORED] {
        let mut record = fresh(Times { hold: 2, step: 3 });
        follow(&mut record, BY_THE_TIMER)?;
        follow(&mut record, rest)?;
        same("learn times", &record.learn_times[..3], &[5, 1, 0])?;
        // Router 2 is idle.
        let left = if rest == MESSAGE_TAKEN { 1 } else { 2 };
        same("missing after the timer", missing(&record, Flaw::None), 3 + 2 + left)?;
    }
    all_done_without_messages()?;
    clock_end()?;
    followed_sheet()?;
    LOOPS.iter().try_for_each(check_loop)?;
    texts()
}

fn fresh(times: Times) -> Record {
    planned_with(C1, times, Flaw::None).1
}

fn answer_of(number: u8) -> Answer {
    match number {
        0 => Answer::Ok,
        IGNORED => Answer::Ignored,
        number => Answer::Refused(number),
    }
}

fn follow(record: &mut Record, calls: &Calls) -> Result<(), String> {
    for &(call, wanted) in calls {
        let clock = record.clock;
        let answer = step(record, call, Flaw::None);
        same(&format!("call {call:?} at {clock}"), answer, answer_of(wanted))?;
    }
    Ok(())
}

/// 36 after 3, and before 10; the times in the record, and none after a refusal.
fn plans() -> Result<(), String> {
    let of = |example: Example, hold, step| {
        let (answer, record, _) = planned_with(example, Times { hold, step }, Flaw::None);
        (answer, record.hold_time, record.step_time)
    };
    let (n, links, changes) = C1;
    same("times of a plan", of(C1, 65_535, 1), (0, 65_535, 1))?;
    same("the longest step time", of(C1, 0, 65_535), (0, 0, 65_535))?;
    same("no step time", of(C1, 7, 0), (36, 0, 0))?;
    same("no step time and no router", of((0, links, changes), 7, 0), (3, 0, 0))?;
    same("no step time and no change", of((n, links, &[]), 7, 0), (36, 0, 0))?;
    same("a step time and no change", of((n, links, &[]), 7, 1), (10, 0, 0))?;
    let record = fresh(Times { hold: 2, step: 3 });
    same(
        "clock and learn times",
        (record.clock, record.learn_times),
        (0, [0; 64]),
    )
}

/// The largest sums are above 32 bits.
fn sums() -> Result<(), String> {
    let mut record = fresh(Times {
        hold: 65_535,
        step: 65_535,
    });
    record.learn_times[1] = CLOCK_END;
    record.ranks[1] = 255;
    let times = (held_until(&record, 1, Flaw::None), due_time(&record, 1, Flaw::None));
    same("the largest sums", times, (4_295_032_830, 4_311_744_255))
}

/// Every router gets done, and no message comes: two of the 15 calls are missing for good.
fn all_done_without_messages() -> Result<(), String> {
    let mut record = fresh(Times { hold: 0, step: 1 });
    let learned = [0, 1, 2].map(|a| ([LEARN, a, 0], 0));
    let released = [0, 1, 2].map(|a| ([RELEASE, a, 0], 0));
    follow(&mut record, &learned)?;
    follow(&mut record, &released)?;
    follow(&mut record, &[([WRITE, 1, 2], 24), (TICKED, 0), ([WRITE, 1, 2], 0)])?;
    follow(
        &mut record,
        &[([WRITE, 0, 2], 0), ([WRITE, 2, 0], 0), ([WRITE, 2, 1], 0)],
    )?;
    follow(&mut record, &[0, 1, 2].map(|a| ([FINISH, a, 0], 0)))?;
    same("waiting sets in the end", &record.waiting[..3], &[0, 5, 0])?;
    same("missing in the end", missing(&record, Flaw::None), 2)
}

fn clock_end() -> Result<(), String> {
    let mut record = fresh(Times { hold: 0, step: 1 });
    record.clock = CLOCK_END - 1;
    follow(&mut record, &[(TICKED, 0), (TICKED, 35), ([LEARN, 0, 0], 0)])?;
    same(
        "the clock at its end",
        (record.clock, record.learn_times[0]),
        (CLOCK_END, CLOCK_END),
    )
}

/// With a hold time of 3 there are three ticks between the learns and the releases.
fn followed_sheet() -> Result<(), String> {
    let record = fresh(Times { hold: 3, step: 2 });
    let routers = sheet(&record, [0; 64], Flaw::None);
    same("C1 with times, sheet", &routers[..3], &[0, 2, 1])?;
    let calls = following(&record, &routers[..3], Flaw::None);
    same("C1 with times, calls", calls.len(), needs(&record, Flaw::None) + 3)?;
    let kinds: Vec<u8> = calls[..9].iter().map(|call| call[0]).collect();
    same(
        "C1 with times, the first calls",
        kinds,
        [LEARN, TICK, RELEASE].map(|kind| [kind; 3]).concat(),
    )
}

/// Each call is answered ok and leaves a timely record, but not by any F and S that are below the step time together.
fn check_loop(case: &Loop) -> Result<(), String> {
    let Loop { times, supposed, calls } = case;
    let what = format!("{times:?}, {supposed:?}");
    same(&what, supposed.s + supposed.f, times.step.into())?;
    let (_, mut record, tables) = planned_with(C1, *times, Flaw::None);
    let mut covered: Vec<Supposed> = Supposed::all(times.step).collect();
    for &call in *calls {
        same(
            &format!("{what}, call {call:?}"),
            step(&mut record, call, Flaw::None),
            Answer::Ok,
        )?;
        same(
            &format!("{what}, timely after {call:?}"),
            supposed.is_timely(&record),
            true,
        )?;
        covered.retain(|smaller| smaller.is_timely(&record));
    }
    same(&format!("{what}, covered"), covered, Vec::new())?;
    let walk = judge_pointers(&tables, &record).map_err(|walk| walk.contains("cycle"));
    same(&format!("{what}, the pointers"), walk, Err(true))
}

fn texts() -> Result<(), String> {
    let mut tables = PlanTables::filled(&mut Random::for_case(0, 0, 6), RIGHT_SIZES);
    let [whole, at_two, at_seven] = files();
    let text = rehearsal(&whole, &mut tables.lend(), Flaw::None);
    let steps = text.split_once("needs 15\n").map(|(_, steps)| steps);
    same("a rehearsal with ticks", steps, Some(STEPS))?;
    let text = unfinished(&whole, &mut tables.lend(), Flaw::None);
    same("unfinished with ticks", text.as_str(), UNFINISHED)?;
    let text = unfinished(&at_two, &mut tables.lend(), Flaw::None);
    same("unfinished after two steps", text.as_str(), UNFINISHED_AT_TWO)?;
    let text = unfinished(&at_seven, &mut tables.lend(), Flaw::None);
    same("unfinished after seven steps", text.as_str(), UNFINISHED_AT_SEVEN)?;
    let text = sheet_steps(&whole, &mut tables.lend(), Flaw::None);
    same("steps of a sheet with a tick", text.as_str(), SHEET)
}

/// The file, and with two and seven of its 16 steps.
pub fn files() -> [Vec<u8>; 3] {
    let whole = bytes(FILE);
    let steps_at = whole.len() - 3 * 16;
    [16, 2, 7].map(|steps: u8| {
        let mut file = whole[..steps_at + 3 * usize::from(steps)].to_vec();
        file[steps_at - 1] = steps;
        file
    })
}

/// The same lists on the library.
pub fn compare_library(comparison: &mut Comparison) -> Result<(), Difference> {
    let by_the_timer = [MESSAGE_TAKEN, MESSAGE_IGNORED].map(|rest| {
        let calls = BY_THE_TIMER.iter().chain(rest);
        (Times { hold: 2, step: 3 }, calls.map(|&(call, _)| call).collect())
    });
    let loops = LOOPS.iter().map(|case| (case.times, case.calls.to_vec()));
    for (times, calls) in loops.chain(by_the_timer) {
        compare_calls(comparison, &fresh(times), &calls)?;
    }
    Ok(())
}

fn compare_calls(comparison: &mut Comparison, fresh: &Record, calls: &[[u8; 3]]) -> Result<(), Difference> {
    let (mut library, mut model) = (fresh.clone(), fresh.clone());
    let outcome = calls
        .iter()
        .try_for_each(|&call| comparison.step(&mut library, &mut model, call).map(|_| ()))
        .and_then(|()| comparison.run(fresh, calls.as_flattened()).map(|_| ()));
    outcome.map_err(|what| Difference::in_calls(what, describe_step(fresh, calls.as_flattened())))
}
