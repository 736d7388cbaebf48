//! The text of the rehearsal (01, "The rehearsal", with the line of 02, No. 8), of the routes, of the steps of the
//! running sheet, and of what is unfinished.

use std::fmt::Write;

use crate::course::is_counted;
use crate::flaw::Flaw;
use crate::needs::needs;
use crate::ofib::{Answer, Contents, Record, Set, Tables, WIDTH};
use crate::paths::{UNREACHED, at, pairs};
use crate::plan::{Request, Times, WITHOUT_TIMERS, plan};
use crate::read::{MOST_STEPS, read};
use crate::sets::{members, set_of};
use crate::sheet;
use crate::step::{DONE, HOLDING, IDLE, ONGOING, due_time, held_until, run, step};

/// What the text of a sheet with too many steps begins with; their number follows.
pub const TOO_MANY_STEPS: &str = "too many steps: ";

pub fn rehearsal(file: &[u8], t: &mut Tables, flaw: Flaw) -> String {
    match prepare(file, t, flaw) {
        Err(number) if flaw == Flaw::NeedsThoughRefused => format!("refused {number}\nneeds 0\n"),
        Err(number) => format!("refused {number}\n"),
        Ok((contents, record)) => {
            if flaw == Flaw::RehearsalExchanges {
                t.old_dist.swap_with_slice(t.new_dist);
            }
            let steps = steps_of(file, &contents);
            let needs = format!("needs {}\n", needs(&counted(&record, steps, t, flaw), flaw));
            let (routers, steps) = (router_lines(&record), step_lines(record, steps, flaw));
            match flaw {
                Flaw::NeedsAfterSteps => routers + &steps + &needs + "end\n",
                _ => routers + &needs + &steps + "end\n",
            }
        }
    }
}

/// The record whose sets are counted before the steps: the fresh one.
fn counted(fresh: &Record, steps: &[u8], t: &Tables, flaw: Flaw) -> Record {
    let mut record = fresh.clone();
    match flaw {
        Flaw::NeedsOfLast => run(&mut record, steps, flaw),
        Flaw::NeedsByDistances => {
            let n = usize::from(record.n);
            let moved = |r, d| t.old_dist[at(r, d)] != t.new_dist[at(r, d)];
            for r in 0..n {
                record.due[r] = set_of(n, |d| moved(r, d));
            }
        }
        _ => {}
    }
    record
}

/// After the last step, a line for each router that is not done: its state, those that it still waits for, what is due
/// and not written, the end of its hold time where it is holding, and its due time where it is holding or ongoing and
/// waits. Then how many calls are missing: as many as the plan needs but for those answered ok, ticks not counted.
pub fn unfinished(file: &[u8], t: &mut Tables, flaw: Flaw) -> String {
    let (contents, fresh) = match prepare(file, t, flaw) {
        Err(number) => return format!("refused {number}\n"),
        Ok(prepared) => prepared,
    };
    let mut last = fresh.clone();
    let mut oks = 0;
    for call in steps_of(file, &contents).chunks_exact(3) {
        let answer = step(&mut last, [call[0], call[1], call[2]], flaw);
        oks += i64::from(match flaw {
            Flaw::MissingByCalls => true,
            Flaw::MissingByIgnored if answer == Answer::Ignored => true,
            _ => is_counted(call[0], answer, flaw),
        });
    }
    let missing = needs(&fresh, flaw) as i64 - oks;
    let mut text = unfinished_lines(&fresh, &last, flaw);
    if missing != 0 || flaw != Flaw::MissingLineLeftOut {
        line(&mut text, format_args!("missing {missing}"));
    }
    text
}

fn unfinished_lines(fresh: &Record, last: &Record, flaw: Flaw) -> String {
    let mut text = String::new();
    for r in 0..usize::from(last.n) {
        if last.states[r] == DONE && flaw != Flaw::DonePrinted {
            continue;
        }
        let state = ["idle", "holding", "ongoing", "done"][usize::from(last.states[r])];
        let waits = match flaw {
            Flaw::WaitsOfFresh => fresh.waiting[r],
            _ => last.waiting[r],
        };
        let unwritten = match flaw {
            Flaw::UnwrittenAsDue => last.due[r],
            _ => last.due[r] & !last.written[r],
        };
        let (waits, unwritten) = (members_or_none(waits, flaw), members_or_none(unwritten, flaw));
        let times = times_of(last, r, flaw);
        line(
            &mut text,
            format_args!("router {r} {state} waits {waits} unwritten {unwritten}{times}"),
        );
    }
    text
}

/// Until when the router holds, and until when it waits at most where it waits for others.
fn times_of(record: &Record, r: usize, flaw: Flaw) -> String {
    let state = match (record.states[r], flaw) {
        (ONGOING, Flaw::HoldsThoughOngoing) | (IDLE, Flaw::IdleWithTimes) => HOLDING,
        (state, _) => state,
    };
    let held = match flaw {
        Flaw::HoldsWithoutHold => record.learn_times[r].into(),
        _ => held_until(record, r, flaw),
    };
    let waits = record.waiting[r] != 0 || flaw == Flaw::WaitsUntilThoughNone;
    let mut text = String::new();
    if state == HOLDING {
        text += &format!(" holds until {held}");
    }
    if matches!(state, HOLDING | ONGOING) && waits {
        text += &format!(" waits until {}", due_time(record, r, flaw));
    }
    match flaw {
        Flaw::TimesNotPrinted => String::new(),
        _ => text,
    }
}

fn members_or_none(set: Set, flaw: Flaw) -> String {
    if flaw == Flaw::SetsAsNumbers {
        return set.to_string();
    }
    let words: Vec<String> = members(set).map(|router| router.to_string()).collect();
    match words.is_empty() {
        true => "none".to_string(),
        false => words.join(" "),
    }
}

/// What the routes of a file begin with: the sets in them are the full ones.
const HEADING: &str = "full next-hop sets";

/// Behind the heading, one line for each ordered pair of different routers with a walk before or after the change:
/// distance and full next-hop set in the old topology and in the new one, or `none` where that topology has no walk.
pub fn routes(file: &[u8], t: &mut Tables, flaw: Flaw) -> String {
    let contents = match prepare(file, t, flaw) {
        Err(number) => {
            if flaw == Flaw::RoutesTouchRefused {
                t.new[0] ^= 1;
            }
            let heading = match flaw {
                Flaw::HeadingThoughRefused => format!("{HEADING}\n"),
                _ => String::new(),
            };
            return format!("{heading}refused {number}\n");
        }
        Ok((contents, _)) => contents,
    };
    let (old_sets, new_sets) = match flaw {
        Flaw::RoutesOfFours => (&t.old_fours, &t.new_fours),
        _ => (&t.old_hops, &t.new_hops),
    };
    let mut text = String::new();
    if flaw != Flaw::HeadingLeftOut {
        line(&mut text, format_args!("{HEADING}"));
    }
    for (i, j) in pairs(contents.n) {
        let cell = at(i, j);
        let (before, after) = (t.old_dist[cell] != UNREACHED, t.new_dist[cell] != UNREACHED);
        if (before || after) && (flaw != Flaw::RouteNeedsBoth || before == after) {
            let old = route(t.old_dist[cell], old_sets[cell]);
            let new = route(t.new_dist[cell], new_sets[cell]);
            line(&mut text, format_args!("route {i} {j} old {old} new {new}"));
        }
    }
    text
}

/// The steps of following the running sheet, in hexadecimal: their count in two bytes, and a line for each; or how many
/// they are, where a file cannot have as many.
pub fn sheet_steps(file: &[u8], t: &mut Tables, flaw: Flaw) -> String {
    let record = match prepare(file, t, flaw) {
        Err(number) => return format!("refused {number}\n"),
        Ok((_, record)) => record,
    };
    let sheet = sheet::sheet(&record, [0; WIDTH], flaw);
    let steps = sheet::following(&record, &sheet[..usize::from(record.n)], flaw);
    if steps.len() > MOST_STEPS && flaw != Flaw::AnySheetPrinted {
        return format!("{TOO_MANY_STEPS}{}\n", steps.len());
    }
    let mut text = format!("{:04X}\n", steps.len());
    for [kind, a, b] in steps {
        line(&mut text, format_args!("{kind:02X} {a:02X} {b:02X}"));
    }
    text
}

/// Read fills the old metrics and Plan the rest; the number of the refusal if one of them refuses.
pub fn prepare(file: &[u8], t: &mut Tables, flaw: Flaw) -> Result<(Contents, Record), u8> {
    let (refused, contents) = read(file, t.old, flaw);
    if refused != 0 {
        return Err(refused);
    }
    let request = Request {
        n: contents.n,
        times: match flaw {
            Flaw::FileTimesNotUsed => WITHOUT_TIMERS,
            _ => Times {
                hold: contents.hold_time,
                step: contents.step_time,
            },
        },
        list: &file[contents.changes_at..contents.changes_at + 5 * contents.changes],
    };
    let mut record = Record::default();
    match plan(request, t, &mut record, flaw) {
        0 => Ok((contents, record)),
        refused => Err(refused),
    }
}

fn router_lines(record: &Record) -> String {
    let mut text = String::new();
    for r in 0..usize::from(record.n) {
        let (rank, waits, tells, due) = (record.ranks[r], record.waiting[r], record.telling[r], record.due[r]);
        line(
            &mut text,
            format_args!("router {r} rank {rank} waits {waits} tells {tells} due {due}"),
        );
    }
    text
}

fn steps_of<'a>(file: &'a [u8], contents: &Contents) -> &'a [u8] {
    &file[contents.steps_at..contents.steps_at + 3 * contents.steps]
}

fn step_lines(mut record: Record, steps: &[u8], flaw: Flaw) -> String {
    let mut text = String::new();
    for (index, call) in steps.chunks_exact(3).enumerate() {
        let number = index + 1;
        match step(&mut record, [call[0], call[1], call[2]], flaw) {
            Answer::Ok => line(&mut text, format_args!("step {number} ok")),
            Answer::Ignored if flaw == Flaw::IgnoredAsOk => line(&mut text, format_args!("step {number} ok")),
            Answer::Ignored => line(&mut text, format_args!("step {number} ignored")),
            Answer::Refused(k) => line(&mut text, format_args!("step {number} refused {k}")),
        }
    }
    text
}

fn route(dist: u32, hops: Set) -> String {
    if dist == UNREACHED {
        "none".to_string()
    } else {
        format!("{dist} via {hops}")
    }
}

fn line(text: &mut String, words: std::fmt::Arguments) {
    text.write_fmt(words).expect("a string takes all text");
    text.push('\n');
}
