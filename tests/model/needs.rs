//! How many calls answered ok bring a plan to its end (02, No. 8), and how many of them a record is short of. Ticks are
//! not among them (No. 10).

use crate::flaw::Flaw;
use crate::ofib::{Record, Set, WIDTH};
use crate::step::DONE;

/// 3 × n, the sizes of all due sets and the sizes of all waiting sets of the fresh record. Any other record is counted
/// likewise: its routers below n, of which those that have no entry in the tables have empty sets.
pub fn needs(fresh: &Record, flaw: Flaw) -> usize {
    let routers = match flaw {
        Flaw::NeedsUpTo64 => usize::from(fresh.n).min(WIDTH),
        _ => usize::from(fresh.n),
    };
    let (due, waiting) = match flaw {
        Flaw::NeedsBeyondN => (&fresh.due[..], &fresh.waiting[..]),
        _ => (below_n(fresh, &fresh.due), below_n(fresh, &fresh.waiting)),
    };
    let due = match flaw {
        Flaw::DueOnceForAll => size(due.iter().fold(0, |all, set| all | set), flaw),
        _ => sizes(due, flaw),
    };
    let of_states = if flaw == Flaw::NeedsTwoEach { 2 } else { 3 };
    of_states * routers + due + sizes(waiting, flaw)
}

/// For each router below n: the states up to done, what is due and not written, and those that it waits for. A router
/// without an entry is idle.
pub fn missing(record: &Record, flaw: Flaw) -> usize {
    let without_entry = usize::from(record.n).saturating_sub(WIDTH);
    let routers = 0..usize::from(record.n).min(WIDTH);
    routers.map(|router| missing_at(record, router, flaw)).sum::<usize>() + usize::from(DONE) * without_entry
}

fn missing_at(record: &Record, router: usize, flaw: Flaw) -> usize {
    let (state, due, written) = (record.states[router], record.due[router], record.written[router]);
    let states = match flaw {
        Flaw::StatesBackToDone => DONE.abs_diff(state),
        _ => DONE.saturating_sub(state),
    };
    let writes = match flaw {
        Flaw::WrittenTakenOff => size(due, flaw).saturating_sub(size(written, flaw)),
        _ => size(due & !written, flaw),
    };
    let messages = match flaw {
        Flaw::MissingWithoutWaiting => 0,
        _ => size(record.waiting[router], flaw),
    };
    usize::from(states) + writes + messages
}

fn below_n<'a>(record: &Record, sets: &'a [Set; WIDTH]) -> &'a [Set] {
    &sets[..usize::from(record.n).min(WIDTH)]
}

fn sizes(sets: &[Set], flaw: Flaw) -> usize {
    sets.iter().map(|&set| size(set, flaw)).sum()
}

fn size(set: Set, flaw: Flaw) -> usize {
    flaw.cut_by(Flaw::SizeOf32Bits, set).count_ones() as usize
}
