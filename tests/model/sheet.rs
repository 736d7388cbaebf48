//! The running sheet (02, No. 1): the routers in an order in which they can be upgraded, and the steps of following it.

use crate::flaw::Flaw;
use crate::ofib::{Record, WIDTH};
use crate::sets::members;
use crate::step::{DELIVER, FINISH, LEARN, RELEASE, TICK, WRITE};

/// Each router of the plan's record stands after all that it waits for, and of those that could come next the one with
/// the lowest number is taken. All other entries are 0; after a refusal the record has no router, so all are.
pub fn sheet(record: &Record, before: [u8; WIDTH], flaw: Flaw) -> [u8; WIDTH] {
    if flaw == Flaw::SheetKeptIfRefused && record.n == 0 {
        return before;
    }
    let mut sheet = [0; WIDTH];
    for (place, router) in order(record, flaw).into_iter().enumerate() {
        sheet[place] = router;
    }
    sheet
}

fn order(record: &Record, flaw: Flaw) -> Vec<u8> {
    // Those that are not on the sheet yet, in the order of their numbers.
    let mut left: Vec<u8> = (0..record.n).collect();
    match flaw {
        Flaw::SheetByRank => left.sort_by_key(|&router| record.ranks[usize::from(router)]),
        Flaw::SheetHighestFirst => left.reverse(),
        _ => {}
    }
    let mut order = Vec::new();
    while !left.is_empty() {
        let could_come =
            |router: &u8| members(record.waiting[usize::from(*router)]).all(|w| !left.contains(&(w as u8)));
        let place = left.iter().position(could_come).expect("waiting has no cycle");
        order.push(left.remove(place));
    }
    order
}

/// The steps of following a sheet: every router learns, the hold time goes by (02, No. 10), and every router is
/// released. Then each in turn writes all that it has due, finishes, and has its message delivered to each router it
/// tells.
pub fn following(record: &Record, sheet: &[u8], flaw: Flaw) -> Vec<[u8; 3]> {
    let of_all = |kind| (0..record.n).map(move |router| [kind, router, 0]);
    let ticks = vec![[TICK, 0, 0]; record.hold_time.into()];
    let mut steps: Vec<[u8; 3]> = of_all(LEARN).collect();
    match flaw {
        Flaw::SheetWithoutTicks => steps.extend(of_all(RELEASE)),
        Flaw::SheetTicksLate => steps.extend(of_all(RELEASE).chain(ticks)),
        _ => steps.extend(ticks.into_iter().chain(of_all(RELEASE))),
    }
    for &router in sheet {
        let of = usize::from(router);
        steps.extend(members(record.due[of]).map(|destination| [WRITE, router, destination as u8]));
        steps.push([FINISH, router, 0]);
        steps.extend(members(record.telling[of]).map(|told| [DELIVER, router, told as u8]));
    }
    steps
}
