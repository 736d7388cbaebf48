//! The running sheet of a plan: the routers in an order in which they can be upgraded.

use crate::limits::{Set, WIDTH};
use crate::plan::{Tables, Times, plan};
use crate::refusal::Refusal;

/// The sheet: fills the tables as Plan does, or refuses and writes no cell.
pub fn sheet(n: usize, times: Times, list: &[u8], t: &mut Tables) -> Result<[u8; WIDTH], Refusal> {
    let record = plan(n, times, list, t)?;
    Ok(in_turn(n, &record.waiting))
}

/// At each place the lowest router that is not placed yet and waits only for routers that are.
fn in_turn(n: usize, waiting: &[Set; WIDTH]) -> [u8; WIDTH] {
    let mut routers = [0; WIDTH];
    let mut placed: Set = 0;
    for place in &mut routers[..n] {
        let could_come = |&r: &usize| placed >> r & 1 == 0 && waiting[r] & !placed == 0;
        let next = (0..n).find(could_come).expect("no routers wait for each other");
        *place = next as u8;
        placed |= 1 << next;
    }
    routers
}
