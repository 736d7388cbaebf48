//! Sets of routers, and the set of four of a full next-hop set (02, No. 9).

use crate::flaw::Flaw;
use crate::ofib::{Set, WIDTH};

pub fn has(set: Set, router: usize) -> bool {
    set >> router & 1 == 1
}

/// In rising order.
pub fn members(set: Set) -> impl DoubleEndedIterator<Item = usize> {
    (0..WIDTH).filter(move |&router| has(set, router))
}

pub fn set_of(n: usize, belongs: impl Fn(usize) -> bool) -> Set {
    holding((0..n).filter(|&router| belongs(router)))
}

/// What a line card holds: of the members in rising order the first four, or all where there are fewer.
pub fn four(full: Set, flaw: Flaw) -> Set {
    match flaw {
        Flaw::FiveTaken => holding(members(full).take(5)),
        Flaw::HighestTaken => holding(members(full).rev().take(4)),
        Flaw::LargeDropped if members(full).count() > 4 => 0,
        Flaw::FourOf32Bits => holding(members(flaw.cut_by(Flaw::FourOf32Bits, full)).take(4)),
        _ => holding(members(full).take(4)),
    }
}

fn holding(routers: impl Iterator<Item = usize>) -> Set {
    routers.fold(0, |set, router| set | 1 << router)
}
