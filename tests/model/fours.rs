//! What accepted plans show of full sets and sets of four (02, No. 9).

use crate::compare::Planned;
use crate::counts::require;
use crate::ofib::Set;
use crate::paths::{at, pairs};
use crate::plan::RISE;

/// What a plan in which some pair has five next hops or more can show.
const SHOWN: [(&str, fn(&Planned) -> bool); 3] = [
    ("in which a set of four stays while its full set changes", a_four_stays),
    (
        "in which a next hop that stays comes into a set of four or leaves it",
        a_hop_moves,
    ),
    (
        "in which a router waits for another only by a full set",
        waits_by_a_full_set,
    ),
];

/// How many plans have a full set of five or more, and of these how many show each.
#[derive(Default)]
pub struct Fours {
    plans: u64,
    shown: [u64; SHOWN.len()],
}

impl Fours {
    pub fn count(&mut self, planned: &Planned) {
        if !has_five(planned) {
            return;
        }
        self.plans += 1;
        for (seen, (_, shows)) in self.shown.iter_mut().zip(SHOWN) {
            *seen += u64::from(shows(planned));
        }
    }

    pub fn not_seen(&self, missing: &mut Vec<String>) {
        require(missing, self.plans, || {
            "plan with a full set of five or more".to_string()
        });
        for (seen, (what, _)) in self.shown.iter().zip(SHOWN) {
            require(missing, *seen, || {
                format!("plan with a full set of five or more {what}")
            });
        }
    }

    pub fn print(&self) {
        println!("plans with a full set of five or more: {}", self.plans);
        for (seen, (what, _)) in self.shown.iter().zip(SHOWN) {
            println!("of these, {what}: {seen}");
        }
    }
}

fn has_five(planned: &Planned) -> bool {
    let paths = [&planned.tables.old_paths, &planned.tables.new_paths];
    let mut cells = paths.into_iter().flat_map(|paths| paths.hops.cells());
    cells.any(|set| set.count_ones() > 4)
}

/// Whether for some pair the full sets (first) and the sets of four, of the old topology and of the new one, are so.
fn for_some_pair(planned: &Planned, is_so: impl Fn([Set; 2], [Set; 2]) -> bool) -> bool {
    let (old, new) = (&planned.tables.old_paths, &planned.tables.new_paths);
    pairs(planned.record.n.into()).any(|(i, j)| {
        let cell = at(i, j);
        let full = [old.hops.cells()[cell], new.hops.cells()[cell]];
        let four = [old.fours.cells()[cell], new.fours.cells()[cell]];
        is_so(full, four)
    })
}

fn a_four_stays(planned: &Planned) -> bool {
    for_some_pair(planned, |full, four| full[0] != full[1] && four[0] == four[1])
}

/// A member of both full sets is in one set of four only, since a lower one goes or comes.
fn a_hop_moves(planned: &Planned) -> bool {
    for_some_pair(planned, |full, four| full[0] & full[1] & (four[0] ^ four[1]) != 0)
}

/// By the set of four to the root, the fifth member would be missing among those that wait or are waited for.
fn waits_by_a_full_set(planned: &Planned) -> bool {
    let paths = match planned.record.direction {
        RISE => &planned.tables.old_paths,
        _ => &planned.tables.new_paths,
    };
    let root = usize::from(planned.record.root);
    let mut routers = 0..usize::from(planned.record.n);
    routers.any(|r| paths.hops.cells()[at(r, root)] != paths.fours.cells()[at(r, root)])
}
