//! Sets of four (02, No. 9), worked out by hand: areas in which routers have five next hops or more, and plans of them.

use crate::areas::Area;
use crate::changes::bytes_of;
use crate::compare::same;
use crate::flaw::Flaw;
use crate::lent::{PlanTables, RIGHT_SIZES};
use crate::needs::needs;
use crate::ofib::{Record, Set};
use crate::paths::{UNUSED, at};
use crate::plan::{FALL, RISE};
use crate::random::Random;
use crate::sets::four;
use crate::text::routes;
use crate::worked::{Example, Link, area, both_ways, entries, file_of, hypercube, path_sets, planned};

/// Full sets, with members at both ends of the 64 bits among them, and their sets of four.
const SETS: [(Set, Set); 10] = [
    (0, 0),
    (1 << 63, 1 << 63),
    (1 | 1 << 63, 1 | 1 << 63),
    (0b11001 | 1 << 63, 0b11001 | 1 << 63),
    (0b111001 | 1 << 63, 0b111001),
    (1 | LAST_FOUR, 1 | 0b111 << 60),
    (LAST_FOUR, LAST_FOUR),
    (1 << 59 | LAST_FOUR, 0b1111 << 59),
    (0b11111 << 30, 0b1111 << 30),
    (!0b110, 0b111001),
];
/// Routers 60 to 63.
const LAST_FOUR: Set = 0b1111 << 60;

/// A link of the area below goes down, or comes up.
struct Plan {
    link: (u8, u8),
    root: u8,
    /// The ranks where it goes down, and where it comes up.
    ranks: [[u8; 7]; 2],
    /// Who waits for whom and who tells whom where it goes down, and the other way round where it comes up.
    waits: [Set; 7],
    tells: [Set; 7],
    due: [Set; 7],
}

/// Routers 1 to 5 are between routers 0 and 6, each with a link to either at 1. Then 0 and 6 have all five as next hops
/// to each other, 62 as a set, and 1 to 4 in the set of four, 30 as a set. Two of 1 to 5 have the next hops 0 and 6 to
/// each other, 65. Without a link of router 5, 0 and 6 have 1 to 4 as next hops to each other: another full set, but
/// the same set of four, so that neither is due. Without one of router 1 they have 2 to 5, 60 as a set: 5 comes into
/// the set of four, and both are due.
///
/// Where router 5 is no longer linked with 6, it gets to all by 0, and 1 to 4 get to it by 0; 6 gets to it by 1 to 4.
/// So 1 to 4 and 6 have 5 due (32), and 5 has 1 to 4 and 6 (94). Nothing is due at router 0, and yet the root waits for
/// it.
///
/// Where it is no longer linked with 0, the root is 0. The five have 0 as their next hop, and are those of 6 to 0: all
/// five wait for 6, also 5, which is not in the set of four from 6 to 0.
const PLANS: [Plan; 4] = [
    Plan {
        link: (5, 6),
        root: 5,
        ranks: [[1, 0, 0, 0, 0, 2, 1], [1, 2, 2, 2, 2, 0, 1]],
        waits: [30, 0, 0, 0, 0, 65, 30],
        tells: [32, 65, 65, 65, 65, 0, 32],
        due: [0, 32, 32, 32, 32, 94, 32],
    },
    Plan {
        link: (0, 5),
        root: 0,
        ranks: [[2, 1, 1, 1, 1, 1, 0], [0, 1, 1, 1, 1, 1, 2]],
        waits: [62, 64, 64, 64, 64, 64, 0],
        tells: [0, 1, 1, 1, 1, 1, 62],
        due: [32, 32, 32, 32, 32, 31, 0],
    },
    Plan {
        link: (1, 6),
        root: 1,
        ranks: [[1, 2, 0, 0, 0, 0, 1], [1, 0, 2, 2, 2, 2, 1]],
        waits: [60, 65, 0, 0, 0, 0, 60],
        tells: [2, 0, 65, 65, 65, 65, 2],
        due: [64, 124, 2, 2, 2, 2, 3],
    },
    Plan {
        link: (0, 1),
        root: 0,
        ranks: [[2, 1, 1, 1, 1, 1, 0], [0, 1, 1, 1, 1, 1, 2]],
        waits: [62, 64, 64, 64, 64, 64, 0],
        tells: [0, 1, 1, 1, 1, 1, 62],
        due: [66, 61, 2, 2, 2, 2, 1],
    },
];

impl Plan {
    /// The links before, and the changes: where the link goes down, and where it comes up.
    fn changes(&self) -> [(Vec<Link>, [Link; 2]); 2] {
        let (i, j) = self.link;
        let whole = between(0, 6, 0b111110);
        let mut without = whole.clone();
        without.retain(|&(from, to, _)| (from, to) != (i, j) && (from, to) != (j, i));
        [(whole, both_ways(i, j, UNUSED)), (without, both_ways(i, j, 1))]
    }
}

/// The routers of the set are between the two ends, each with a link to either at 1.
fn between(one: u8, other: u8, set: Set) -> Vec<Link> {
    let routers = (0..64).filter(|router| set >> router & 1 == 1);
    routers
        .flat_map(|router| [both_ways(one, router, 1), both_ways(other, router, 1)])
        .flatten()
        .collect()
}

pub fn check_model() -> Result<(), String> {
    for (full, wanted) in SETS {
        same(&format!("set of four of {full}"), four(full, Flaw::None), wanted)?;
        // Routers 1 and 2 are the ends here.
        if full & 0b110 == 0 {
            let sets = path_sets(64, &between(1, 2, full), 1, 2);
            same(&format!("next hops through {full}"), sets, (full, wanted))?;
        }
    }
    let there = 1 << 1 | 1 << 2 | 1 << 4 | 1 << 8;
    same("hypercube, set of four", path_sets(64, &hypercube(), 0, 63).1, there)?;
    let back = 1 << 31 | 1 << 47 | 1 << 55 | 1 << 59;
    same(
        "hypercube, set of four back",
        path_sets(64, &hypercube(), 63, 0).1,
        back,
    )?;
    for plan in &PLANS {
        check_plan(plan)?;
    }
    both_ends()?;
    routes_text()
}

fn check_plan(plan: &Plan) -> Result<(), String> {
    let (i, j) = plan.link;
    let [(whole, down), (without, up)] = plan.changes();
    let (answer, record, tables) = planned(7, &whole, &down);
    let what = format!("link {i}-{j} down");
    same(&what, (answer, record.root, record.direction), (0, plan.root, RISE))?;
    check_record(&what, &record, plan, 0)?;
    let (full, four) = if (i, j) == (5, 6) || (i, j) == (0, 5) {
        ((62, 30), (30, 30))
    } else {
        ((62, 60), (30, 60))
    };
    same(
        &format!("{what}, sets from 0 to 6"),
        sets_of(&tables, 0, 6),
        (full, four),
    )?;
    same(
        &format!("{what}, sets from 6 to 0"),
        sets_of(&tables, 6, 0),
        (full, four),
    )?;
    let (answer, record, tables) = planned(7, &without, &up);
    let what = format!("link {i}-{j} up");
    same(&what, (answer, record.root, record.direction), (0, plan.root, FALL))?;
    check_record(&what, &record, plan, 1)?;
    let turned = |(old, new): (Set, Set)| (new, old);
    let wanted = (turned(full), turned(four));
    same(&format!("{what}, sets from 0 to 6"), sets_of(&tables, 0, 6), wanted)
}

/// Of the rise (0) or of the fall (1).
fn check_record(what: &str, record: &Record, plan: &Plan, kind: usize) -> Result<(), String> {
    let sets = [&plan.waits, &plan.tells];
    same(&format!("{what}, ranks"), &record.ranks[..7], &plan.ranks[kind])?;
    same(&format!("{what}, waits"), &record.waiting[..7], sets[kind])?;
    same(&format!("{what}, tells"), &record.telling[..7], sets[1 - kind])?;
    same(&format!("{what}, due"), &record.due[..7], &plan.due)?;
    let writes: u32 = plan.due.iter().map(|set| set.count_ones()).sum();
    // Ten times a router waits for another in each of them.
    let wanted = 3 * 7 + 10 + writes as usize;
    same(&format!("{what}, needs"), needs(record, Flaw::None), wanted)
}

/// The full sets of a pair before and after the change, and its sets of four.
fn sets_of(tables: &PlanTables, i: usize, j: usize) -> ((Set, Set), (Set, Set)) {
    let (old, new, cell) = (&tables.old_paths, &tables.new_paths, at(i, j));
    let full = (old.hops.cells()[cell], new.hops.cells()[cell]);
    (full, (old.fours.cells()[cell], new.fours.cells()[cell]))
}

/// Routers 0 and 60 to 63 are between 1 and 2, in an area of 64.
const BOTH_ENDS: Set = 1 | LAST_FOUR;

/// The link of 2 and 63 goes down: router 1 keeps its set of four to 2, and yet 63 waits for it. The link of 0 and 2
/// goes down: 63 comes into the set of four.
fn both_ends() -> Result<(), String> {
    let links = between(1, 2, BOTH_ENDS);
    let first_four = 1 | 0b111 << 60;
    let (_, record, tables) = planned(64, &links, &both_ways(2, 63, UNUSED));
    let wanted = ((BOTH_ENDS, first_four), (first_four, first_four));
    same("link 2-63 down, sets from 1 to 2", sets_of(&tables, 1, 2), wanted)?;
    same("link 2-63 down, root", record.root, 2)?;
    same(
        "link 2-63 down, due at 1 and 63",
        (record.due[1], record.due[63]),
        (0, BOTH_ENDS & !(1 << 63) | 1 << 2),
    )?;
    same("link 2-63 down, waits of 63", record.waiting[63], 1 << 1)?;
    let (_, record, tables) = planned(64, &links, &both_ways(0, 2, UNUSED));
    let wanted = ((BOTH_ENDS, LAST_FOUR), (first_four, LAST_FOUR));
    same("link 0-2 down, sets from 1 to 2", sets_of(&tables, 1, 2), wanted)?;
    same("link 0-2 down, root", record.root, 0)?;
    same("link 0-2 down, due at 1", record.due[1], 1 << 2)?;
    same("link 0-2 down, waits of 1", record.waiting[1], LAST_FOUR)
}

/// The routes say that their sets are the full ones, and have the five next hops. A refusal has no other line.
fn routes_text() -> Result<(), String> {
    let text = |links: &[Link], changes: &[Link]| {
        let mut tables = PlanTables::filled(&mut Random::for_case(0, 0, 5), RIGHT_SIZES);
        routes(&file_of((7, links, changes)), &mut tables.lend(), Flaw::None)
    };
    let [(whole, down), _] = PLANS[0].changes();
    let shown = text(&whole, &down);
    let lines: Vec<&str> = shown.lines().collect();
    same("routes, lines", lines.len(), 1 + 7 * 6)?;
    same("routes, the first line", lines[0], "full next-hop sets")?;
    same("routes, from 0 to 1", lines[1], "route 0 1 old 1 via 2 new 1 via 2")?;
    same("routes, from 0 to 6", lines[6], "route 0 6 old 2 via 62 new 2 via 30")?;
    same("routes, refused", text(&whole, &[]), "refused 10\n".to_string())
}

/// The plans, for the search of all their records.
pub fn plans() -> Vec<(Area, Vec<u8>)> {
    let of = |(links, changes): (Vec<Link>, [Link; 2])| (area(7, &links), bytes_of(&entries(&changes)));
    PLANS.iter().flat_map(|plan| plan.changes().map(of)).collect()
}

/// The same plans as bench files.
pub fn files() -> Vec<Vec<u8>> {
    let of = |(links, changes): (Vec<Link>, [Link; 2])| file_of((7, &links, &changes));
    PLANS.iter().flat_map(|plan| plan.changes().map(of)).collect()
}

/// Files of 64 routers.
pub fn large_files() -> Vec<Vec<u8>> {
    let (ends, many, cube) = (between(1, 2, BOTH_ENDS), between(1, 2, !0b110), hypercube());
    let examples: [Example; 5] = [
        (64, &ends, &both_ways(2, 63, UNUSED)),
        (64, &ends, &both_ways(0, 2, UNUSED)),
        (64, &many, &both_ways(1, 63, 2)),
        (64, &many, &both_ways(0, 1, 2)),
        (64, &cube, &both_ways(31, 63, UNUSED)),
    ];
    examples.into_iter().map(file_of).collect()
}
