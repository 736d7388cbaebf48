//! The printed rehearsal and the small areas C1 to C13 of 01, by the root of 02, No. 2, with the other directions of
//! No. 4, running sheets of them, links that are up at one end only, dead links, how many calls some plans need, and
//! what is unfinished after some steps: the model must give what is worked out by hand, and the library the same. Files
//! have the times of No. 10, hold time 0 and step time 1.

use crate::areas::Area;
use crate::changes::bytes_of;
use crate::compare::{Comparison, same};
use crate::difference::Difference;
use crate::file_cases::{Amount, compare_file, compare_stored};
use crate::files::{Parts, bytes};
use crate::flaw::Flaw;
use crate::lent::{PathTables, PlanTables, RIGHT_SIZES};
use crate::needs::needs;
use crate::ofib::{Answer, CELLS, Record, Set, WIDTH};
use crate::paths::{UNUSED, at, paths};
use crate::plan::{Change, FALL, RISE, Request, Times, WITHOUT_TIMERS, plan};
use crate::random::Random;
use crate::read::read;
use crate::rewriting::{old_reader, rewritten};
use crate::sheet::sheet;
use crate::step::step;
use crate::text::{rehearsal, unfinished};
use crate::{fours_worked, timers_worked};

/// From, to and metric.
pub type Link = (u8, u8, u32);

const INPUT: &str = "03 0006 0001000001 0100000001 0102000001 0201000001 0002000003 0200000003 \
    02 0102FFFFFF 0201FFFFFF 0000 0001 \
    000A 010100 020100 030102 010000 020000 030002 040000 050001 050001 030102";

/// Where in it the step count stands.
const STEP_COUNT_AT: usize = 48;

const OUTPUT: &str = "\
router 0 rank 0 waits 0 tells 2 due 4
router 1 rank 1 waits 5 tells 0 due 4
router 2 rank 0 waits 0 tells 2 due 3
needs 15
step 1 ok
step 2 ok
step 3 refused 24
step 4 ok
step 5 ok
step 6 ok
step 7 ok
step 8 ok
step 9 ignored
step 10 refused 24
end
";

/// After so many of the printed steps, what is unfinished. Steps 3 and 10 are refused and step 9 is ignored, so that 7
/// of the 15 calls that are needed have been answered ok in the end.
const UNFINISHED: [(usize, &str); 4] = [
    (
        0,
        "\
router 0 idle waits none unwritten 2
router 1 idle waits 0 2 unwritten 2
router 2 idle waits none unwritten 0 1
missing 15
",
    ),
    (
        4,
        "\
router 0 holding waits none unwritten 2 holds until 0
router 1 ongoing waits 0 2 unwritten 2 waits until 1
router 2 idle waits none unwritten 0 1
missing 12
",
    ),
    (
        6,
        "\
router 0 ongoing waits none unwritten none
router 1 ongoing waits 0 2 unwritten 2 waits until 1
router 2 idle waits none unwritten 0 1
missing 10
",
    ),
    (
        10,
        "\
router 1 ongoing waits 2 unwritten 2 waits until 1
router 2 idle waits none unwritten 0 1
missing 8
",
    ),
];

/// What brings the printed rehearsal to its end after its own steps.
const THE_REST: &str = "010200 020200 030200 030201 040200 050201 030102 040100";

pub const FIRST_LINKS: [Link; 6] = [(0, 1, 1), (1, 0, 1), (1, 2, 1), (2, 1, 1), (0, 2, 3), (2, 0, 3)];
pub const FIRST_CHANGES: [Link; 2] = [(1, 2, UNUSED), (2, 1, UNUSED)];
const SECOND_LINKS: [Link; 4] = [(0, 1, 1), (1, 0, 1), (0, 2, 3), (2, 0, 3)];
const SECOND_CHANGES: [Link; 2] = [(1, 2, 1), (2, 1, 1)];
const SIXTH_LINKS: [Link; 2] = [(0, 1, UNUSED - 1), (1, 0, 1)];
const NINTH_LINKS: [Link; 4] = [(0, 1, 1), (1, 0, 1), (2, 3, 1), (3, 2, 1)];
const NINTH_CHANGES: [Link; 2] = [(0, 1, 2), (2, 3, 2)];
/// The link of 62 and 63 in a ring goes down.
const RING_CHANGES: [Link; 2] = [(62, 63, UNUSED), (63, 62, UNUSED)];
const LAST_LINKS: [Link; 4] = [(0, 1, 1), (1, 0, 1), (1, 2, UNUSED - 1), (2, 1, 1)];

/// The examples on the model alone.
pub fn check_model() -> Result<(), String> {
    let mut random = Random::for_case(0, 0, 0);
    let mut tables = PlanTables::filled(&mut random, RIGHT_SIZES);
    same(
        "printed rehearsal",
        OUTPUT,
        &rehearsal(&input(), &mut tables.lend(), Flaw::None),
    )?;
    orders()?;
    path_examples()?;
    large_paths()?;
    large_plan()?;
    refusals()?;
    half_links()?;
    printed_steps()?;
    dead_links()?;
    sheets()?;
    needed()?;
    unfinished_texts()
}

/// How many calls plans need: 3 of each router, the messages and the writes. C1, C4 and C2 need as many with the root
/// of 01, the far end of the first change: where it is another router, others wait, and as many messages are sent.
fn needed() -> Result<(), String> {
    let reversed = [FIRST_CHANGES[1], FIRST_CHANGES[0]];
    for (name, links, changes, far_end) in [
        ("C1", &FIRST_LINKS[..], FIRST_CHANGES, 2),
        ("C4", &FIRST_LINKS, reversed, 1),
        ("C2", &SECOND_LINKS, SECOND_CHANGES, 2),
    ] {
        for (flaw, root) in [(Flaw::None, 1), (Flaw::RootFarEnd, far_end)] {
            let (_, record, _) = planned_with((3, links, &changes), WITHOUT_TIMERS, flaw);
            let found = (record.root, needs(&record, Flaw::None));
            same(&format!("{name}, root and needs"), found, (root, 9 + 2 + 4))?;
        }
    }
    needed_elsewhere()
}

fn needed_elsewhere() -> Result<(), String> {
    let of = |n, links: &[Link], changes: &[Link]| {
        let (answer, record, _) = planned(n, links, changes);
        (answer, needs(&record, Flaw::None))
    };
    // Router 0 waits for router 1, and each has the other due.
    let down = of(2, &both_ways(0, 1, 1), &both_ways(0, 1, UNUSED));
    same("a link down, needs", down, (0, 6 + 1 + 2))?;
    // Router 1 waits for 0, and 2 for 1 and 3. No next hop changes.
    let chain: Vec<Link> = (0..3).flat_map(|i| both_ways(i, i + 1, 1)).collect();
    same("a dearer link, needs", of(4, &chain, &both_ways(2, 3, 2)), (0, 12 + 3))?;
    // The hub waits for all others, or they for it. Every router loses or gets every other, or keeps all.
    let (hub, no_hub) = (star(5, 1), star(5, UNUSED));
    same("a hub down, needs", of(5, &hub, &no_hub), (0, 15 + 4 + 5 * 4))?;
    same("a hub up, needs", of(5, &[], &hub), (0, 15 + 4 + 5 * 4))?;
    same("a cheaper hub, needs", of(5, &star(5, 2), &hub), (0, 15 + 4))?;
    let largest = of(64, &star(64, 1), &star(64, UNUSED));
    same("a hub of 64 down, needs", largest, (0, 192 + 63 + 64 * 63))
}

/// Router 0 is the hub of all others.
fn star(n: u8, metric: u32) -> Vec<Link> {
    (1..n).flat_map(|i| both_ways(0, i, metric)).collect()
}

fn unfinished_texts() -> Result<(), String> {
    let text = |file: &[u8]| {
        let mut tables = PlanTables::filled(&mut Random::for_case(0, 0, 3), RIGHT_SIZES);
        unfinished(file, &mut tables.lend(), Flaw::None)
    };
    for (steps, wanted) in UNFINISHED {
        let what = format!("unfinished after {steps} of the printed steps");
        same(&what, text(&stopped(steps)), wanted.to_string())?;
    }
    same("unfinished at the end", text(&finished()), "missing 0\n".to_string())?;
    let refused = file_of((4, &NINTH_LINKS, &NINTH_CHANGES));
    same("C9, unfinished", text(&refused), "refused 13\n".to_string())
}

/// The printed rehearsal with so many of its steps.
fn stopped(steps: usize) -> Vec<u8> {
    let mut file = input();
    file.truncate(file.len() - 3 * (10 - steps));
    file[STEP_COUNT_AT + 1] = steps as u8;
    file
}

/// The printed rehearsal with the steps that are missing behind its own.
fn finished() -> Vec<u8> {
    let mut file = input();
    let rest = bytes(THE_REST);
    file[STEP_COUNT_AT + 1] += rest.len() as u8 / 3;
    file.extend(rest);
    file
}

/// The examples on the library and its programs beside the model.
pub fn compare_library(comparison: &mut Comparison, amount: &Amount) -> Result<(), Difference> {
    let mut random = Random::for_case(0, 0, 4);
    for file in files().into_iter().chain(fours_worked::files()) {
        compare_rooms(comparison, &file).map_err(|what| Difference::in_file(what, &file))?;
    }
    let of_fours = [fours_worked::files(), fours_worked::large_files()].concat();
    let of_timers = timers_worked::files();
    for file in files()
        .into_iter()
        .chain(large_files())
        .chain(of_fours)
        .chain(of_timers)
    {
        compare_file(comparison, &mut random, &file, &amount.with_each_file())?;
    }
    for (file, ..) in DEAD_LINKS {
        compare_stored(comparison, &mut random, &without_times(file), &amount.with_each_file())?;
    }
    for (file, ..) in FILE_TIMES {
        compare_stored(comparison, &mut random, &bytes(file), &amount.with_each_file())?;
    }
    Ok(())
}

/// The texts of a small file with every room from none to more than they need.
fn compare_rooms(comparison: &mut Comparison, file: &[u8]) -> Result<(), String> {
    let mut random = Random::for_case(0, 0, 1);
    for room in 0..=OUTPUT.len() + 3 {
        comparison.rehearsal(&mut random, file, RIGHT_SIZES, Some(room))?;
        comparison.routes(&mut random, file, RIGHT_SIZES, Some(room))?;
    }
    Ok(())
}

fn input() -> Vec<u8> {
    bytes(INPUT)
}

pub fn planned(n: usize, links: &[Link], changes: &[Link]) -> (u8, Record, PlanTables) {
    planned_with((n, links, changes), WITHOUT_TIMERS, Flaw::None)
}

pub fn planned_with((n, links, changes): Example, times: Times, flaw: Flaw) -> (u8, Record, PlanTables) {
    let mut random = Random::for_case(0, 0, 2);
    let mut tables = PlanTables::filled(&mut random, RIGHT_SIZES);
    tables.old.cells_mut().copy_from_slice(&area(n, links).metric);
    let mut record = Record::default();
    let list = &bytes_of(&entries(changes));
    let answer = plan(Request { n, times, list }, &mut tables.lend(), &mut record, flaw);
    (answer, record, tables)
}

pub fn area(n: usize, links: &[Link]) -> Area {
    let mut metric = vec![UNUSED; CELLS];
    for link in entries(links) {
        metric[link.cell()] = link.metric;
    }
    Area { n, metric }
}

pub fn entries(links: &[Link]) -> Vec<Change> {
    links
        .iter()
        .map(|&(from, to, metric)| Change { from, to, metric })
        .collect()
}

/// C1, C2 and C4: root, ranks and waiting sets. C1 and C4 are the same changes in two orders.
fn orders() -> Result<(), String> {
    let (_, first, _) = planned(3, &FIRST_LINKS, &FIRST_CHANGES);
    same("C1, root", first.root, 1)?;
    same("C1, ranks", &first.ranks[..3], &[0, 1, 0])?;
    same("C1, waits", &first.waiting[..3], &[0, 5, 0])?;
    let (_, record, _) = planned(3, &SECOND_LINKS, &SECOND_CHANGES);
    same("C2, ranks", &record.ranks[..3], &[1, 0, 1])?;
    same("C2, waits", &record.waiting[..3], &[2, 0, 2])?;
    let (_, record, _) = planned(3, &FIRST_LINKS, &[FIRST_CHANGES[1], FIRST_CHANGES[0]]);
    same("C4", record, first)
}

/// C3, C5, C6 and C13: distances and next-hop sets.
fn path_examples() -> Result<(), String> {
    let links = [(0, 1, 1), (1, 0, 1), (1, 2, 1), (2, 1, 1), (0, 2, 2), (2, 0, 2)];
    let (_, _, tables) = planned(3, &links, &FIRST_CHANGES);
    let sets = |paths: &PathTables| (paths.hops.cells()[at(0, 2)], paths.fours.cells()[at(0, 2)]);
    same(
        "C3",
        (sets(&tables.old_paths), sets(&tables.new_paths)),
        ((6, 6), (4, 4)),
    )?;
    same("C5", path(2, &[(0, 1, UNUSED)], 0, 1), (u32::MAX, 0))?;
    same("C6", path(2, &SIXTH_LINKS, 0, 1), (16_777_214, 2))?;
    same(
        "C6 without the other direction",
        path(2, &SIXTH_LINKS[..1], 0, 1),
        (u32::MAX, 0),
    )?;
    same(
        "C6, the other direction alone",
        path(2, &SIXTH_LINKS[1..], 1, 0),
        (u32::MAX, 0),
    )?;
    same("C13", path(3, &LAST_LINKS, 0, 2), (16_777_215, 2))
}

/// Paths of 64 routers, with the highest bits in the sets.
fn large_paths() -> Result<(), String> {
    let (chain, ring, cube) = (longest_chain(), ring(), hypercube());
    same("largest distance", path(64, &chain, 0, 63), (1_056_964_482, 2))?;
    same(
        "largest distance, back",
        path(64, &chain, 63, 0),
        (1_056_964_482, 1 << 62),
    )?;
    same(
        "ring, to the router opposite",
        path(64, &ring, 0, 32),
        (32, 2 | 1 << 63),
    )?;
    same("ring, the last router", path(64, &ring, 62, 63), (1, 1 << 63))?;
    let neighbours = 1 << 1 | 1 << 2 | 1 << 4 | 1 << 8 | 1 << 16 | 1 << 32;
    same(
        "hypercube, to the router opposite",
        path(64, &cube, 0, 63),
        (6, neighbours),
    )?;
    let back = 1 << 62 | 1 << 61 | 1 << 59 | 1 << 55 | 1 << 47 | 1 << 31;
    same("hypercube, back", path(64, &cube, 63, 0), (6, back))
}

/// The plan of a ring of 64 routers, in which a link of the last router goes down.
fn large_plan() -> Result<(), String> {
    let (answer, record, _) = planned(64, &ring(), &RING_CHANGES);
    same(
        "ring, answer, root and direction",
        (answer, record.root, record.direction),
        (0, 62, RISE),
    )?;
    same("ring, ranks", (record.ranks[62], record.ranks[63]), (32, 31))?;
    same(
        "ring, waits",
        (record.waiting[62], record.waiting[63]),
        (1 << 61 | 1 << 63, 1),
    )?;
    same(
        "ring, tells",
        (record.telling[61], record.telling[63]),
        (1 << 62, 1 << 62),
    )?;
    // Due are the destinations that each reached over the link: 63 and 0 to 30, and 31 to 62.
    let due = (1 << 63 | (1 << 31) - 1, (1 << 63) - (1 << 31));
    same("ring, due", (record.due[62], record.due[63]), due)
}

/// All 64 routers one behind the other, with the largest metric that is used.
fn longest_chain() -> Vec<Link> {
    (0..63).flat_map(|i| both_ways(i, i + 1, UNUSED - 1)).collect()
}

fn ring() -> Vec<Link> {
    (0..64).flat_map(|i| both_ways(i, (i + 1) % 64, 1)).collect()
}

/// Routers whose numbers differ in one bit are neighbours.
pub fn hypercube() -> Vec<Link> {
    let is_link = |&(i, j): &(u8, u8)| i < j && (i ^ j).is_power_of_two();
    let pairs = (0..64).flat_map(|i| (0..64).map(move |j| (i, j)));
    pairs.filter(is_link).flat_map(|(i, j)| both_ways(i, j, 1)).collect()
}

pub fn both_ways(i: u8, j: u8, metric: u32) -> [Link; 2] {
    [(i, j, metric), (j, i, metric)]
}

/// Distance and full set.
fn path(n: usize, links: &[Link], i: usize, j: usize) -> (u32, Set) {
    let (dist, full, _) = found(n, links, i, j);
    (dist, full)
}

/// Full set and set of four.
pub fn path_sets(n: usize, links: &[Link], i: usize, j: usize) -> (Set, Set) {
    let (_, full, four) = found(n, links, i, j);
    (full, four)
}

fn found(n: usize, links: &[Link], i: usize, j: usize) -> (u32, Set, Set) {
    let (mut dist, mut hops, mut fours) = (vec![0; CELLS], vec![0; CELLS], vec![0; CELLS]);
    paths(n, &area(n, links).metric, &mut dist, &mut hops, &mut fours, Flaw::None);
    (dist[at(i, j)], hops[at(i, j)], fours[at(i, j)])
}

/// C7 to C10: refusals of Plan. Then two faulty changes in both orders, of which the first decides.
fn refusals() -> Result<(), String> {
    let answer = |n, links: &[Link], changes: &[Link]| planned(n, links, changes).0;
    same("C7", answer(2, &[(0, 1, 2)], &[(0, 1, 2)]), 11)?;
    same("C8", answer(2, &[(0, 1, 2), (1, 0, 2)], &[(0, 1, 3), (1, 0, 1)]), 12)?;
    same("C9", answer(4, &NINTH_LINKS, &NINTH_CHANGES), 13)?;
    same("C10", answer(3, &FIRST_LINKS, &[]), 10)?;
    same("5 and then 4", answer(3, &FIRST_LINKS, &[(1, 1, 5), (3, 0, 5)]), 5)?;
    same("4 and then 5", answer(3, &FIRST_LINKS, &[(3, 0, 5), (1, 1, 5)]), 4)
}

/// Links that are up at one end only, and entries without effect (02, No. 4).
fn half_links() -> Result<(), String> {
    let of = |n, links: &[Link], changes: &[Link]| {
        let (answer, record, tables) = planned(n, links, changes);
        (answer, record.root, record.direction, tables)
    };
    let answer = |n, links: &[Link], changes: &[Link]| {
        let (answer, root, direction, _) = of(n, links, changes);
        (answer, root, direction)
    };
    let link = [(0, 1, 5), (1, 0, 5)];
    same("half a link comes up alone", answer(2, &[], &[(0, 1, 5)]), (11, 0, 0))?;
    same(
        "the other half comes up",
        answer(2, &link[..1], &[(1, 0, 5)]),
        (0, 0, FALL),
    )?;
    same(
        "the reverse goes down",
        answer(2, &link, &[(0, 1, 3), (1, 0, UNUSED)]),
        (0, 0, RISE),
    )?;
    let (number, _, direction, tables) = of(2, &link, &[(0, 1, UNUSED)]);
    same("one end goes down", (number, direction), (0, RISE))?;
    same("one end down, the table", tables.new.cells()[at(1, 0)], 5)?;
    let distance = |paths: &PathTables| paths.dist.cells()[at(1, 0)];
    let reverse = (distance(&tables.old_paths), distance(&tables.new_paths));
    same("one end down, the reverse", reverse, (5, u32::MAX))?;
    let root = answer(3, &FIRST_LINKS, &[(1, 2, 5), (2, 0, 3)]);
    same("root by an entry without effect", root, (0, 2, RISE))?;
    let none = answer(3, &FIRST_LINKS, &[(1, 2, 5), (2, 1, 5), (1, 0, 1), (0, 2, 3)]);
    same("13 by an entry without effect", none, (13, 0, 0))?;
    let unknown = answer(3, &FIRST_LINKS, &[(0, 2, 3), (3, 0, 5)]);
    same("an equal entry, and then 4", unknown, (4, 0, 0))?;
    let halves = [NINTH_LINKS[0], NINTH_LINKS[2]];
    same(
        "C9 without the other directions",
        answer(4, &halves, &NINTH_CHANGES),
        (11, 0, 0),
    )
}

/// C11 and C12: answers to the printed steps.
fn printed_steps() -> Result<(), String> {
    let (_, mut record, _) = planned(3, &FIRST_LINKS, &FIRST_CHANGES);
    let file = input();
    let steps = &file[file.len() - 30..];
    let answers: Vec<Answer> = steps
        .chunks_exact(3)
        .map(|call| step(&mut record, [call[0], call[1], call[2]], Flaw::None))
        .collect();
    same("C11", answers[2], Answer::Refused(24))?;
    same("C12", (answers[7], answers[8]), (Answer::Ok, Answer::Ignored))
}

/// A file with `|` where the times are, Read's answer to it, and what is written for it as a stored file, which has no
/// times: the rewritten file, or the number of the old reader's refusal (02, No. 5).
const DEAD_LINKS: [(&str, u8, Result<&str, u8>); 13] = [
    ("02 0001 0001FFFFFF 00 | 0000", 30, Ok("02 0000 00 | 0000")),
    ("02 0001 0001FFFFFE 00 | 0000", 0, Ok("02 0001 0001FFFFFE 00 | 0000")),
    ("02 0000 01 0001FFFFFF | 0000", 0, Ok("02 0000 01 0001FFFFFF | 0000")),
    (
        "03 0003 0001FFFFFF 0102000001 0200FFFFFF 01 0102FFFFFF | 0001 010100",
        30,
        Ok("03 0001 0102000001 01 0102FFFFFF | 0001 010100"),
    ),
    (
        "03 0003 0001000001 0102FFFFFF 0200000003 00 | 0000",
        30,
        Ok("03 0002 0001000001 0200000003 00 | 0000"),
    ),
    ("02 0002 0001FFFFFF 0001FFFFFF 00 | 0000", 30, Err(7)),
    ("02 0002 0001000001 0001FFFFFF 00 | 0000", 30, Err(7)),
    ("02 0002 0001FFFFFF 0100000000 00 | 0000", 30, Err(6)),
    ("02 0002 0001000000 0100FFFFFF 00 | 0000", 6, Err(6)),
    ("02 0001 0002FFFFFF 00 | 0000", 4, Err(4)),
    ("02 0001 0101FFFFFF 00 | 0000", 5, Err(5)),
    ("02 0001 0001FFFFFF", 30, Err(1)),
    ("02 0000 00 | 0001", 1, Err(1)),
];

/// A file of these with the times, and without.
fn with_times(file: &str) -> Vec<u8> {
    bytes(&file.replace('|', "0000 0001"))
}

fn without_times(file: &str) -> Vec<u8> {
    bytes(&file.replace('|', ""))
}

fn dead_links() -> Result<(), String> {
    for (file, answer, written) in DEAD_LINKS {
        let mut table = [0; CELLS];
        let (number, _) = read(&with_times(file), &mut table, Flaw::None);
        same(&format!("Read of {file}"), number, answer)?;
        let written = match written {
            Ok(other) => with_times(other),
            Err(number) => format!("refused {number}\n").into_bytes(),
        };
        let found = rewritten(&without_times(file), Flaw::None);
        same(&format!("{file} rewritten"), found, written)?;
    }
    times_of_files()
}

/// A file, Read's answer to it, its times, and the old reader's answer to it. A file with times is too long for the old
/// reader, or too short: its hold time is taken for the number of steps.
const FILE_TIMES: [(&str, u8, (u16, u16), u8); 7] = [
    ("02 0000 00 0102 0304 0000", 0, (0x0102, 0x0304), 1),
    ("02 0000 00 FFFF FFFF 0000", 0, (0xFFFF, 0xFFFF), 9),
    ("02 0000 00 0000 0001 0000", 0, (0, 1), 2),
    ("02 0000 00 0001 0000 0000", 0, (1, 0), 2),
    ("02 0000 00 0000", 1, (0, 0), 0),
    ("02 0000 00 0001 060000", 1, (0, 0), 0),
    ("02 0000 00 0000 0001 000000", 2, (0, 0), 2),
];

fn times_of_files() -> Result<(), String> {
    for (file, answer, times, old_answer) in FILE_TIMES {
        let mut table = [0; CELLS];
        let (number, contents) = read(&bytes(file), &mut table, Flaw::None);
        let found = (number, (contents.hold_time, contents.step_time));
        same(&format!("Read of {file}, and times"), found, (answer, times))?;
        let (outcome, _) = old_reader(&bytes(file), Flaw::None);
        let found = outcome.map_or_else(|fault| fault.number, |_| 0);
        same(&format!("the old reader of {file}"), found, old_answer)?;
    }
    Ok(())
}

/// Running sheets: C1, C2, C4, an area whose order by rank is another one, and C9, which is refused.
fn sheets() -> Result<(), String> {
    let of = |n, links: &[Link], changes: &[Link]| sheet(&planned(n, links, changes).1, [9; WIDTH], Flaw::None);
    let places = |routers: &[u8]| std::array::from_fn(|place| routers.get(place).copied().unwrap_or(0));
    same("C1, sheet", of(3, &FIRST_LINKS, &FIRST_CHANGES), places(&[0, 2, 1]))?;
    same("C2, sheet", of(3, &SECOND_LINKS, &SECOND_CHANGES), places(&[1, 0, 2]))?;
    let reversed = [FIRST_CHANGES[1], FIRST_CHANGES[0]];
    same("C4, sheet", of(3, &FIRST_LINKS, &reversed), places(&[0, 2, 1]))?;
    let links = [(0, 1, 1), (1, 0, 1), (1, 3, 1), (3, 1, 1), (2, 3, 1), (3, 2, 1)];
    same(
        "sheet beside ranks 0, 1, 0, 2",
        of(4, &links, &[(2, 3, 2), (1, 3, 2)]),
        places(&[0, 1, 2, 3]),
    )?;
    same("C9, sheet", of(4, &NINTH_LINKS, &NINTH_CHANGES), [0; WIDTH])
}

/// Routers, links and changes.
pub type Example<'a> = (usize, &'a [Link], &'a [Link]);

pub fn file_of((n, links, changes): Example) -> Vec<u8> {
    Parts::new(n, entries(links), bytes_of(&entries(changes)), Vec::new()).bytes()
}

/// Areas of 64 routers: a link goes down, or one comes up between routers that are far from each other.
fn large_files() -> Vec<Vec<u8>> {
    let (chain, ring, cube) = (longest_chain(), ring(), hypercube());
    let across = both_ways(0, 63, 1);
    let (hub, hub_down) = (star(64, 1), star(64, UNUSED));
    let examples: [Example; 7] = [
        (64, &hub, &hub_down),
        (64, &chain, &[(62, 63, UNUSED)]),
        (64, &chain, &across),
        (64, &ring, &RING_CHANGES),
        (64, &ring, &both_ways(31, 63, 1)),
        (64, &cube, &across),
        (64, &cube, &both_ways(62, 63, 3)),
    ];
    examples.into_iter().map(file_of).collect()
}

/// The examples as bench files.
fn files() -> Vec<Vec<u8>> {
    let examples: [Example; 12] = [
        (3, &SECOND_LINKS, &SECOND_CHANGES),
        (3, &FIRST_LINKS, &[(2, 1, UNUSED), (1, 2, UNUSED)]),
        (2, &[(0, 1, UNUSED)], &[(0, 1, UNUSED - 1)]),
        (2, &[], &[(0, 1, UNUSED - 1)]),
        (2, &SIXTH_LINKS[1..], &SIXTH_LINKS[..1]),
        (2, &SIXTH_LINKS, &[(1, 0, UNUSED), (0, 1, 1)]),
        (2, &[(0, 1, 2)], &[(0, 1, 2)]),
        (2, &[(0, 1, 2), (1, 0, 2)], &[(0, 1, 3), (1, 0, 1)]),
        (4, &NINTH_LINKS, &NINTH_CHANGES),
        (4, &[NINTH_LINKS[0], NINTH_LINKS[2]], &NINTH_CHANGES),
        (3, &FIRST_LINKS, &[]),
        (3, &LAST_LINKS, &[(0, 1, 2)]),
    ];
    let mut files: Vec<Vec<u8>> = examples.into_iter().map(file_of).collect();
    files.extend(DEAD_LINKS.map(|(file, ..)| with_times(file)));
    files.extend(FILE_TIMES.map(|(file, ..)| bytes(file)));
    files.extend((0..=10).map(stopped));
    files.push(finished());
    files.push(file_of((5, &star(5, 1), &star(5, UNUSED))));
    files
}
