//! The kinds of work that are compared. Each is made with inputs for both sides, after a check that both give the same
//! results.

use std::hint::black_box;

use crate::areas::{self, Area};
use crate::file;
use crate::isis;
use crate::limits::{LARGEST_FILE, STEP, WIDTH};
use crate::ofib;
use crate::plan::{Record, TIMES, Tables, Times, plan};
use crate::sheet::sheet;
use crate::step::{self, Answer};
use crate::text;

/// One kind of work. A call of a side does `operations` operations.
pub struct Work {
    pub name: &'static str,
    pub operation: &'static str,
    pub operations: usize,
    pub library: Box<dyn FnMut()>,
    pub plain: Box<dyn FnMut()>,
}

pub fn all() -> Vec<Work> {
    let dense = areas::dense(WIDTH);
    let fresh = plan(WIDTH, TIMES, &dense.changes, &mut tables_of(&dense)).expect("the dense area is planned");
    let progress = areas::progress(&fresh);
    let mixed = areas::mixed(&fresh);
    let largest = areas::largest_file(&dense, &mixed);
    vec![
        plan_of("plan-sparse", areas::sparse(WIDTH)),
        plan_of("plan-dense", dense),
        plan_of("plan-hypercube", areas::hypercube()),
        plan_of("plan-equal", areas::equal()),
        plan_of("plan-8-sparse", areas::sparse(8)),
        plan_of("plan-8-dense", areas::dense(8)),
        plan_of("plan-16-sparse", areas::sparse(16)),
        plan_of("plan-16-dense", areas::dense(16)),
        sheet_of("sheet-sparse", areas::sparse(WIDTH)),
        sheet_of("sheet-dense", areas::dense(WIDTH)),
        run_of("run-progress", &fresh, progress.clone(), step::run),
        run_of("run-mixed", &fresh, mixed.clone(), step::run),
        run_of("run-progress-by-value", &fresh, progress.clone(), by_value),
        run_of("run-mixed-by-value", &fresh, mixed.clone(), by_value),
        calls_of("calls-progress", &fresh, progress),
        calls_of("calls-mixed", &fresh, mixed),
        read_of("read", largest.clone()),
        isis_of("isis", &areas::dense(WIDTH)),
        rehearsal_of("rehearse", largest),
    ]
}

/// The largest file, for the programs that read it from standard input.
pub fn largest_file() -> Vec<u8> {
    let dense = areas::dense(WIDTH);
    let fresh = plan(WIDTH, TIMES, &dense.changes, &mut tables_of(&dense)).expect("the dense area is planned");
    areas::largest_file(&dense, &areas::mixed(&fresh))
}

fn tables_of(area: &Area) -> Tables {
    let mut tables = Tables::blank();
    tables.old.copy_from_slice(&area.metric);
    tables
}

/// The tables, lent to the library.
fn lent(t: &mut Tables) -> ofib::Tables<'_> {
    ofib::Tables {
        old: &mut t.old,
        new: &mut t.new,
        old_dist: &mut t.old_dist,
        old_hops: &mut t.old_hops,
        old_fours: &mut t.old_fours,
        new_dist: &mut t.new_dist,
        new_hops: &mut t.new_hops,
        new_fours: &mut t.new_fours,
    }
}

fn for_library(r: &Record) -> ofib::Record {
    ofib::Record {
        n: r.n,
        root: r.root,
        direction: r.direction,
        ranks: r.ranks,
        waiting: r.waiting,
        telling: r.telling,
        due: r.due,
        states: r.states,
        written: r.written,
        hold_time: r.hold_time,
        step_time: r.step_time,
        clock: r.clock,
        learn_times: r.learn_times,
    }
}

fn require(name: &str, is_same: bool) {
    if !is_same {
        eprintln!("{name}: the library and the plain program give different results");
        std::process::exit(1);
    }
}

fn are_same(a: &Tables, b: &Tables) -> bool {
    let old = a.old == b.old && a.old_dist == b.old_dist && a.old_hops == b.old_hops && a.old_fours == b.old_fours;
    let new = a.new == b.new && a.new_dist == b.new_dist && a.new_hops == b.new_hops && a.new_fours == b.new_fours;
    old && new
}

/// A full plan of an area.
fn plan_of(name: &'static str, area: Area) -> Work {
    let (mut proved, mut rust) = (tables_of(&area), tables_of(&area));
    let (n, list) = (area.n, area.changes);
    let mut record = ofib::Record::default();
    let number = ofib::plan(n, TIMES.hold, TIMES.step, &list, &mut lent(&mut proved), &mut record);
    let expected = plan(n, TIMES, &list, &mut rust);
    require(
        name,
        number == 0 && expected.is_ok_and(|r| for_library(&r) == record) && are_same(&proved, &rust),
    );
    let changes = list.clone();
    Work {
        name,
        operation: "plan",
        operations: 1,
        library: Box::new(move || {
            black_box(ofib::plan(
                black_box(n),
                TIMES.hold,
                TIMES.step,
                &changes,
                &mut lent(&mut proved),
                black_box(&mut record),
            ));
        }),
        plain: Box::new(move || {
            black_box(&plan(black_box(n), TIMES, &list, &mut rust));
        }),
    }
}

/// The running sheet of an area, with the plan that it needs.
fn sheet_of(name: &'static str, area: Area) -> Work {
    let (mut proved, mut rust) = (tables_of(&area), tables_of(&area));
    let (n, list) = (area.n, area.changes);
    let mut routers = [0; WIDTH];
    let number = ofib::sheet(n, TIMES.hold, TIMES.step, &list, &mut lent(&mut proved), &mut routers);
    let expected = sheet(n, TIMES, &list, &mut rust);
    require(
        name,
        number == 0 && expected.is_ok_and(|r| r == routers) && are_same(&proved, &rust),
    );
    let changes = list.clone();
    Work {
        name,
        operation: "sheet",
        operations: 1,
        library: Box::new(move || {
            black_box(ofib::sheet(
                black_box(n),
                TIMES.hold,
                TIMES.step,
                &changes,
                &mut lent(&mut proved),
                black_box(&mut routers),
            ));
        }),
        plain: Box::new(move || {
            black_box(&sheet(black_box(n), TIMES, &list, &mut rust));
        }),
    }
}

/// The plain program's run with the record by value. The library has one run only, and is the same beside both.
fn by_value(record: &mut Record, steps: &[u8]) {
    *record = step::run_by_value(record.clone(), steps);
}

/// A list of steps from the fresh record on, by one call, which gives no answers.
fn run_of(name: &'static str, fresh: &Record, steps: Vec<u8>, plain: fn(&mut Record, &[u8])) -> Work {
    let (proved, rust) = (for_library(fresh), fresh.clone());
    let (mut last, mut expected) = (proved.clone(), rust.clone());
    ofib::run(&mut last, &steps);
    plain(&mut expected, &steps);
    require(name, last == for_library(&expected) && last.states == [3; WIDTH]);
    let list = steps.clone();
    Work {
        name,
        operation: "step",
        operations: steps.len() / STEP,
        library: Box::new(move || {
            let mut record = proved.clone();
            ofib::run(black_box(&mut record), &list);
            black_box(&record);
        }),
        plain: Box::new(move || {
            let mut record = rust.clone();
            plain(black_box(&mut record), &steps);
            black_box(&record);
        }),
    }
}

fn is_same_answer(a: ofib::Answer, b: Answer) -> bool {
    match b {
        Answer::Ok => a == ofib::Answer::Ok,
        Answer::Ignored => a == ofib::Answer::Ignored,
        Answer::Refused(why) => a == ofib::Answer::Refused(why.number()),
    }
}

/// A list of steps from the fresh record on, with a call and an answer for each.
fn calls_of(name: &'static str, fresh: &Record, steps: Vec<u8>) -> Work {
    let (proved, rust) = (for_library(fresh), fresh.clone());
    let (mut last, mut expected) = (proved.clone(), rust.clone());
    for s in steps.chunks_exact(STEP) {
        let answer = ofib::step(&mut last, s[0], s[1], s[2]);
        require(
            name,
            is_same_answer(answer, step::step(&mut expected, s[0], s[1], s[2])),
        );
        require(name, last == for_library(&expected));
    }
    let list = steps.clone();
    Work {
        name,
        operation: "step",
        operations: steps.len() / STEP,
        library: Box::new(move || {
            let mut record = proved.clone();
            for s in list.chunks_exact(STEP) {
                black_box(ofib::step(black_box(&mut record), s[0], s[1], s[2]));
            }
        }),
        plain: Box::new(move || {
            let mut record = rust.clone();
            for s in steps.chunks_exact(STEP) {
                black_box(step::step(black_box(&mut record), s[0], s[1], s[2]));
            }
        }),
    }
}

/// Read of the largest file.
fn read_of(name: &'static str, file: Vec<u8>) -> Work {
    let (mut proved, mut rust) = (Tables::blank().old, Tables::blank().old);
    let (number, c) = ofib::read(&file, &mut proved);
    let found = file::Contents {
        n: c.n,
        links: c.links,
        changes: c.changes,
        changes_at: c.changes_at,
        steps: c.steps,
        steps_at: c.steps_at,
        times: Times {
            hold: c.hold_time,
            step: c.step_time,
        },
    };
    require(
        name,
        number == 0 && file::read(&file, &mut rust) == Ok(found) && proved == rust,
    );
    require(name, file.len() == LARGEST_FILE);
    let bytes = file.clone();
    Work {
        name,
        operation: "file",
        operations: 1,
        library: Box::new(move || {
            black_box(ofib::read(black_box(&bytes), &mut proved));
        }),
        plain: Box::new(move || {
            black_box(&file::read(black_box(&file), &mut rust));
        }),
    }
}

/// A dense area from IS-IS: an entry for each pair, with sub-TLVs of 6 bytes.
fn isis_of(name: &'static str, area: &Area) -> Work {
    let (identities, lists) = (areas::identities(), areas::lists(area));
    let (mut proved, mut rust) = (Tables::blank().old, Tables::blank().old);
    let number = ofib::isis(WIDTH, &identities, &lists, &mut proved);
    let answer = isis::read(WIDTH, &identities, &lists, &mut rust);
    require(
        name,
        number == 0 && answer == Ok(()) && proved == rust && proved == area.metric,
    );
    let (table, bytes) = (identities.clone(), lists.clone());
    Work {
        name,
        operation: "area",
        operations: 1,
        library: Box::new(move || {
            black_box(ofib::isis(WIDTH, black_box(&table), black_box(&bytes), &mut proved));
        }),
        plain: Box::new(move || {
            black_box(&isis::read(WIDTH, black_box(&identities), black_box(&lists), &mut rust));
        }),
    }
}

/// The rehearsal of the largest file, from its bytes to the last byte of the text, in a buffer that has room.
fn rehearsal_of(name: &'static str, file: Vec<u8>) -> Work {
    let (mut proved, mut rust) = (Tables::blank(), Tables::blank());
    let mut out = vec![0; ofib::REHEARSAL_ROOM];
    let mut expected = Vec::with_capacity(ofib::REHEARSAL_ROOM);
    let length = ofib::rehearse(&file, &mut lent(&mut proved), &mut out);
    text::rehearse(&file, &mut rust, &mut expected);
    require(name, out[..length] == expected);
    let bytes = file.clone();
    Work {
        name,
        operation: "file",
        operations: 1,
        library: Box::new(move || {
            black_box(ofib::rehearse(black_box(&bytes), &mut lent(&mut proved), &mut out));
        }),
        plain: Box::new(move || {
            text::rehearse(black_box(&file), &mut rust, &mut expected);
            black_box(&expected);
        }),
    }
}
