//! The proved library `libexports.a`, as safe Rust. No exported function asks anything of its caller, so nothing has to
//! be tested before a call: a slice goes over as its pointer and its length, an array as its pointer. The declarations
//! are those of `crates/exports/src/lib.rt`: `.ci/bindings` compares the names and types of all places and results, and
//! the numbers too.

pub const WIDTH: usize = 64;
pub const CELLS: usize = WIDTH * WIDTH;
pub const ENTRY: usize = 5;
pub const MOST_CHANGES: usize = 2 * (WIDTH - 1);
pub const STEP: usize = 3;
pub const MOST_STEPS: usize = 4096;
pub const LARGEST: usize = 10 + ENTRY * WIDTH * (WIDTH - 1) + ENTRY * MOST_CHANGES + STEP * MOST_STEPS;

/// Room for the rehearsal of any file, and for its routes.
pub const REHEARSAL_ROOM: usize = 133 * WIDTH + 27 + 55 * MOST_STEPS + 4;
pub const ROUTES_ROOM: usize = 19 + 148 * CELLS;

/// A set of routers: bit k stands for router k, so it has WIDTH bits.
pub type Set = u64;

/// A plan's record. Entry r of a table per router belongs to router r, and is 0 from n on.
#[derive(Clone, Debug, PartialEq, Eq, Hash)]
pub struct Record {
    pub n: u8,
    pub root: u8,
    pub direction: u8,
    pub ranks: [u8; WIDTH],
    pub waiting: [Set; WIDTH],
    pub telling: [Set; WIDTH],
    pub due: [Set; WIDTH],
    pub states: [u8; WIDTH],
    pub written: [Set; WIDTH],
    pub hold_time: u16,
    pub step_time: u16,
    pub clock: u32,
    pub learn_times: [u32; WIDTH],
}

/// All 0, as with a refusal. Rust has no default for arrays of more than 32 entries.
impl Default for Record {
    fn default() -> Record {
        Record {
            n: 0,
            root: 0,
            direction: 0,
            ranks: [0; WIDTH],
            waiting: [0; WIDTH],
            telling: [0; WIDTH],
            due: [0; WIDTH],
            states: [0; WIDTH],
            written: [0; WIDTH],
            hold_time: 0,
            step_time: 0,
            clock: 0,
            learn_times: [0; WIDTH],
        }
    }
}

/// What a file says of itself: all 0 with a refusal.
#[derive(Clone, Copy, Debug, Default, PartialEq, Eq)]
pub struct Contents {
    pub n: usize,
    pub links: usize,
    pub changes: usize,
    pub changes_at: usize,
    pub steps: usize,
    pub steps_at: usize,
    pub hold_time: u16,
    pub step_time: u16,
}

/// The answer of a step.
#[derive(Clone, Copy, Debug, PartialEq, Eq)]
pub enum Answer {
    Ok,
    Ignored,
    Refused(u8),
}

/// The eight tables that Plan and the texts are lent: the metrics of both topologies, and of each the distances, the
/// full sets of next hops and the sets of four, which are their four lowest members.
pub struct Tables<'a> {
    pub old: &'a mut [u32],
    pub new: &'a mut [u32],
    pub old_dist: &'a mut [u32],
    pub old_hops: &'a mut [Set],
    pub old_fours: &'a mut [Set],
    pub new_dist: &'a mut [u32],
    pub new_hops: &'a mut [Set],
    pub new_fours: &'a mut [Set],
}

mod c {
    use super::{Set, WIDTH};

    #[link(name = "exports", kind = "static")]
    unsafe extern "C" {
        pub fn ofib_read(
            file: *const u8,
            file_len: usize,
            table: *mut u32,
            table_len: usize,
            contents: *mut [usize; 8],
        ) -> u8;
        pub fn ofib_isis(
            n: usize,
            identities: *const u8,
            identities_len: usize,
            lists: *const u8,
            lists_len: usize,
            table: *mut u32,
            table_len: usize,
        ) -> u8;
        pub fn ofib_paths(
            n: usize,
            metric: *const u32,
            metric_len: usize,
            dist: *mut u32,
            dist_len: usize,
            hops: *mut Set,
            hops_len: usize,
            fours: *mut Set,
            fours_len: usize,
        ) -> u8;
        pub fn ofib_plan(
            n: usize,
            hold_time: u16,
            step_time: u16,
            old: *const u32,
            old_len: usize,
            list: *const u8,
            list_len: usize,
            new: *mut u32,
            new_len: usize,
            old_dist: *mut u32,
            old_dist_len: usize,
            old_hops: *mut Set,
            old_hops_len: usize,
            old_fours: *mut Set,
            old_fours_len: usize,
            new_dist: *mut u32,
            new_dist_len: usize,
            new_hops: *mut Set,
            new_hops_len: usize,
            new_fours: *mut Set,
            new_fours_len: usize,
            routers: *mut u8,
            root: *mut u8,
            direction: *mut u8,
            ranks: *mut [u8; WIDTH],
            waiting: *mut [Set; WIDTH],
            telling: *mut [Set; WIDTH],
            due: *mut [Set; WIDTH],
            states: *mut [u8; WIDTH],
            written: *mut [Set; WIDTH],
            record_hold_time: *mut u16,
            record_step_time: *mut u16,
            clock: *mut u32,
            learn_times: *mut [u32; WIDTH],
        ) -> u8;
        pub fn ofib_sheet(
            n: usize,
            hold_time: u16,
            step_time: u16,
            old: *const u32,
            old_len: usize,
            list: *const u8,
            list_len: usize,
            new: *mut u32,
            new_len: usize,
            old_dist: *mut u32,
            old_dist_len: usize,
            old_hops: *mut Set,
            old_hops_len: usize,
            old_fours: *mut Set,
            old_fours_len: usize,
            new_dist: *mut u32,
            new_dist_len: usize,
            new_hops: *mut Set,
            new_hops_len: usize,
            new_fours: *mut Set,
            new_fours_len: usize,
            routers: *mut [u8; WIDTH],
        ) -> u8;
        pub fn ofib_step(
            n: u8,
            ranks: *const [u8; WIDTH],
            waiting: *mut [Set; WIDTH],
            telling: *const [Set; WIDTH],
            due: *const [Set; WIDTH],
            states: *mut [u8; WIDTH],
            written: *mut [Set; WIDTH],
            hold_time: u16,
            step_time: u16,
            clock: *mut u32,
            learn_times: *mut [u32; WIDTH],
            kind: u8,
            a: u8,
            b: u8,
        ) -> u8;
        pub fn ofib_run(
            routers: *mut u8,
            root: *mut u8,
            direction: *mut u8,
            ranks: *mut [u8; WIDTH],
            waiting: *mut [Set; WIDTH],
            telling: *mut [Set; WIDTH],
            due: *mut [Set; WIDTH],
            states: *mut [u8; WIDTH],
            written: *mut [Set; WIDTH],
            hold_time: *mut u16,
            step_time: *mut u16,
            clock: *mut u32,
            learn_times: *mut [u32; WIDTH],
            bytes: *const u8,
            bytes_len: usize,
        );
        pub fn ofib_needs(n: u8, waiting: *const [Set; WIDTH], due: *const [Set; WIDTH]) -> usize;
        pub fn ofib_missing(
            n: u8,
            waiting: *const [Set; WIDTH],
            due: *const [Set; WIDTH],
            states: *const [u8; WIDTH],
            written: *const [Set; WIDTH],
        ) -> usize;
        pub fn ofib_rehearse(
            file: *const u8,
            file_len: usize,
            old: *mut u32,
            old_len: usize,
            new: *mut u32,
            new_len: usize,
            old_dist: *mut u32,
            old_dist_len: usize,
            old_hops: *mut Set,
            old_hops_len: usize,
            old_fours: *mut Set,
            old_fours_len: usize,
            new_dist: *mut u32,
            new_dist_len: usize,
            new_hops: *mut Set,
            new_hops_len: usize,
            new_fours: *mut Set,
            new_fours_len: usize,
            out: *mut u8,
            out_len: usize,
        ) -> usize;
        pub fn ofib_routes(
            file: *const u8,
            file_len: usize,
            old: *mut u32,
            old_len: usize,
            new: *mut u32,
            new_len: usize,
            old_dist: *mut u32,
            old_dist_len: usize,
            old_hops: *mut Set,
            old_hops_len: usize,
            old_fours: *mut Set,
            old_fours_len: usize,
            new_dist: *mut u32,
            new_dist_len: usize,
            new_hops: *mut Set,
            new_hops_len: usize,
            new_fours: *mut Set,
            new_fours_len: usize,
            out: *mut u8,
            out_len: usize,
        ) -> usize;
    }
}

/// Read: the number of its refusal, or 0, and what the file says of itself.
pub fn read(file: &[u8], table: &mut [u32]) -> (u8, Contents) {
    let mut c = [0; 8];
    let answer = unsafe { c::ofib_read(file.as_ptr(), file.len(), table.as_mut_ptr(), table.len(), &mut c) };
    (
        answer,
        Contents {
            n: c[0],
            links: c[1],
            changes: c[2],
            changes_at: c[3],
            steps: c[4],
            steps_at: c[5],
            hold_time: c[6] as u16,
            step_time: c[7] as u16,
        },
    )
}

/// An area from IS-IS: the number of the refusal, or 0. `table` gets the metrics of the links in the n lists.
pub fn isis(n: usize, identities: &[u8], lists: &[u8], table: &mut [u32]) -> u8 {
    unsafe {
        c::ofib_isis(
            n,
            identities.as_ptr(),
            identities.len(),
            lists.as_ptr(),
            lists.len(),
            table.as_mut_ptr(),
            table.len(),
        )
    }
}

/// Paths: the number of its refusal, or 0. `hops` gets the full sets of next hops, and `fours` the sets of four.
pub fn paths(n: usize, metric: &[u32], dist: &mut [u32], hops: &mut [Set], fours: &mut [Set]) -> u8 {
    unsafe {
        c::ofib_paths(
            n,
            metric.as_ptr(),
            metric.len(),
            dist.as_mut_ptr(),
            dist.len(),
            hops.as_mut_ptr(),
            hops.len(),
            fours.as_mut_ptr(),
            fours.len(),
        )
    }
}

/// Plan: the number of its refusal, or 0. `t.old` is read, and the other tables and the record are filled.
pub fn plan(n: usize, hold_time: u16, step_time: u16, list: &[u8], t: &mut Tables, r: &mut Record) -> u8 {
    unsafe {
        c::ofib_plan(
            n,
            hold_time,
            step_time,
            t.old.as_ptr(),
            t.old.len(),
            list.as_ptr(),
            list.len(),
            t.new.as_mut_ptr(),
            t.new.len(),
            t.old_dist.as_mut_ptr(),
            t.old_dist.len(),
            t.old_hops.as_mut_ptr(),
            t.old_hops.len(),
            t.old_fours.as_mut_ptr(),
            t.old_fours.len(),
            t.new_dist.as_mut_ptr(),
            t.new_dist.len(),
            t.new_hops.as_mut_ptr(),
            t.new_hops.len(),
            t.new_fours.as_mut_ptr(),
            t.new_fours.len(),
            &mut r.n,
            &mut r.root,
            &mut r.direction,
            &mut r.ranks,
            &mut r.waiting,
            &mut r.telling,
            &mut r.due,
            &mut r.states,
            &mut r.written,
            &mut r.hold_time,
            &mut r.step_time,
            &mut r.clock,
            &mut r.learn_times,
        )
    }
}

/// The running sheet: the number of Plan's refusal, or 0. `routers` gets the routers in their order, and the tables are
/// filled as by Plan.
pub fn sheet(n: usize, hold_time: u16, step_time: u16, list: &[u8], t: &mut Tables, routers: &mut [u8; WIDTH]) -> u8 {
    unsafe {
        c::ofib_sheet(
            n,
            hold_time,
            step_time,
            t.old.as_ptr(),
            t.old.len(),
            list.as_ptr(),
            list.len(),
            t.new.as_mut_ptr(),
            t.new.len(),
            t.old_dist.as_mut_ptr(),
            t.old_dist.len(),
            t.old_hops.as_mut_ptr(),
            t.old_hops.len(),
            t.old_fours.as_mut_ptr(),
            t.old_fours.len(),
            t.new_dist.as_mut_ptr(),
            t.new_dist.len(),
            t.new_hops.as_mut_ptr(),
            t.new_hops.len(),
            t.new_fours.as_mut_ptr(),
            t.new_fours.len(),
            routers,
        )
    }
}

/// Step: the record is changed in place.
pub fn step(r: &mut Record, kind: u8, a: u8, b: u8) -> Answer {
    let number = unsafe {
        c::ofib_step(
            r.n,
            &r.ranks,
            &mut r.waiting,
            &r.telling,
            &r.due,
            &mut r.states,
            &mut r.written,
            r.hold_time,
            r.step_time,
            &mut r.clock,
            &mut r.learn_times,
            kind,
            a,
            b,
        )
    };
    match number {
        0 => Answer::Ok,
        255 => Answer::Ignored,
        k => Answer::Refused(k),
    }
}

/// All the steps that the bytes stand for, three bytes each.
pub fn run(r: &mut Record, steps: &[u8]) {
    unsafe {
        c::ofib_run(
            &mut r.n,
            &mut r.root,
            &mut r.direction,
            &mut r.ranks,
            &mut r.waiting,
            &mut r.telling,
            &mut r.due,
            &mut r.states,
            &mut r.written,
            &mut r.hold_time,
            &mut r.step_time,
            &mut r.clock,
            &mut r.learn_times,
            steps.as_ptr(),
            steps.len(),
        )
    }
}

/// How many steps answered ok, ticks not counted, bring a fresh record to one in which all routers are done and wait
/// for none.
pub fn needs(r: &Record) -> usize {
    unsafe { c::ofib_needs(r.n, &r.waiting, &r.due) }
}

/// How many of them are still to come from this record on. Messages that have not come when their receiver is done by
/// its timer stay among them.
pub fn missing(r: &Record) -> usize {
    unsafe { c::ofib_missing(r.n, &r.waiting, &r.due, &r.states, &r.written) }
}

/// Puts the text of a rehearsal at the start of `out`, as far as that has room; the number of bytes put there.
pub fn rehearse(file: &[u8], t: &mut Tables, out: &mut [u8]) -> usize {
    text(c::ofib_rehearse, file, t, out)
}

/// The text of the routes, likewise.
pub fn routes(file: &[u8], t: &mut Tables, out: &mut [u8]) -> usize {
    text(c::ofib_routes, file, t, out)
}

/// A call that takes a file, the eight tables and room for a text.
type TextCall = unsafe extern "C" fn(
    *const u8,
    usize,
    *mut u32,
    usize,
    *mut u32,
    usize,
    *mut u32,
    usize,
    *mut Set,
    usize,
    *mut Set,
    usize,
    *mut u32,
    usize,
    *mut Set,
    usize,
    *mut Set,
    usize,
    *mut u8,
    usize,
) -> usize;

fn text(call: TextCall, file: &[u8], t: &mut Tables, out: &mut [u8]) -> usize {
    unsafe {
        call(
            file.as_ptr(),
            file.len(),
            t.old.as_mut_ptr(),
            t.old.len(),
            t.new.as_mut_ptr(),
            t.new.len(),
            t.old_dist.as_mut_ptr(),
            t.old_dist.len(),
            t.old_hops.as_mut_ptr(),
            t.old_hops.len(),
            t.old_fours.as_mut_ptr(),
            t.old_fours.len(),
            t.new_dist.as_mut_ptr(),
            t.new_dist.len(),
            t.new_hops.as_mut_ptr(),
            t.new_hops.len(),
            t.new_fours.as_mut_ptr(),
            t.new_fours.len(),
            out.as_mut_ptr(),
            out.len(),
        )
    }
}
