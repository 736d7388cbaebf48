//! What has been compared, and which answers of 01 have come up.

use crate::fours::Fours;
use crate::isis::{self, Part};
use crate::ofib::{Answer, WIDTH};
use crate::plan::{MOST_CHANGES, RISE};
use crate::read::{Fault, SECTIONS};
use crate::step::TICK;
use crate::timers::Timers;

/// How often each answer of a call came up; 0 stands for "not refused".
pub type Numbers = [u64; 256];

const PARTS: [Part; 6] = [
    Part::Routers,
    Part::Row,
    Part::Length,
    Part::List,
    Part::Entry,
    Part::End,
];

pub const STEP_KINDS: [&str; 7] = ["another kind", "learn", "release", "write", "finish", "deliver", "tick"];
/// The place of "ignored" among a step's answers; no refusal has this number.
const IGNORED: usize = 255;

/// What one list of changes shows of the usable metrics (02, No. 4).
#[derive(Clone, Copy, PartialEq, Eq)]
pub enum Usable {
    /// Accepted, with an entry that has no effect.
    IdleEntry,
    /// Accepted, though the entries' own metrics rise and fall.
    RawMixed,
    /// Accepted, and a pair that is in no entry has another usable metric.
    Unlisted,
    /// Accepted, where an entry without effect decides the root.
    IdleRoot,
    /// 13, though the entries that have an effect have a common router.
    IdleNoCommon,
    /// 11, though an entry has another metric than before.
    RawDiffers,
    /// 11, though the entries have no common router.
    SameNoCommon,
}

const USABLE: [(Usable, &str); 7] = [
    (Usable::IdleEntry, "accepted plan with an entry without effect"),
    (Usable::RawMixed, "accepted plan whose entries rise and fall"),
    (Usable::Unlisted, "accepted plan that moves a pair in no entry"),
    (Usable::IdleRoot, "root by an entry without effect"),
    (Usable::IdleNoCommon, "13 by an entry without effect"),
    (Usable::RawDiffers, "11 where an entry has another metric"),
    (Usable::SameNoCommon, "11 without a common router"),
];

/// What texts of unfinished routers are to have, each somewhere.
const UNFINISHED: [(&str, &str); 10] = [
    (" idle waits", "router that is idle in the end"),
    (" holding waits", "router that is holding in the end"),
    (" ongoing waits", "router that is ongoing in the end"),
    (" ongoing waits none", "router that could write or finish in the end"),
    (" unwritten none\n", "router with nothing left to write"),
    (" 63 unwritten", "router that waits for router 63 in the end"),
    (" 62 63\n", "router that has written neither router 62 nor 63"),
    (" holds until", "router that has not been released in the end"),
    (" waits until", "router that waits for its due time in the end"),
    ("missing 0\n", "file whose steps leave nothing missing"),
];

pub struct Counts {
    pub areas: u64,
    /// Accepted rises and falls, by the number of routers.
    pub rises: [u64; WIDTH + 1],
    pub falls: [u64; WIDTH + 1],
    pub sizes: [u64; WIDTH + 1],
    /// Accepted plans that another order of the changes left the same.
    orders: u64,
    /// Refusals that another order of the changes gave another number, of 4 to 7.
    other_numbers: u64,
    /// What usable metrics and entries without effect have led to, each as often as it came up.
    usable: [u64; USABLE.len()],
    pub fours: Fours,
    /// Running sheets that were followed to their end.
    pub followed: u64,
    pub files: u64,
    pub stored_files: u64,
    pub short_texts: u64,
    pub processes: u64,
    /// The old reader's answers to the files, and how many it took with and without dead links.
    pub rewriting: Numbers,
    pub with_dead_links: u64,
    pub without_dead_links: u64,
    /// Runs of the program that rewrites stored files.
    pub rewrites: u64,
    pub records: u64,
    pub walks: u64,
    /// Plans of which every record was visited, by the number of routers.
    pub small_plans: [u64; 8],
    pub paths: Numbers,
    pub plan: Numbers,
    pub sheet: Numbers,
    pub read: Numbers,
    pub rehearsal: Numbers,
    pub routes: Numbers,
    steps: [Numbers; STEP_KINDS.len()],
    /// For each refusal of a change list's entry, how often it came up at each place.
    list_places: [[u64; MOST_CHANGES]; 16],
    /// For each refusal of Read, how often its cause lay in each section.
    read_sections: [[u64; SECTIONS.len()]; 31],
    pub isis: Numbers,
    /// Link-state data that was accepted, by the number of routers.
    pub isis_sizes: [u64; WIDTH + 1],
    /// For each refusal of link-state data, how often its cause lay in each part.
    isis_parts: [[u64; PARTS.len()]; 34],
    /// What the program that prints areas answered, and how many lists were too long for it.
    pub printed: Numbers,
    pub too_long: u64,
    /// What the program that prints the steps of a sheet answered, and how many sheets have too many for a file.
    pub sheet_steps: Numbers,
    pub too_many_steps: u64,
    pub progress: Progress,
    pub timers: Timers,
}

/// How far runs got (02, No. 8).
pub struct Progress {
    pub finished_runs: u64,
    /// How often it was asked what a record needs, and what it is short of.
    pub needs: u64,
    pub missing: u64,
    /// What the program that prints what is unfinished answered, and how many of its texts have each part.
    pub unfinished: Numbers,
    parts: [u64; UNFINISHED.len()],
}

impl Progress {
    fn new() -> Progress {
        Progress {
            finished_runs: 0,
            needs: 0,
            missing: 0,
            unfinished: [0; 256],
            parts: [0; UNFINISHED.len()],
        }
    }

    /// The parts of one text.
    pub fn unfinished_parts(&mut self, text: &str) {
        for (seen, (part, _)) in self.parts.iter_mut().zip(UNFINISHED) {
            *seen += u64::from(text.contains(part));
        }
    }

    /// The program that prints what is unfinished may not be run.
    fn not_seen(&self, missing: &mut Vec<String>) {
        require(missing, self.finished_runs, || {
            "run in which every router is done and waits for none".to_string()
        });
        if self.unfinished.iter().all(|&count| count == 0) {
            return;
        }
        for number in [0, 1, 2, 3, 4, 5, 6, 7, 9, 10, 11, 12, 13, 30, 36] {
            require(missing, self.unfinished[number], || {
                format!("program that prints what is unfinished answering {number}")
            });
        }
        for (seen, (_, what)) in self.parts.iter().zip(UNFINISHED) {
            require(missing, *seen, || what.to_string());
        }
    }

    fn print(&self) {
        println!(
            "runs in which every router got done and waits for none: {}",
            self.finished_runs
        );
        println!(
            "asked what is needed: {}, what is missing: {}",
            self.needs, self.missing
        );
        println!("unfinished routers printed: {}", answers(&self.unfinished));
    }
}

impl Counts {
    pub fn new() -> Counts {
        Counts {
            areas: 0,
            rises: [0; WIDTH + 1],
            falls: [0; WIDTH + 1],
            sizes: [0; WIDTH + 1],
            orders: 0,
            other_numbers: 0,
            usable: [0; USABLE.len()],
            fours: Fours::default(),
            followed: 0,
            files: 0,
            stored_files: 0,
            short_texts: 0,
            processes: 0,
            rewriting: [0; 256],
            with_dead_links: 0,
            without_dead_links: 0,
            rewrites: 0,
            records: 0,
            walks: 0,
            small_plans: [0; 8],
            paths: [0; 256],
            plan: [0; 256],
            sheet: [0; 256],
            read: [0; 256],
            rehearsal: [0; 256],
            routes: [0; 256],
            steps: [[0; 256]; STEP_KINDS.len()],
            list_places: [[0; MOST_CHANGES]; 16],
            read_sections: [[0; SECTIONS.len()]; 31],
            isis: [0; 256],
            isis_sizes: [0; WIDTH + 1],
            isis_parts: [[0; PARTS.len()]; 34],
            printed: [0; 256],
            too_long: 0,
            sheet_steps: [0; 256],
            too_many_steps: 0,
            progress: Progress::new(),
            timers: Timers::default(),
        }
    }

    pub fn accepted(&mut self, n: u8, direction: u8) {
        let by_size = if direction == RISE {
            &mut self.rises
        } else {
            &mut self.falls
        };
        by_size[usize::from(n)] += 1;
    }

    pub fn usable(&mut self, what: Usable) {
        let place = USABLE.iter().position(|&(listed, _)| listed == what);
        self.usable[place.expect("each is listed")] += 1;
    }

    /// The answers to the same changes in two orders.
    pub fn order(&mut self, first: u8, other: u8) {
        self.orders += u64::from(first == 0 && other == 0);
        self.other_numbers += u64::from(first != 0 && other != 0 && first != other);
    }

    pub fn step(&mut self, kind: u8, answer: Answer) {
        let kind = if kind > TICK { 0 } else { usize::from(kind) };
        let number = match answer {
            Answer::Ok => 0,
            Answer::Ignored => IGNORED,
            Answer::Refused(number) => usize::from(number),
        };
        self.steps[kind][number] += 1;
    }

    pub fn list_place(&mut self, place: usize, number: u8) {
        self.list_places[usize::from(number)][place] += 1;
    }

    pub fn read_section(&mut self, fault: Fault) {
        let section = SECTIONS.iter().position(|&section| section == fault.section);
        self.read_sections[usize::from(fault.number)][section.expect("every section is listed")] += 1;
    }

    pub fn isis_part(&mut self, fault: isis::Fault) {
        let part = PARTS.iter().position(|&part| part == fault.part);
        self.isis_parts[usize::from(fault.number)][part.expect("every part is listed")] += 1;
    }

    /// The answers of 01 and 02 that can come up and have not.
    pub fn missing(&self) -> Vec<String> {
        let mut missing = Vec::new();
        self.missing_numbers(&mut missing);
        self.missing_steps(&mut missing);
        self.missing_places(&mut missing);
        self.missing_isis(&mut missing);
        self.missing_sheet_steps(&mut missing);
        self.progress.not_seen(&mut missing);
        self.fours.not_seen(&mut missing);
        self.timers.not_seen(&mut missing);
        for n in 1..=WIDTH {
            require(&mut missing, self.sizes[n], || format!("area of {n} routers"));
        }
        for n in 2..=WIDTH {
            require(&mut missing, self.rises[n], || {
                format!("accepted rise with {n} routers")
            });
            require(&mut missing, self.falls[n], || {
                format!("accepted fall with {n} routers")
            });
        }
        require(&mut missing, self.orders, || {
            "accepted plan of changes in another order".to_string()
        });
        require(&mut missing, self.other_numbers, || {
            "refusal with another number in another order".to_string()
        });
        require(&mut missing, self.with_dead_links, || {
            "stored file with dead links".to_string()
        });
        require(&mut missing, self.without_dead_links, || {
            "stored file without dead links".to_string()
        });
        for (seen, (_, what)) in self.usable.iter().zip(USABLE) {
            require(&mut missing, *seen, || what.to_string());
        }
        missing
    }

    fn missing_numbers(&self, missing: &mut Vec<String>) {
        let of_texts: &[usize] = &[0, 1, 2, 3, 4, 5, 6, 7, 8, 9, 10, 11, 12, 13, 30, 36];
        let of_plan: &[usize] = &[0, 1, 3, 4, 5, 6, 7, 8, 9, 10, 11, 12, 13, 36];
        let calls: [(&str, &Numbers, &[usize]); 8] = [
            ("Paths", &self.paths, &[0, 3, 6, 8]),
            ("Plan", &self.plan, of_plan),
            ("the sheet", &self.sheet, of_plan),
            ("Read", &self.read, &[0, 1, 2, 3, 4, 5, 6, 7, 8, 9, 30]),
            ("the old reader", &self.rewriting, &[0, 1, 2, 3, 4, 5, 6, 7, 9]),
            ("rehearsal", &self.rehearsal, of_texts),
            ("routes", &self.routes, of_texts),
            ("lists from IS-IS", &self.isis, &[0, 1, 2, 3, 4, 5, 6, 8, 31, 32, 33]),
        ];
        for (call, numbers, wanted) in calls {
            for &number in wanted {
                require(missing, numbers[number], || format!("{call} answering {number}"));
            }
        }
    }

    fn missing_steps(&self, missing: &mut Vec<String>) {
        let wanted: [&[usize]; STEP_KINDS.len()] = [
            &[20, 21],
            &[0, 20, 4, 23],
            &[0, 20, 4, 23, 34],
            &[0, 20, 4, 23, 24, 25],
            &[0, 20, 4, 23, 24, 26],
            &[0, IGNORED, 20, 4, 27, 28],
            &[0, 20, 35],
        ];
        for (kind, numbers) in wanted.into_iter().enumerate() {
            for &number in numbers {
                require(missing, self.steps[kind][number], || {
                    format!("{} answering {number}", STEP_KINDS[kind])
                });
            }
        }
    }

    fn missing_places(&self, missing: &mut Vec<String>) {
        for number in [4, 5, 6, 7] {
            // The first entry of a list cannot repeat an earlier one.
            let first = if number == 7 { 1 } else { 0 };
            for place in first..MOST_CHANGES {
                let seen = self.list_places[number][place];
                require(missing, seen, || format!("Plan refusing {number} at entry {place}"));
            }
        }
        let wanted: [(usize, &[usize]); 9] = [
            (1, &[0, 1, 2, 3, 4, 5, 6, 7]),
            (2, &[8]),
            (3, &[0]),
            (4, &[2]),
            (5, &[2]),
            (6, &[2]),
            (7, &[2]),
            (9, &[1, 3, 6]),
            (30, &[2]),
        ];
        for (number, sections) in wanted {
            for &section in sections {
                let seen = self.read_sections[number][section];
                require(missing, seen, || {
                    format!("Read refusing {number} in section {:?}", SECTIONS[section])
                });
            }
        }
    }

    fn missing_isis(&self, missing: &mut Vec<String>) {
        let wanted: [(usize, &[Part]); 9] = [
            (1, &[Part::Row, Part::Length, Part::List]),
            (2, &[Part::End]),
            (3, &[Part::Routers]),
            (4, &[Part::Row]),
            (5, &[Part::Entry]),
            (6, &[Part::Entry]),
            (31, &[Part::Entry]),
            (32, &[Part::Entry]),
            (33, &[Part::Entry]),
        ];
        for (number, parts) in wanted {
            for &part in parts {
                let place = PARTS.iter().position(|&listed| listed == part);
                let seen = self.isis_parts[number][place.expect("every part is listed")];
                require(missing, seen, || {
                    format!("lists from IS-IS refused with {number} for {part:?}")
                });
            }
        }
        for n in 1..=WIDTH {
            require(missing, self.isis_sizes[n], || {
                format!("lists from IS-IS of {n} routers")
            });
        }
        // The program may not be run. As every byte is of a list that it counts, it never sees 2.
        if self.printed.iter().any(|&count| count > 0) {
            for number in [0, 1, 3, 4, 5, 6, 31, 32, 33] {
                require(missing, self.printed[number], || {
                    format!("program that prints areas answering {number}")
                });
            }
            require(missing, self.too_long, || "lists too long to be printed".to_string());
        }
    }

    /// The program that prints the steps of a sheet may not be run.
    fn missing_sheet_steps(&self, missing: &mut Vec<String>) {
        if self.sheet_steps.iter().all(|&count| count == 0) {
            return;
        }
        for number in [0, 1, 2, 3, 4, 5, 6, 7, 9, 10, 11, 12, 13, 30, 36] {
            require(missing, self.sheet_steps[number], || {
                format!("program that prints the steps of a sheet answering {number}")
            });
        }
        require(missing, self.too_many_steps, || {
            "sheet with too many steps for a file".to_string()
        });
    }

    pub fn print(&self) {
        let sum = |numbers: &[u64]| numbers.iter().sum::<u64>();
        println!(
            "areas: {}, accepted rises {}, falls {}",
            self.areas,
            sum(&self.rises),
            sum(&self.falls)
        );
        self.progress.print();
        println!("Paths: {}", answers(&self.paths));
        println!("Plan: {}", answers(&self.plan));
        println!(
            "changes in another order: the same plan {}, another refusal {}",
            self.orders, self.other_numbers
        );
        for (seen, (_, what)) in self.usable.iter().zip(USABLE) {
            println!("{what}: {seen}");
        }
        self.fours.print();
        println!("sheets: {}; followed {}", answers(&self.sheet), self.followed);
        println!("Read: {}", answers(&self.read));
        println!("rehearsal: {}", answers(&self.rehearsal));
        println!("routes: {}", answers(&self.routes));
        for (kind, numbers) in STEP_KINDS.iter().zip(&self.steps) {
            println!("step, {kind}: {}", answers(numbers));
        }
        self.timers.print();
        println!(
            "files: {}, texts cut short {}, runs of the program {}",
            self.files, self.short_texts, self.processes
        );
        self.print_programs();
        let [_, _, two, three, four, _, six, seven] = self.small_plans;
        println!("reachable records: {}, walks {}", self.records, self.walks);
        println!(
            "plans searched for them: {two} with 2 routers, {three} with 3, {four} with 4, {six} with 6, {seven} with 7"
        );
    }

    /// Lists from IS-IS, stored files, and what the programs made of them and of sheets.
    fn print_programs(&self) {
        println!("lists from IS-IS: {}", answers(&self.isis));
        println!(
            "areas printed from them: {}, too long {}",
            answers(&self.printed),
            self.too_long
        );
        println!(
            "steps of sheets printed: {}, too many {}",
            answers(&self.sheet_steps),
            self.too_many_steps
        );
        println!("the old reader: {}", answers(&self.rewriting));
        println!(
            "stored files: {} with dead links, {} without, runs of the program that rewrites them {}",
            self.with_dead_links, self.without_dead_links, self.rewrites
        );
    }
}

pub fn require(missing: &mut Vec<String>, seen: u64, what: impl Fn() -> String) {
    if seen == 0 {
        missing.push(what());
    }
}

/// The answers that came up, with how often each did.
fn answers(numbers: &Numbers) -> String {
    let name = |number: usize| match number {
        0 => "ok".to_string(),
        IGNORED => "ignored".to_string(),
        _ => number.to_string(),
    };
    let seen = numbers.iter().enumerate().filter(|(_, count)| **count > 0);
    let words: Vec<String> = seen
        .map(|(number, count)| format!("{} {count}", name(number)))
        .collect();
    words.join(", ")
}
