//! One call of the library beside the same call of the model: every answer, every cell and every field.

use std::fmt::Debug;
use std::path::Path;

use crate::counts::{Counts, Numbers};
use crate::course::Course;
use crate::flaw::Flaw;
use crate::lent::{Lent, PathTables, PlanTables, RIGHT_SIZES, Sizes};
use crate::link_state::Input;
use crate::ofib::{self, Answer, CELLS, Contents, REHEARSAL_ROOM, ROUTES_ROOM, Record, Tables, WIDTH};
use crate::paths::{self, UNUSED, turned};
use crate::plan::Request;
use crate::random::Random;
use crate::read::Format;
use crate::step::TICK;
use crate::{changes, files as bench_files, from_isis, isis, plan, process, read, rewriting, sheet, step, steps, text};

/// The byte that stands in the room before a call; it is in no text.
const BEFORE: u8 = 0xA5;
/// Bytes after the room, which no call may touch.
const AFTER: usize = 64;
/// More ticks than these are not made one by one where a sheet is followed.
const SINGLE_TICKS: usize = 100;

pub struct Comparison {
    pub flaw: Flaw,
    pub counts: Counts,
    out: Vec<u8>,
}

/// What Plan handed back.
pub struct Planned {
    pub answer: u8,
    pub record: Record,
    pub tables: PlanTables,
}

/// A text as the library gives it and as the model does.
struct TextCall {
    name: &'static str,
    /// Room for every such text.
    most: usize,
    library: fn(&[u8], &mut Tables, &mut [u8]) -> usize,
    model: fn(&[u8], &mut Tables, Flaw) -> String,
}

const REHEARSAL: TextCall = TextCall {
    name: "rehearsal",
    most: REHEARSAL_ROOM,
    library: ofib::rehearse,
    model: text::rehearsal,
};
const ROUTES: TextCall = TextCall {
    name: "routes",
    most: ROUTES_ROOM,
    library: ofib::routes,
    model: text::routes,
};

impl Comparison {
    pub fn new(flaw: Flaw) -> Comparison {
        Comparison {
            flaw,
            counts: Counts::new(),
            out: vec![BEFORE; REHEARSAL_ROOM.max(ROUTES_ROOM) + AFTER],
        }
    }

    pub fn paths(&mut self, random: &mut Random, n: usize, metric: &[u32], sizes: [usize; 3]) -> Result<u8, String> {
        let mut tables = PathTables::filled(random, sizes);
        let mut model_tables = tables.clone();
        let PathTables { dist, hops, fours } = &mut tables;
        let answer = ofib::paths(n, metric, dist.cells_mut(), hops.cells_mut(), fours.cells_mut());
        let PathTables { dist, hops, fours } = &mut model_tables;
        let (dist, hops, fours) = (dist.cells_mut(), hops.cells_mut(), fours.cells_mut());
        let model = paths::paths(n, metric, dist, hops, fours, self.flaw);
        same("Paths' answer", answer, model)?;
        tables.compare(&model_tables, "of Paths'")?;
        self.counts.paths[usize::from(answer)] += 1;
        if answer == 0 {
            turned_round(random, n, metric, tables.dist.cells())?;
        }
        Ok(answer)
    }

    /// Plan, Plan of the same changes in another order, and the running sheet of the same input. The sizes are those of
    /// the seven tables that all of them fill.
    pub fn plan(
        &mut self,
        random: &mut Random,
        request: Request,
        old: &[u32],
        sizes: [usize; 7],
    ) -> Result<Planned, String> {
        let mut all = [0; 8];
        all[1..].copy_from_slice(&sizes);
        let mut tables = PlanTables::filled(random, all);
        tables.old = Lent::holding(random, old);
        let planned = self.plan_alone(random, request, tables.clone())?;
        self.other_order(random, request, tables.clone(), &planned)?;
        let routers = self.sheet(random, request, tables, &planned)?;
        if planned.answer == 0 {
            self.counts.accepted(planned.record.n, planned.record.direction);
            self.counts.fours.count(&planned);
            self.follow(&planned.record, &routers)?;
        }
        Ok(planned)
    }

    fn plan_alone(&mut self, random: &mut Random, request: Request, mut tables: PlanTables) -> Result<Planned, String> {
        let Request { n, times, list } = request;
        let mut model_tables = tables.clone();
        // The record is handed back whole, so nothing that it held before may be left in it.
        let mut record = steps::any_record(random);
        let mut model_record = record.clone();
        let answer = ofib::plan(n, times.hold, times.step, list, &mut tables.lend(), &mut record);
        let model = plan::plan(request, &mut model_tables.lend(), &mut model_record, self.flaw);
        same("Plan's answer", answer, model)?;
        tables.compare(&model_tables, "Plan")?;
        records("Plan's record", &record, &model_record)?;
        self.counts.plan[usize::from(answer)] += 1;
        Ok(Planned { answer, record, tables })
    }

    /// The same changes in another order are accepted too, with the same record and tables, or refused too (02, No. 2).
    /// The number may be another one only where the first faulty entry gives it, that is among 4 to 7.
    fn other_order(
        &mut self,
        random: &mut Random,
        request: Request,
        tables: PlanTables,
        planned: &Planned,
    ) -> Result<(), String> {
        let reordered = changes::in_another_order(random, request.list);
        if reordered == request.list {
            return Ok(());
        }
        let list = &reordered;
        let other = self.plan_alone(random, Request { list, ..request }, tables)?;
        self.counts.order(planned.answer, other.answer);
        let of_entries = 4..=7;
        if !of_entries.contains(&planned.answer) || !of_entries.contains(&other.answer) {
            let what = format!("Plan's answer in the order {reordered:?} beside that in the first");
            same(&what, other.answer, planned.answer)?;
        }
        same_plan(&other, planned).map_err(|what| format!("the changes in the order {reordered:?}: {what}"))
    }

    /// The sheet beside the model's one of the plan, and beside what the plan answered and left in its tables, which
    /// has been compared.
    fn sheet(
        &mut self,
        random: &mut Random,
        Request { n, times, list }: Request,
        mut tables: PlanTables,
        planned: &Planned,
    ) -> Result<[u8; WIDTH], String> {
        let before = std::array::from_fn(|_| random.byte());
        let mut routers = before;
        let answer = ofib::sheet(n, times.hold, times.step, list, &mut tables.lend(), &mut routers);
        same("the sheet's answer", answer, planned.answer)?;
        tables.compare(&planned.tables, "the sheet")?;
        entries("the sheet", &routers, &sheet::sheet(&planned.record, before, self.flaw))?;
        self.counts.sheet[usize::from(answer)] += 1;
        Ok(routers)
    }

    /// Following the sheet, no step is refused or ignored, and in the end every router is done. These are as many steps
    /// as the plan needs, and the ticks of the hold time.
    fn follow(&mut self, fresh: &Record, routers: &[u8; WIDTH]) -> Result<(), String> {
        let (mut library, mut model) = (fresh.clone(), fresh.clone());
        let following = sheet::following(fresh, &routers[..usize::from(fresh.n)], Flaw::None);
        let mut course = Course {
            needs: self.needs(fresh)?,
            oks: 0,
        };
        let wanted = course.needs + usize::from(fresh.hold_time);
        same("steps of following the sheet", wanted, following.len())?;
        for calls in following.chunk_by(|call, next| call[0] == TICK && next[0] == TICK) {
            if calls.len() > SINGLE_TICKS {
                library = self.run(&library, calls.as_flattened())?;
                model = library.clone();
                continue;
            }
            for &call in calls {
                let answer = self.step(&mut library, &mut model, call)?;
                course.went_on(self, call[0], answer, &library)?;
                if answer != Answer::Ok {
                    return Err(format!("following the sheet {routers:?}, step {call:?}: {answer:?}"));
                }
            }
        }
        let last = self.run(fresh, following.as_flattened())?;
        records(
            "following the sheet, record after run beside that after the single steps",
            &last,
            &library,
        )?;
        if !steps::all_done(&last) {
            return Err(format!("following the sheet {routers:?} ends with {last:?}"));
        }
        self.counts.followed += 1;
        self.counts.timers.sheets += u64::from(fresh.hold_time > 0);
        Ok(())
    }

    /// One step of the library's record and of the model's.
    pub fn step(&mut self, library: &mut Record, model: &mut Record, call: [u8; 3]) -> Result<Answer, String> {
        let [kind, a, b] = call;
        let answer = ofib::step(library, kind, a, b);
        let model_answer = step::step(model, call, self.flaw);
        if answer != model_answer {
            return Err(format!(
                "answer to step {call:?}: library {answer:?}, model {model_answer:?}"
            ));
        }
        if library != model {
            records(&format!("record after step {call:?}"), library, model)?;
        }
        self.counts.step(kind, answer);
        self.counts.timers.step(library, call, answer);
        Ok(answer)
    }

    /// All steps of a list by the library's one call, and by the model.
    pub fn run(&mut self, record: &Record, steps: &[u8]) -> Result<Record, String> {
        let (mut library, mut model) = (record.clone(), record.clone());
        ofib::run(&mut library, steps);
        step::run(&mut model, steps, self.flaw);
        records(&format!("record after run of {} bytes", steps.len()), &library, &model)?;
        Ok(library)
    }

    pub fn read(&mut self, random: &mut Random, file: &[u8], size: usize) -> Result<(u8, Contents), String> {
        let mut table = Lent::filled(random, size);
        let mut model_table = table.clone();
        let (answer, contents) = ofib::read(file, table.cells_mut());
        let (model, model_contents) = read::read(file, model_table.cells_mut(), self.flaw);
        same("Read's answer", answer, model)?;
        same("Read's contents", contents, model_contents)?;
        table.compare(&model_table, "of Read")?;
        self.counts.read[usize::from(answer)] += 1;
        if size == CELLS
            && let Err(fault) = read::judge(file, &mut [UNUSED; CELLS], Format::New, Flaw::None)
        {
            self.counts.read_section(fault);
        }
        Ok((answer, contents))
    }

    /// The metric table of link-state data.
    pub fn isis(&mut self, random: &mut Random, input: &Input, size: usize) -> Result<(), String> {
        let Input { n, identities, lists } = input;
        let mut table = Lent::filled(random, size);
        let mut model_table = table.clone();
        let answer = ofib::isis(*n, identities, lists, table.cells_mut());
        let model = isis::isis(*n, identities, lists, model_table.cells_mut(), self.flaw);
        same("answer to lists from IS-IS", answer, model)?;
        table.compare(&model_table, "of lists from IS-IS")?;
        self.counts.isis[usize::from(answer)] += 1;
        if answer == 0 {
            self.counts.isis_sizes[*n] += 1;
        } else if size == CELLS
            && let Some(fault) = isis::fault_of(*n, identities, lists)
        {
            self.counts.isis_part(fault);
        }
        Ok(())
    }

    /// What is printed for link-state data that is taken is a bench file, and the library's Read gives the table of the
    /// lists for it.
    pub fn printed(&mut self, random: &mut Random, input: &Input, text: &str) -> Result<(), String> {
        let Input { n, identities, lists } = input;
        let mut table = Lent::filled(random, CELLS);
        let mut read = table.clone();
        if text == from_isis::TOO_LONG {
            self.counts.too_long += 1;
            return Ok(());
        }
        count_text(&mut self.counts.printed, text);
        if ofib::isis(*n, identities, lists, table.cells_mut()) != 0 {
            return Ok(());
        }
        let (answer, contents) = ofib::read(&bench_files::bytes(text), read.cells_mut());
        same("Read's answer to the printed file", answer, 0)?;
        let counts = (contents.n, contents.changes, contents.steps);
        same("routers, changes and steps of the printed file", counts, (*n, 0, 0))?;
        let times = (contents.hold_time, contents.step_time);
        same("times of the printed file", times, (0, 1))?;
        read.compare(&table, "of Read of the printed file")
    }

    /// What is printed of the steps of a sheet.
    pub fn sheet_steps(&mut self, random: &mut Random, program: &Path, file: &[u8]) -> Result<(), String> {
        let text = process::compare_sheet_steps(random, program, file, self.flaw)?;
        if text.starts_with(text::TOO_MANY_STEPS) {
            self.counts.too_many_steps += 1;
        } else {
            count_text(&mut self.counts.sheet_steps, &text);
        }
        Ok(())
    }

    /// What is printed as unfinished.
    pub fn unfinished(&mut self, random: &mut Random, program: &Path, file: &[u8]) -> Result<(), String> {
        let text = process::compare_unfinished(random, program, file, self.flaw)?;
        count_text(&mut self.counts.progress.unfinished, &text);
        self.counts.progress.unfinished_parts(&text);
        Ok(())
    }

    pub fn rehearsal(
        &mut self,
        random: &mut Random,
        file: &[u8],
        sizes: Sizes,
        room: Option<usize>,
    ) -> Result<String, String> {
        let text = self.text(random, &REHEARSAL, file, sizes, room)?;
        count_text(&mut self.counts.rehearsal, &text);
        Ok(text)
    }

    pub fn routes(
        &mut self,
        random: &mut Random,
        file: &[u8],
        sizes: Sizes,
        room: Option<usize>,
    ) -> Result<String, String> {
        let text = self.text(random, &ROUTES, file, sizes, room)?;
        count_text(&mut self.counts.routes, &text);
        Ok(text)
    }

    /// Compares the text as far as it has room, and the eight tables; gives the whole text. Where no room is given, the
    /// text gets as much as it needs or a little more.
    fn text(
        &mut self,
        random: &mut Random,
        call: &TextCall,
        file: &[u8],
        sizes: Sizes,
        room: Option<usize>,
    ) -> Result<String, String> {
        let name = call.name;
        let mut tables = PlanTables::filled(random, sizes);
        let mut model_tables = tables.clone();
        let text = (call.model)(file, &mut model_tables.lend(), self.flaw);
        let room = room.unwrap_or(text.len() + random.pick(&[0, 1, 100]));
        if text.len().max(room) > call.most {
            return Err(format!(
                "{name}: {} bytes are more than any text has",
                text.len().max(room)
            ));
        }
        self.out[..room + AFTER].fill(BEFORE);
        let length = (call.library)(file, &mut tables.lend(), &mut self.out[..room]);
        let shown = text.len().min(room);
        texts(name, &self.out[..shown], &text.as_bytes()[..shown])?;
        same(&format!("{name}, length of the text"), length, shown)?;
        if let Some(place) = self.out[shown..room + AFTER].iter().position(|&byte| byte != BEFORE) {
            return Err(format!("{name}: byte {} after the text is touched", shown + place));
        }
        tables.compare(&model_tables, name)?;
        self.counts.short_texts += u64::from(shown < text.len());
        Ok(text)
    }

    /// Read, rehearsal and routes of one file, with all the room they need.
    pub fn file(&mut self, random: &mut Random, file: &[u8]) -> Result<String, String> {
        self.one_format(random, file)?;
        let text = self.rehearsal(random, file, RIGHT_SIZES, None)?;
        self.routes(random, file, RIGHT_SIZES, None)?;
        self.counts.files += 1;
        Ok(text)
    }

    /// Read's answer. No file is taken by it and by the old reader.
    fn one_format(&mut self, random: &mut Random, file: &[u8]) -> Result<u8, String> {
        let (answer, _) = self.read(random, file, CELLS)?;
        match rewriting::old_reader(file, self.flaw) {
            (Ok(_), _) if answer == 0 => Err("Read and the old reader take the file".to_string()),
            _ => Ok(answer),
        }
    }

    /// The old reader refuses what Read does of the file with times, but for 30, which it never gives. The file as the
    /// model rewrites it is accepted by the library's Read and gives the table that the old reader gave; its changes
    /// and steps are the old ones (02, No. 5), and it has the times of No. 10.
    pub fn stored(&mut self, random: &mut Random, file: &[u8]) -> Result<(), String> {
        self.one_format(random, file)?;
        let timed = rewriting::with_times(file);
        let answer = self.one_format(random, &timed)?;
        let (outcome, table) = rewriting::old_reader(file, self.flaw);
        let refused = outcome.map_or_else(|fault| fault.number, |_| 0);
        if answer != 30 {
            same("Read's answer beside the old reader's", answer, refused)?;
        } else if refused == 30 {
            return Err("the old reader refuses a dead link".to_string());
        }
        self.counts.rewriting[usize::from(refused)] += 1;
        let Ok(contents) = outcome else {
            return Ok(());
        };
        let rewritten = rewriting::rewritten(file, self.flaw);
        if !rewriting::has_dead_link(file) {
            self.counts.without_dead_links += 1;
            let what = "a file without dead links with times, and as the model rewrites it";
            return files(what, &timed, &rewritten);
        }
        self.counts.with_dead_links += 1;
        self.rewritten(random, &rewritten, &table, &parts_of(file, &contents))
    }

    fn rewritten(
        &mut self,
        random: &mut Random,
        rewritten: &[u8],
        table: &[u32],
        [changes, steps]: &[&[u8]; 2],
    ) -> Result<(), String> {
        let mut read = Lent::filled(random, CELLS);
        let mut old = read.clone();
        old.cells_mut().copy_from_slice(table);
        let (answer, contents) = ofib::read(rewritten, read.cells_mut());
        same("Read's answer to the rewritten file", answer, 0)?;
        read.compare(&old, "of Read of the rewritten file")?;
        let times = (contents.hold_time, contents.step_time);
        same("times of the rewritten file", times, (0, 1))?;
        let [new_changes, new_steps] = parts_of(rewritten, &contents);
        files("the changes of the stored file, and as rewritten", changes, new_changes)?;
        files("the steps of the stored file, and as rewritten", steps, new_steps)?;
        self.one_format(random, rewritten)?;
        self.rehearsal(random, rewritten, RIGHT_SIZES, None)?;
        self.routes(random, rewritten, RIGHT_SIZES, None)?;
        Ok(())
    }
}

/// The changes and the steps of a file.
fn parts_of<'a>(file: &'a [u8], contents: &Contents) -> [&'a [u8]; 2] {
    let Contents {
        changes_at, steps_at, ..
    } = *contents;
    [
        &file[changes_at..changes_at + 5 * contents.changes],
        &file[steps_at..steps_at + 3 * contents.steps],
    ]
}

/// Two plans of the same changes: both accepted or both refused, and with the same record and tables.
pub fn same_plan(other: &Planned, first: &Planned) -> Result<(), String> {
    let parts = [
        ("one order is refused", (other.answer == 0) == (first.answer == 0)),
        ("another record", other.record == first.record),
        ("other tables", other.tables == first.tables),
    ];
    match parts.into_iter().find(|&(_, is_same)| !is_same) {
        None => Ok(()),
        Some((what, _)) => Err(what.to_string()),
    }
}

pub fn same<T: PartialEq + Debug>(what: &str, library: T, model: T) -> Result<(), String> {
    if library == model {
        Ok(())
    } else {
        Err(format!("{what}: library {library:?}, model {model:?}"))
    }
}

pub fn records(what: &str, library: &Record, model: &Record) -> Result<(), String> {
    let field = |name: &str| format!("{what}, field {name}");
    same(&field("n"), library.n, model.n)?;
    same(&field("root"), library.root, model.root)?;
    same(&field("direction"), library.direction, model.direction)?;
    entries(&field("ranks"), &library.ranks, &model.ranks)?;
    entries(&field("waiting"), &library.waiting, &model.waiting)?;
    entries(&field("telling"), &library.telling, &model.telling)?;
    entries(&field("due"), &library.due, &model.due)?;
    entries(&field("states"), &library.states, &model.states)?;
    entries(&field("written"), &library.written, &model.written)?;
    same(&field("hold time"), library.hold_time, model.hold_time)?;
    same(&field("step time"), library.step_time, model.step_time)?;
    same(&field("clock"), library.clock, model.clock)?;
    entries(&field("learn times"), &library.learn_times, &model.learn_times)
}

fn entries<T: PartialEq + Debug>(what: &str, library: &[T], model: &[T]) -> Result<(), String> {
    for (index, (library, model)) in library.iter().zip(model).enumerate() {
        if library != model {
            return Err(format!("{what}, entry {index}: library {library:?}, model {model:?}"));
        }
    }
    Ok(())
}

/// Both texts, byte for byte; names the line in which they first differ.
pub fn texts(name: &str, library: &[u8], model: &[u8]) -> Result<(), String> {
    if library == model {
        return Ok(());
    }
    let shared = shared(library, model);
    let start = model[..shared]
        .iter()
        .rposition(|&byte| byte == b'\n')
        .map_or(0, |end| end + 1);
    let line = |text: &[u8]| {
        let line = text[start.min(text.len())..]
            .split(|&byte| byte == b'\n')
            .next()
            .unwrap_or_default();
        String::from_utf8_lossy(line).into_owned()
    };
    Err(format!(
        "{name}, byte {shared}: library line {:?}, model line {:?}",
        line(library),
        line(model)
    ))
}

/// Two files, byte for byte; names the place from which on they differ.
pub fn files(name: &str, library: &[u8], model: &[u8]) -> Result<(), String> {
    if library == model {
        return Ok(());
    }
    let place = shared(library, model);
    let from_there = |file: &[u8]| format!("{:?} of {} bytes", &file[place..file.len().min(place + 5)], file.len());
    Err(format!(
        "{name}, byte {place}: library {}, model {}",
        from_there(library),
        from_there(model)
    ))
}

/// How many bytes are the same before the first that differs.
fn shared(library: &[u8], model: &[u8]) -> usize {
    library.iter().zip(model).take_while(|(x, y)| x == y).count()
}

/// Counts a text by the refusal that it tells of, or as one of an accepted file.
fn count_text(numbers: &mut Numbers, text: &str) {
    let refused = text
        .strip_prefix("refused ")
        .and_then(|rest| rest.trim_end().parse::<usize>().ok());
    numbers[refused.unwrap_or(0)] += 1;
}

/// The library's distances with every link turned round: those of the same pairs, from the other end (02, No. 11).
fn turned_round(random: &mut Random, n: usize, metric: &[u32], dist: &[u32]) -> Result<(), String> {
    let mut tables = PathTables::filled(random, [CELLS; 3]);
    let (d, h, f) = (&mut tables.dist, &mut tables.hops, &mut tables.fours);
    let answer = ofib::paths(n, &turned(metric), d.cells_mut(), h.cells_mut(), f.cells_mut());
    same("Paths' answer where every link is turned round", answer, 0)?;
    if tables.dist.cells() != turned(dist) {
        return Err("the distances where every link is turned round are others".to_string());
    }
    Ok(())
}
