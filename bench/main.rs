//! Compares the proved library with a plain Rust program of the same method.
//!
//! The plain program makes the same checks in the same order. It differs from the library in this:
//! - Read puts a link into the table as soon as it is judged, and clears the table again after a fault; the library
//!   judges all links first. The same goes for the lists of an area from IS-IS.
//! - Identities are compared byte by byte; the library makes a number of each.
//! - Of the tables of Paths the ends of the rows are blanked; the library blanks both tables before it fills columns.
//! - The members of a set are counted at once; the library asks of every router whether it is one.

mod areas;
mod entries;
mod file;
mod isis;
mod judge;
mod limits;
mod measure;
#[allow(dead_code)]
#[path = "../bindings/ofib.rs"]
mod ofib;
mod paths;
mod plan;
mod processes;
mod refusal;
mod sheet;
mod step;
mod text;
mod works;

use std::io::Write;
use std::path::Path;
use std::time::Duration;

use measure::Effort;

const USAGE: &str = "usage: compare [--quick] [PROGRAM]      times of both sides; PROGRAM is the library's `rehearse`
       compare --repeat NAME SIDE COUNT   one kind of work so many times, SIDE being library or plain
       compare --names                    the names of the kinds of work, with the operations of each
       compare --rehearse                 the plain program's rehearsal of a file from standard input
       compare --largest                  the largest file, to standard output";

fn main() {
    let words: Vec<String> = std::env::args().skip(1).collect();
    let words: Vec<&str> = words.iter().map(String::as_str).collect();
    let quick = Effort {
        rounds: 101,
        round: Duration::from_millis(2),
    };
    let full = Effort {
        rounds: 2001,
        round: Duration::from_millis(2),
    };
    let result = match words[..] {
        [] => all(full, None),
        ["--quick"] => all(quick, None),
        ["--quick", program] => all(quick, Some(program)),
        ["--repeat", name, side, count] => repeat(name, side, count),
        ["--names"] => names(),
        ["--rehearse"] => processes::rehearse(),
        ["--largest"] => std::io::stdout().write_all(&works::largest_file()),
        [program] if !program.starts_with('-') => all(full, Some(program)),
        _ => usage(),
    };
    if let Err(why) = result {
        eprintln!("compare: {why}");
        std::process::exit(1);
    }
}

fn usage() -> ! {
    eprintln!("{USAGE}");
    std::process::exit(2);
}

fn all(effort: Effort, program: Option<&str>) -> std::io::Result<()> {
    let works = works::all();
    println!("Both sides give the same results. Tables and buffers are not cleared between repetitions.");
    measure::print_heading();
    for mut work in works {
        let times = measure::compare(effort, work.operations, &mut work.library, &mut work.plain);
        times.print(work.name, work.operation);
    }
    match program {
        Some(program) => processes::measure(effort, Path::new(program), &works::largest_file()),
        None => Ok(()),
    }
}

fn names() -> std::io::Result<()> {
    for work in works::all() {
        println!("{} {} {}", work.name, work.operation, work.operations);
    }
    Ok(())
}

fn repeat(name: &str, side: &str, count: &str) -> std::io::Result<()> {
    let Some(work) = works::all().into_iter().find(|w| w.name == name) else {
        usage()
    };
    let mut run = match side {
        "library" => work.library,
        "plain" => work.plain,
        _ => usage(),
    };
    let Ok(count) = count.parse::<usize>() else { usage() };
    for _ in 0..count {
        run();
    }
    Ok(())
}
