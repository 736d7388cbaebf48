//! Compares the proved library with a model that is written from 01 and 02 alone.

mod area_cases;
mod areas;
mod changes;
mod clock_cases;
mod compare;
mod counts;
mod course;
mod difference;
mod direct_cases;
mod file_cases;
mod files;
mod flaw;
mod flaw_cases;
mod fours;
mod fours_worked;
mod from_isis;
mod isis;
mod isis_cases;
mod isis_worked;
mod lent;
mod link_state;
mod needs;
// The binding is not only for this program, which need not use all of it.
#[allow(dead_code)]
#[path = "../../bindings/ofib.rs"]
mod ofib;
mod options;
mod paths;
mod plan;
mod process;
mod random;
mod reachable;
mod read;
mod rewriting;
mod sets;
mod sheet;
mod step;
mod steps;
mod text;
mod timely;
mod timers;
mod timers_worked;
mod worked;

use std::path::Path;
use std::process::ExitCode;
use std::time::Instant;

use compare::Comparison;
use difference::Difference;
use flaw::Flaw;
use options::Options;
use random::Random;

fn main() -> ExitCode {
    let options = match options::parse(std::env::args().skip(1)) {
        Ok(options) => options,
        Err(message) => {
            eprintln!("model: {message}");
            return ExitCode::from(2);
        }
    };
    let outcome = match &options.replay {
        Some(path) => replay(&options, path),
        None => compare_all(&options),
    };
    match outcome {
        Ok(line) => {
            println!("{line}");
            ExitCode::SUCCESS
        }
        Err(message) => {
            println!("model: {message}");
            ExitCode::FAILURE
        }
    }
}

/// All parts one after the other; the last line, or what is wrong.
fn compare_all(options: &Options) -> Result<String, String> {
    let seed = options.seed;
    println!("model: seed {seed}");
    let worked = worked::check_model()
        .and_then(|()| fours_worked::check_model())
        .and_then(|()| timers_worked::check_model())
        .and_then(|()| isis_worked::check_model());
    worked.map_err(|what| format!("the model contradicts the papers: {what}"))?;
    flaw_cases::flaw_cases(seed, &options.files, options.isis.program.as_deref())?;
    let mut comparison = Comparison::new(Flaw::None);
    compare_parts(&mut comparison, options).map_err(|difference| saved(options, &difference))?;
    comparison.counts.print();
    let missing = comparison.counts.missing();
    if !missing.is_empty() {
        return Err(format!("never seen: {}", missing.join("; ")));
    }
    let (areas, files, records) = (
        comparison.counts.areas,
        comparison.counts.files,
        comparison.counts.records,
    );
    Ok(format!(
        "model: seed {seed}, {areas} areas, {files} files, {records} records: no difference"
    ))
}

fn compare_parts(comparison: &mut Comparison, options: &Options) -> Result<(), Difference> {
    let seed = options.seed;
    worked::compare_library(comparison, &options.files)?;
    timers_worked::compare_library(comparison)?;
    isis_worked::compare_library(comparison)?;
    timed("areas", || {
        (0..options.areas).try_for_each(|number| area_cases::area_case(comparison, seed, number))
    })?;
    timed("direct calls", || {
        direct_cases::direct_cases(comparison, seed, options.direct)
    })?;
    timed("files", || file_cases::file_cases(comparison, seed, &options.files))?;
    timed("lists from IS-IS", || {
        isis_cases::isis_cases(comparison, seed, &options.isis)
    })?;
    timed("reachable records", || {
        reachable::small_areas(comparison, seed, &options.small)
    })?;
    timed("reachable records, with ticks", || {
        timely::small_areas(comparison, seed, &options.small)
    })
}

fn timed<T>(name: &str, part: impl FnOnce() -> T) -> T {
    let start = Instant::now();
    let outcome = part();
    println!("{name}: {:.1} s", start.elapsed().as_secs_f64());
    outcome
}

/// Writes the case to a file and says what differs and where the case is.
fn saved(options: &Options, difference: &Difference) -> String {
    match difference.save(&options.out) {
        Ok(path) => format!("difference: {}\nthe case is in {}", difference.what, path.display()),
        Err(error) => format!(
            "difference: {}\nthe case could not be written: {error}",
            difference.what
        ),
    }
}

/// Compares one saved case again: the text of an area case, or a bench file, which is taken as a stored one too.
fn replay(options: &Options, path: &Path) -> Result<String, String> {
    let bytes = std::fs::read(path).map_err(|error| format!("{}: {error}", path.display()))?;
    let mut comparison = Comparison::new(Flaw::None);
    let outcome = match difference::case_of(&String::from_utf8_lossy(&bytes)) {
        Some((area_cases::KIND, seed, number)) => area_cases::area_case(&mut comparison, seed, number),
        Some((isis_cases::KIND, seed, number)) => isis_cases::isis_case(&mut comparison, seed, number),
        Some((isis_cases::PRINTED, seed, number)) => {
            let program = options.isis.program.as_deref().ok_or("--from-isis is needed")?;
            isis_cases::printed_case(&mut comparison, seed, number, program)
        }
        _ if path.extension().is_some_and(|end| end == "txt") => {
            return Err(
                "only area and isis cases and bench files can be replayed; run again with the same seed".to_string(),
            );
        }
        _ => {
            let mut random = Random::for_case(options.seed, 0, 0);
            let amount = options.files.with_each_file();
            let outcome = file_cases::compare_file(&mut comparison, &mut random, &bytes, &amount);
            outcome.and_then(|()| file_cases::compare_stored(&mut comparison, &mut random, &bytes, &amount))
        }
    };
    outcome.map_err(|difference| format!("difference: {}", difference.what))?;
    Ok(format!("model: {}: no difference", path.display()))
}
