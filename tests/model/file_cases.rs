//! Bench files: Read, the texts of the rehearsal and of the routes, the rewriting of stored files, and the programs
//! that read them.

use std::path::PathBuf;

use crate::areas;
use crate::compare::Comparison;
use crate::difference::Difference;
use crate::files::{self, LINK_FAULTS, LONG_SHEETS, Parts};
use crate::lent::RIGHT_SIZES;
use crate::ofib::{ROUTES_ROOM, WIDTH};
use crate::random::Random;
use crate::read::{Format, LARGEST, LARGEST_STORED};
use crate::{process, rewriting};

const PART: u64 = 3;
/// Files up to this size are cut after every byte.
const SMALL: usize = 120;

/// How many files there are to be, and how many of them the programs are run with.
#[derive(Clone)]
pub struct Amount {
    pub cases: u64,
    /// From one place of the longest link section that gets each fault to the next.
    pub link_stride: usize,
    pub program: Option<PathBuf>,
    /// From one file that the program is run with to the next.
    pub program_stride: u64,
    /// The program that rewrites stored files, and from one file that it is run with to the next.
    pub rewrite: Option<PathBuf>,
    pub rewrite_stride: u64,
    /// The program that prints the steps of a sheet, and from one file that it is run with to the next.
    pub sheet_steps: Option<PathBuf>,
    pub sheet_stride: u64,
    /// The program that prints what is unfinished, and from one file that it is run with to the next.
    pub unfinished: Option<PathBuf>,
    pub unfinished_stride: u64,
}

impl Amount {
    /// The same, and the programs are run with every file.
    pub fn with_each_file(&self) -> Amount {
        Amount {
            program_stride: 1,
            rewrite_stride: 1,
            sheet_stride: 1,
            unfinished_stride: 1,
            ..self.clone()
        }
    }
}

pub fn file_cases(comparison: &mut Comparison, seed: u64, amount: &Amount) -> Result<(), Difference> {
    let mut random = Random::for_case(seed, PART, u64::MAX);
    for largest in [(Format::New, LARGEST), (Format::Old, LARGEST_STORED)] {
        largest_file(comparison, &mut random, largest, amount)?;
    }
    dead_links(comparison, &mut random, amount)?;
    long_sheets(comparison, &mut random, amount)?;
    stopped(comparison, &mut random, amount)?;
    for (n, stride) in [(2, 1), (5, 1), (WIDTH, amount.link_stride)] {
        link_faults(comparison, &mut random, n, stride, amount)?;
    }
    for number in 0..amount.cases {
        file_case(comparison, seed, number, amount)?;
    }
    Ok(())
}

/// One file that Read or the old reader takes, sometimes with all that can be cut off it, or one file with faults.
pub fn file_case(comparison: &mut Comparison, seed: u64, number: u64, amount: &Amount) -> Result<(), Difference> {
    let mut random = Random::for_case(seed, PART, number);
    let most_routers = random.pick(&[2, 3, 4, 8, 8, 16, 16, WIDTH]);
    let format = random.pick(&[Format::New, Format::New, Format::Old]);
    let file = match random.below(40) {
        0 => {
            let parts = files::stored(&mut random, most_routers);
            return cut_and_lengthened(comparison, &mut random, &parts, format, amount);
        }
        1..=24 => files::stored(&mut random, most_routers).in_format(format),
        25..=33 => files::faulty(&mut random, most_routers, format),
        34..=37 => {
            let mut file = files::stored(&mut random, most_routers).in_format(format);
            files::alter(&mut random, &mut file);
            file
        }
        _ => files::any_bytes(&mut random),
    };
    compare_in(comparison, &mut random, &file, format, amount)
}

/// The file itself, the file with bytes after its end, and its beginnings.
fn cut_and_lengthened(
    comparison: &mut Comparison,
    random: &mut Random,
    parts: &Parts,
    format: Format,
    amount: &Amount,
) -> Result<(), Difference> {
    let file = parts.in_format(format);
    compare_in(comparison, random, &file, format, amount)?;
    let mut longer = file.clone();
    let more = random.pick(&[1, 1, 2, 3, 5, 100]);
    longer.extend(random.bytes(more));
    compare_in(comparison, random, &longer, format, amount)?;
    for length in lengths(random, parts, format, file.len()) {
        compare_in(comparison, random, &file[..length], format, amount)?;
    }
    Ok(())
}

/// Every length of a small file; of a larger one those at the borders of the sections and a few others.
fn lengths(random: &mut Random, parts: &Parts, format: Format, size: usize) -> Vec<usize> {
    if size <= SMALL {
        return (0..size).collect();
    }
    let borders = parts.borders(format);
    let mut lengths: Vec<usize> = borders
        .iter()
        .flat_map(|&border| [border.saturating_sub(1), border, border + 1])
        .collect();
    lengths.extend((0..8).map(|_| random.below(size)));
    lengths.retain(|&length| length < size);
    lengths.sort();
    lengths.dedup();
    lengths
}

/// The largest file of a format, one byte more, many bytes more, and its beginnings.
fn largest_file(
    comparison: &mut Comparison,
    random: &mut Random,
    (format, size): (Format, usize),
    amount: &Amount,
) -> Result<(), Difference> {
    let parts = files::largest(random);
    let file = parts.in_format(format);
    assert_eq!(file.len(), size, "size of the largest file");
    let always = amount.with_each_file();
    for more in [0, 1, 2, 3, 4, 5, 20_000] {
        let mut longer = file.clone();
        longer.extend(random.bytes(more));
        compare_in(comparison, random, &longer, format, &always)?;
    }
    for length in lengths(random, &parts, format, file.len()) {
        compare_in(comparison, random, &file[..length], format, &always)?;
    }
    Ok(())
}

/// Sheets with about as many steps as a file can have, and more.
fn long_sheets(comparison: &mut Comparison, random: &mut Random, amount: &Amount) -> Result<(), Difference> {
    for steps in LONG_SHEETS {
        let file = files::long_sheet(random, steps).bytes();
        compare_file(comparison, random, &file, &amount.with_each_file())?;
    }
    Ok(())
}

/// Runs that stop after each of their steps, or after some of a long one.
fn stopped(comparison: &mut Comparison, random: &mut Random, amount: &Amount) -> Result<(), Difference> {
    for n in [2, 3, 5, 33, WIDTH] {
        for parts in files::stopped(random, n) {
            compare_file(comparison, random, &parts.bytes(), &amount.with_each_file())?;
        }
    }
    Ok(())
}

/// Dead links at chosen places, in areas of some sizes and in the largest: half of its links, among others.
fn dead_links(comparison: &mut Comparison, random: &mut Random, amount: &Amount) -> Result<(), Difference> {
    for n in [2, 3, 5, 33, WIDTH] {
        for parts in files::dead_on_purpose(random, n) {
            compare_both(comparison, random, &parts, &amount.with_each_file())?;
        }
    }
    Ok(())
}

/// A full mesh with each fault of a link at each place, or from one place to another by the stride.
fn link_faults(
    comparison: &mut Comparison,
    random: &mut Random,
    n: usize,
    stride: usize,
    amount: &Amount,
) -> Result<(), Difference> {
    let area = areas::full_mesh(random, n);
    let links = files::links_of(random, &area, 0);
    let parts = Parts::new(n, links, vec![0, 1, 0, 0, 1], Vec::new());
    for place in (0..parts.links.len()).step_by(stride) {
        for fault in LINK_FAULTS {
            let mut spoiled = parts.clone();
            files::spoil_link(random, &mut spoiled, fault, place);
            if random.chance(30) {
                files::spoil(random, &mut spoiled);
            }
            compare_both(comparison, random, &spoiled, amount)?;
        }
    }
    Ok(())
}

/// The parts as a bench file, and as a stored one.
fn compare_both(
    comparison: &mut Comparison,
    random: &mut Random,
    parts: &Parts,
    amount: &Amount,
) -> Result<(), Difference> {
    for format in [Format::New, Format::Old] {
        compare_in(comparison, random, &parts.in_format(format), format, amount)?;
    }
    Ok(())
}

fn compare_in(
    comparison: &mut Comparison,
    random: &mut Random,
    file: &[u8],
    format: Format,
    amount: &Amount,
) -> Result<(), Difference> {
    match format {
        Format::New => compare_file(comparison, random, file, amount),
        Format::Old => compare_stored(comparison, random, file, amount),
    }
}

/// All comparisons of a stored file, and sometimes of what it is rewritten to, which is rewritten once more.
pub fn compare_stored(
    comparison: &mut Comparison,
    random: &mut Random,
    file: &[u8],
    amount: &Amount,
) -> Result<(), Difference> {
    let mut compare = || {
        comparison.stored(random, file)?;
        comparison.counts.stored_files += 1;
        rewrite(comparison, random, file, amount)?;
        if random.chance(10) {
            let rewritten = rewriting::rewritten(file, comparison.flaw);
            rewrite(comparison, random, &rewritten, amount)?;
        }
        Ok(())
    };
    compare().map_err(|what: String| Difference::in_file(format!("a stored file: {what}"), file))
}

/// The program that rewrites stored files, with some of them.
fn rewrite(comparison: &mut Comparison, random: &mut Random, file: &[u8], amount: &Amount) -> Result<(), String> {
    if let Some(program) = &amount.rewrite
        && comparison.counts.stored_files % amount.rewrite_stride == 0
    {
        comparison.counts.rewrites += 1;
        process::compare_rewriting(random, program, file, comparison.flaw)?;
    }
    Ok(())
}

/// All comparisons of one file; some texts once more with too little room.
pub fn compare_file(
    comparison: &mut Comparison,
    random: &mut Random,
    file: &[u8],
    amount: &Amount,
) -> Result<(), Difference> {
    let mut compare = || {
        let text = comparison.file(random, file)?;
        if random.chance(15) {
            let room = random.below(text.len() + 4);
            comparison.rehearsal(random, file, RIGHT_SIZES, Some(room))?;
            let most = random.pick(&[12, 200, ROUTES_ROOM]);
            let room = random.below(most);
            comparison.routes(random, file, RIGHT_SIZES, Some(room))?;
        }
        run_programs(comparison, random, file, amount)
    };
    compare().map_err(|what| Difference::in_file(what, file))
}

fn run_programs(comparison: &mut Comparison, random: &mut Random, file: &[u8], amount: &Amount) -> Result<(), String> {
    let number = comparison.counts.files;
    if let Some(program) = &amount.program
        && number % amount.program_stride == 0
    {
        comparison.counts.processes += 1;
        process::compare(random, program, file)?;
    }
    if let Some(program) = &amount.sheet_steps
        && number % amount.sheet_stride == 0
    {
        comparison.sheet_steps(random, program, file)?;
    }
    if let Some(program) = &amount.unfinished
        && number % amount.unfinished_stride == 0
    {
        comparison.unfinished(random, program, file)?;
    }
    Ok(())
}
