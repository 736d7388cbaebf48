//! Areas from IS-IS: link-state data whole, cut, with faults and damaged, with any n and any table size.

use std::path::{Path, PathBuf};

use crate::compare::Comparison;
use crate::difference::{Difference, case_title, describe_input};
use crate::direct_cases::{WRONG_N, WRONG_SIZES};
use crate::files;
use crate::flaw::Flaw;
use crate::from_isis::{self, MOST_BYTES};
use crate::isis::{HEAD, ROW};
use crate::isis_worked;
use crate::link_state::{self, Data, ENTRY_FAULTS, Entry, EntryFault, Input, List};
use crate::ofib::{CELLS, WIDTH};
use crate::process;
use crate::random::Random;

const PART: u64 = 6;
/// The first word of a case's title.
pub const KIND: &str = "isis";
/// The same of a case that the program is run with.
pub const PRINTED: &str = "printed";

/// How many random inputs there are to be, and how many of them the program is run with.
pub struct Amount {
    pub cases: u64,
    /// The program that prints areas, and from one input that it is run with to the next.
    pub program: Option<PathBuf>,
    pub program_stride: u64,
}

/// The cases that are the same for every seed but for the data in them, and then random ones.
pub fn isis_cases(comparison: &mut Comparison, seed: u64, amount: &Amount) -> Result<(), Difference> {
    let mut random = Random::for_case(seed, PART, u64::MAX);
    every_n(comparison, &mut random)?;
    wrong_sizes(comparison, &mut random)?;
    every_length(comparison, &mut random)?;
    faults_in_each_entry(comparison, &mut random)?;
    two_faulty_entries(comparison, &mut random)?;
    faults_in_each_row(comparison, &mut random)?;
    cut_everywhere(comparison, &mut random)?;
    largest_lists(comparison, &mut random)?;
    for number in 0..amount.cases {
        isis_case(comparison, seed, number)?;
    }
    let Some(program) = &amount.program else {
        return Ok(());
    };
    printed_on_purpose(comparison, &mut random, program)?;
    for number in (0..amount.cases).step_by(amount.program_stride as usize) {
        printed_case(comparison, seed, number, program)?;
    }
    Ok(())
}

pub fn isis_case(comparison: &mut Comparison, seed: u64, number: u64) -> Result<(), Difference> {
    let mut random = Random::for_case(seed, PART, number);
    let (input, size) = random_input(&mut random);
    compare_input(comparison, &mut random, &case_title(KIND, seed, number), &input, size)
}

/// What the program prints for the input of the same case.
pub fn printed_case(comparison: &mut Comparison, seed: u64, number: u64, program: &Path) -> Result<(), Difference> {
    let mut random = Random::for_case(seed, PART, number);
    let (input, _) = random_input(&mut random);
    let title = case_title(PRINTED, seed, number);
    compare_printed(comparison, &mut random, &title, &input, program)
}

/// An input without faults, with faults at chosen places, damaged, with another n, or of any bytes; and a table size.
fn random_input(random: &mut Random) -> (Input, usize) {
    let most_routers = random.pick(&[2, 3, 4, 8, WIDTH]);
    let n = random.between(1, most_routers);
    let mut data = link_state::faultless(random, n);
    let sort = random.below(40);
    if (14..28).contains(&sort) {
        for _ in 0..random.pick(&[1, 1, 2, 3]) {
            link_state::spoil(random, &mut data);
        }
    }
    let mut input = data.input();
    match sort {
        28..34 => damage(random, &mut input),
        34 | 35 => input.n = random.pick(&[n + 1, n - 1, n + 2, WIDTH]),
        36 => input.n = random.pick(&WRONG_N),
        37..40 => input = link_state::any_input(random),
        _ => {}
    }
    let size = if random.chance(if sort == 36 { 20 } else { 3 }) {
        random.pick(&WRONG_SIZES)
    } else {
        CELLS
    };
    (input, size)
}

fn damage(random: &mut Random, input: &mut Input) {
    for _ in 0..random.pick(&[1, 1, 1, 2, 3]) {
        if random.chance(75) {
            link_state::alter(random, &mut input.lists);
        } else {
            link_state::alter(random, &mut input.identities);
        }
    }
}

pub fn compare_input(
    comparison: &mut Comparison,
    random: &mut Random,
    title: &str,
    input: &Input,
    size: usize,
) -> Result<(), Difference> {
    let outcome = comparison.isis(random, input, size);
    outcome.map_err(|what| Difference::in_calls(what, describe_input(title, input, size)))
}

/// The program's output beside the model's text, if the identity table is not too long for its input.
pub fn compare_printed(
    comparison: &mut Comparison,
    random: &mut Random,
    title: &str,
    input: &Input,
    program: &Path,
) -> Result<(), Difference> {
    match from_isis::stream(input) {
        Some(stream) => compare_stream(comparison, random, title, &stream, program),
        None => Ok(()),
    }
}

fn compare_stream(
    comparison: &mut Comparison,
    random: &mut Random,
    title: &str,
    stream: &[u8],
    program: &Path,
) -> Result<(), Difference> {
    let input = from_isis::input_of(stream, Flaw::None);
    let mut compare = || {
        let text = process::compare_from_isis(random, program, stream, comparison.flaw)?;
        comparison.printed(random, &input, &text)
    };
    compare().map_err(|what| Difference::in_calls(what, describe_input(title, &input, CELLS)))
}

/// Data that the fixed cases are made of: a few entries in every list, and all of them known.
fn full_data(random: &mut Random, n: usize) -> Data {
    loop {
        let data = link_state::faultless(random, n);
        let is_full = |list: &List| (2..5).contains(&list.entries.len());
        if data.lists.iter().all(is_full) {
            return data;
        }
    }
}

/// Lists for all routers as for any other number of them, and for each number of routers the right number of lists.
fn every_n(comparison: &mut Comparison, random: &mut Random) -> Result<(), Difference> {
    for n in 1..=WIDTH {
        let input = link_state::faultless(random, n).input();
        compare_input(comparison, random, "n routers", &input, CELLS)?;
        let empty = Input {
            n,
            identities: Vec::new(),
            lists: vec![0; 2 * n],
        };
        compare_input(comparison, random, "n empty lists", &empty, CELLS)?;
    }
    let input = link_state::faultless(random, WIDTH).input();
    for n in (0..=WIDTH + 8).chain(WRONG_N) {
        let other = Input { n, ..input.clone() };
        compare_input(comparison, random, "lists for all routers", &other, CELLS)?;
        let alone = Input {
            n,
            identities: Vec::new(),
            lists: input.lists.clone(),
        };
        compare_input(comparison, random, "lists without a table", &alone, CELLS)?;
    }
    Ok(())
}

fn wrong_sizes(comparison: &mut Comparison, random: &mut Random) -> Result<(), Difference> {
    let whole = full_data(random, 3).input();
    let mut short_row = whole.clone();
    short_row.identities.pop();
    let mut short_list = whole.clone();
    short_list.lists.pop();
    for size in WRONG_SIZES {
        for n in [0, 3, WIDTH + 1] {
            for input in [&whole, &short_row, &short_list] {
                let input = Input { n, ..input.clone() };
                compare_input(comparison, random, "wrong size", &input, size)?;
            }
        }
    }
    Ok(())
}

/// An entry with each length of sub-TLVs: just so many bytes, some less, some more, and another entry behind them.
fn every_length(comparison: &mut Comparison, random: &mut Random) -> Result<(), Difference> {
    let rows = vec![([1; 7], 0), ([2; 7], 1)];
    for length in 0..=255 {
        for there in [0, length.max(1) - 1, length, length + 1, length + HEAD, 244, 245] {
            for metric in [0, 1] {
                let mut entry = Entry::new([2; 7], metric, random.bytes(there));
                entry.length = length as u8;
                let behind = Entry::new([2; 7], 9, Vec::new());
                for entries in [vec![entry.clone()], vec![entry, behind]] {
                    let first = List {
                        entries,
                        ..List::default()
                    };
                    let lists = vec![first, List::default()];
                    let input = Data {
                        rows: rows.clone(),
                        lists,
                    }
                    .input();
                    compare_input(comparison, random, "sub-TLVs", &input, CELLS)?;
                }
            }
        }
    }
    Ok(())
}

/// Each entry with any faults together, and with each again where the last list is cut or has bytes behind it.
fn faults_in_each_entry(comparison: &mut Comparison, random: &mut Random) -> Result<(), Difference> {
    let data = full_data(random, 4);
    for (router, place) in places(&data) {
        for faults in 0..1_usize << ENTRY_FAULTS.len() {
            let mut spoiled = data.clone();
            // The first, a length past the list, goes by the bytes that the others leave.
            for k in (0..ENTRY_FAULTS.len()).rev().filter(|k| faults >> k & 1 == 1) {
                link_state::spoil_entry(random, &mut spoiled, router, place, ENTRY_FAULTS[k]);
            }
            let mut input = spoiled.input();
            compare_input(comparison, random, "faults in one entry", &input, CELLS)?;
            input.lists.push(0);
            compare_input(comparison, random, "faults in one entry, a byte more", &input, CELLS)?;
            input.lists.truncate(input.lists.len() - 2);
            compare_input(comparison, random, "faults in one entry, a byte less", &input, CELLS)?;
        }
    }
    Ok(())
}

/// Any two entries with any two faults, of which the first decides.
fn two_faulty_entries(comparison: &mut Comparison, random: &mut Random) -> Result<(), Difference> {
    let data = full_data(random, 3);
    let mut compare = |first: ((usize, usize), EntryFault), second: ((usize, usize), EntryFault)| {
        let mut spoiled = data.clone();
        for ((router, place), fault) in [second, first] {
            link_state::spoil_entry(random, &mut spoiled, router, place, fault);
        }
        compare_input(comparison, random, "two faulty entries", &spoiled.input(), CELLS)
    };
    let places = places(&data);
    for (k, &first) in places.iter().enumerate() {
        for &second in &places[k + 1..] {
            for fault in ENTRY_FAULTS {
                for other in ENTRY_FAULTS {
                    compare((first, fault), (second, other))?;
                }
            }
        }
    }
    Ok(())
}

/// Router and place of every entry.
fn places(data: &Data) -> Vec<(usize, usize)> {
    let of_router = |router: usize| (0..data.lists[router].entries.len()).map(move |place| (router, place));
    (0..data.lists.len()).flat_map(of_router).collect()
}

/// Each row with a number not below n, alone and where the table is cut short too; and each row twice.
fn faults_in_each_row(comparison: &mut Comparison, random: &mut Random) -> Result<(), Difference> {
    let n = 5;
    let data = full_data(random, n);
    for place in 0..data.rows.len() {
        for router in [n as u8 - 1, n as u8, 32, WIDTH as u8, 128, 255] {
            let mut other = data.clone();
            other.rows[place].1 = router;
            let mut input = other.input();
            compare_input(comparison, random, "another number in a row", &input, CELLS)?;
            input.identities.truncate(ROW * data.rows.len() - random.between(1, 7));
            compare_input(comparison, random, "another number, and a row cut short", &input, CELLS)?;
            let mut twice = data.clone();
            let (identity, _) = twice.rows[place];
            let at = random.below(twice.rows.len() + 1);
            twice.rows.insert(at, (identity, router));
            compare_input(comparison, random, "a row twice", &twice.input(), CELLS)?;
        }
    }
    Ok(())
}

/// Data cut after every byte of the table or of the lists, and with a byte more at every place.
fn cut_everywhere(comparison: &mut Comparison, random: &mut Random) -> Result<(), Difference> {
    let mut input = full_data(random, 6).input();
    let parts: [(&str, fn(&mut Input) -> &mut Vec<u8>); 2] =
        [("a table", |input| &mut input.identities), ("lists", |input| &mut input.lists)];
    for (name, part) in parts {
        for length in 0..part(&mut input).len() {
            let mut cut = input.clone();
            part(&mut cut).truncate(length);
            compare_input(comparison, random, &format!("{name} cut short"), &cut, CELLS)?;
            let mut longer = input.clone();
            part(&mut longer).insert(length, random.byte());
            compare_input(comparison, random, &format!("{name} with a byte more"), &longer, CELLS)?;
        }
    }
    Ok(())
}

/// Lists of 65,535 bytes each, whole, a byte short and with a byte more; and a table of 65,536 bytes.
fn largest_lists(comparison: &mut Comparison, random: &mut Random) -> Result<(), Difference> {
    let data = link_state::largest(random);
    let mut input = data.input();
    assert_eq!(input.lists.len(), WIDTH * 65_537, "size of the largest lists");
    compare_input(comparison, random, "largest lists", &input, CELLS)?;
    input.lists.push(0);
    compare_input(comparison, random, "largest lists, a byte more", &input, CELLS)?;
    input.lists.truncate(WIDTH * 65_537 - 1);
    compare_input(comparison, random, "largest lists, a byte less", &input, CELLS)?;
    let mut last = data.clone();
    link_state::spoil_entry(random, &mut last, WIDTH - 1, 256, EntryFault::Zero);
    compare_input(
        comparison,
        random,
        "largest lists, the last entry faulty",
        &last.input(),
        CELLS,
    )?;
    let mut input = full_data(random, 3).input();
    let rows = input.identities.len() / ROW;
    for k in rows as u32..8192 {
        let [_, b, c, d] = k.to_be_bytes();
        input.identities.splice(..0, [0xFD, b, c, d, b, c, d, (k % 3) as u8]);
    }
    compare_input(comparison, random, "8,192 rows", &input, CELLS)
}

/// The worked examples, an input cut after every byte, all numbers of empty lists, all links there can be, and the
/// longest input that is taken, alone and with more bytes.
pub fn printed_on_purpose(comparison: &mut Comparison, random: &mut Random, program: &Path) -> Result<(), Difference> {
    for (name, input) in isis_worked::inputs() {
        compare_printed(comparison, random, &name, &input, program)?;
    }
    // The length of the table, a row, two lists and an entry.
    let stream = files::bytes("0008 BBBBBBBBBBBBBB 01 000D BBBBBBBBBBBBBB 010203 02 0102 0000");
    for length in 0..=stream.len() {
        compare_stream(comparison, random, "an input cut short", &stream[..length], program)?;
    }
    for n in 0..=WIDTH + 1 {
        let lists = vec![0; 2 * n];
        let identities = Vec::new();
        let input = Input { n, identities, lists };
        compare_printed(comparison, random, "empty lists", &input, program)?;
    }
    let mesh = link_state::full_mesh(random, WIDTH).input();
    compare_printed(comparison, random, "all links", &mesh, program)?;
    for more in [0, 1, 2, 100, 65_535, 200_000] {
        let input = longest_taken(random, more);
        compare_printed(comparison, random, "the longest input, and more bytes", &input, program)?;
    }
    Ok(())
}

/// As many rows and bytes of lists as are taken, in five lists, and then more bytes.
fn longest_taken(random: &mut Random, more: usize) -> Input {
    let data = link_state::with_lengths(random, &[65_535, 65_535, 65_535, 65_529, 0]);
    let mut input = data.input();
    assert_eq!(input.lists.len(), MOST_BYTES, "bytes of the longest lists");
    let last = data.rows[2];
    let row = [last.0.as_slice(), &[last.1]].concat();
    while input.identities.len() + ROW <= usize::from(u16::MAX) {
        input.identities.extend(&row);
    }
    input.lists.extend(random.bytes(more));
    input
}
