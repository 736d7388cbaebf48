//! A case in which library and model differ, and the file that it is written to.

use std::fmt::Write;
use std::path::{Path, PathBuf};
use std::{fs, io};

use crate::areas::Area;
use crate::link_state::Input;
use crate::ofib::{Record, WIDTH};
use crate::paths::UNUSED;
use crate::plan::Times;

pub enum Case {
    /// A bench file, byte for byte.
    File(Vec<u8>),
    /// The input of direct calls, in words.
    Calls(String),
}

pub struct Difference {
    pub what: String,
    pub case: Case,
}

impl Difference {
    pub fn in_file(what: String, file: &[u8]) -> Difference {
        Difference {
            what,
            case: Case::File(file.to_vec()),
        }
    }

    pub fn in_calls(what: String, calls: String) -> Difference {
        Difference {
            what,
            case: Case::Calls(calls),
        }
    }

    pub fn save(&self, folder: &Path) -> io::Result<PathBuf> {
        let (name, bytes) = match &self.case {
            Case::File(file) => ("differing-case.bench", file.clone()),
            Case::Calls(text) => (
                "differing-case.txt",
                format!("{text}difference: {}\n", self.what).into_bytes(),
            ),
        };
        let path = folder.join(name);
        fs::write(&path, bytes)?;
        Ok(path)
    }
}

/// The first line of a case that can be made again by it.
pub fn case_title(kind: &str, seed: u64, number: u64) -> String {
    format!("{kind} case: seed {seed} number {number}")
}

/// Kind, seed and number of the case that a saved text begins with.
pub fn case_of(text: &str) -> Option<(&str, u64, u64)> {
    let words: Vec<&str> = text.lines().next()?.split(' ').collect();
    let [kind, "case:", "seed", seed, "number", number] = words.as_slice() else {
        return None;
    };
    Some((kind, seed.parse().ok()?, number.parse().ok()?))
}

/// Routers, times, used links, change list and steps in words, and after them all cells of the metric table. Paths has
/// no times.
pub fn describe_area(title: &str, area: &Area, times: Option<Times>, list: &[u8], steps: &[u8]) -> String {
    let mut text = format!("{title}\nn {}\n", area.n);
    if let Some(Times { hold, step }) = times {
        add(&mut text, format_args!("hold time {hold}, step time {step}\n"));
    }
    for (cell, &metric) in area.metric.iter().enumerate() {
        let (i, j) = (cell / WIDTH, cell % WIDTH);
        if i < area.n && j < area.n && i != j && metric < UNUSED {
            add(&mut text, format_args!("link {i} {j} metric {metric}\n"));
        }
    }
    for (place, entry) in list.chunks(5).enumerate() {
        add(&mut text, format_args!("change {place} bytes {entry:?}\n"));
    }
    for (place, call) in steps.chunks(3).enumerate() {
        add(&mut text, format_args!("step {} bytes {call:?}\n", place + 1));
    }
    add(
        &mut text,
        format_args!("metric table, {} cells: {:?}\n", area.metric.len(), area.metric),
    );
    text
}

/// The number of routers, the rows of the identity table and the bytes of the lists, in hexadecimal.
pub fn describe_input(title: &str, input: &Input, size: usize) -> String {
    let mut text = format!("{title}\nn {}, a table of {size} cells\n", input.n);
    for (name, bytes, width) in [("row", &input.identities, 8), ("lists", &input.lists, 32)] {
        for line in bytes.chunks(width) {
            let digits: String = line.iter().map(|byte| format!("{byte:02X}")).collect();
            add(&mut text, format_args!("{name} {digits}\n"));
        }
    }
    text
}

pub fn describe_step(record: &Record, steps: &[u8]) -> String {
    format!("step case\nrecord before {record:?}\nsteps {steps:?}\n")
}

fn add(text: &mut String, words: std::fmt::Arguments) {
    text.write_fmt(words).expect("a string takes all text");
}
