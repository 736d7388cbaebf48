//! Read: the bench file (01, "The bench file", with the times of 02, No. 10), and the old reader of stored files
//! (No. 5).

use crate::flaw::Flaw;
use crate::ofib::{CELLS, Contents};
use crate::paths::{UNUSED, at};
use crate::plan::Change;

pub const MOST_STEPS: usize = 4096;
/// The size of the largest file, and of the largest stored one.
pub const LARGEST: usize = 33_088;
pub const LARGEST_STORED: usize = 33_084;

/// Whose file it is: that of the old reader, which takes dead links and has no times, or that of Read.
#[derive(Clone, Copy, Debug, PartialEq, Eq)]
pub enum Format {
    Old,
    New,
}

/// The part of the file in which a fault lies.
#[derive(Clone, Copy, Debug, PartialEq, Eq)]
pub enum Section {
    Routers,
    LinkCount,
    Links,
    ChangeCount,
    Changes,
    Times,
    StepCount,
    Steps,
    End,
}

pub const SECTIONS: [Section; 9] = [
    Section::Routers,
    Section::LinkCount,
    Section::Links,
    Section::ChangeCount,
    Section::Changes,
    Section::Times,
    Section::StepCount,
    Section::Steps,
    Section::End,
];

/// A refusal's number, and where its cause lies.
#[derive(Clone, Copy, Debug, PartialEq, Eq)]
pub struct Fault {
    pub number: u8,
    pub section: Section,
}

struct Reader<'a> {
    file: &'a [u8],
    at: usize,
}

impl<'a> Reader<'a> {
    fn take(&mut self, count: usize, section: Section) -> Result<&'a [u8], Fault> {
        if self.file.len() - self.at < count {
            return Err(Fault { number: 1, section });
        }
        let taken = &self.file[self.at..self.at + count];
        self.at += count;
        Ok(taken)
    }

    /// A count of `width` bytes, high byte first, which must not be above `most`.
    fn count(&mut self, width: usize, most: usize, section: Section) -> Result<usize, Fault> {
        let bytes = self.take(width, section)?;
        let count = bytes.iter().fold(0, |sum, &byte| sum * 256 + usize::from(byte));
        if count > most {
            Err(Fault { number: 9, section })
        } else {
            Ok(count)
        }
    }

    /// The hold time and the step time, in two bytes each, high byte first. A stored file has none.
    fn times(&mut self, format: Format, flaw: Flaw) -> Result<[u16; 2], Fault> {
        let section = Section::Times;
        if format == Format::Old && flaw != Flaw::OldReaderTimed {
            return Ok([0, 0]);
        }
        let bytes = [self.take(2, section)?, self.take(2, section)?];
        let [hold, step] = bytes.map(|two| match flaw {
            Flaw::TimesLowByteFirst => u16::from_le_bytes([two[0], two[1]]),
            _ => u16::from_be_bytes([two[0], two[1]]),
        });
        match flaw {
            Flaw::NoStepTimeInRead if step == 0 => Err(Fault { number: 36, section }),
            Flaw::FileTimesExchanged => Ok([step, hold]),
            _ => Ok([hold, step]),
        }
    }
}

pub fn read(file: &[u8], table: &mut [u32], flaw: Flaw) -> (u8, Contents) {
    if table.len() != CELLS {
        return (8, Contents::default());
    }
    table.fill(UNUSED);
    match judge(file, table, Format::New, flaw) {
        Ok(contents) => (0, contents),
        Err(fault) => {
            if flaw != Flaw::ReadKeepsLinks {
                table.fill(UNUSED);
            }
            let number = if flaw == Flaw::ReadTwoForOne && fault.number == 1 {
                2
            } else {
                fault.number
            };
            let step_time = u16::from(flaw == Flaw::TimesThoughRefused);
            let contents = Contents {
                step_time,
                ..Contents::default()
            };
            (number, contents)
        }
    }
}

/// What the file says of itself, or its first fault in file order. The links go into the table, which has the
/// right size.
pub fn judge(file: &[u8], table: &mut [u32], format: Format, flaw: Flaw) -> Result<Contents, Fault> {
    let mut reader = Reader { file, at: 0 };
    let n = usize::from(reader.take(1, Section::Routers)?[0]);
    if n == 0 || n > flaw.most_routers(Flaw::ReadUpTo32, Flaw::ReadUpTo63) {
        return Err(Fault {
            number: 3,
            section: Section::Routers,
        });
    }
    let links = reader.count(2, n * (n - 1), Section::LinkCount)?;
    let mut entered = Links::new(n, table, dead_test(format, flaw));
    for _ in 0..links {
        entered.enter(Change::from_bytes(reader.take(5, Section::Links)?))?;
    }
    let most_changes = flaw.most_changes(Flaw::ReadUpTo62);
    let changes = reader.count(1, most_changes, Section::ChangeCount)?;
    let changes_at = reader.at;
    reader.take(5 * changes, Section::Changes)?;
    let [hold_time, step_time] = reader.times(format, flaw)?;
    let steps = reader.count(2, MOST_STEPS, Section::StepCount)?;
    let steps_at = reader.at;
    reader.take(3 * steps, Section::Steps)?;
    if reader.at < file.len() {
        return Err(Fault {
            number: 2,
            section: Section::End,
        });
    }
    Ok(Contents {
        n,
        links,
        changes,
        changes_at,
        steps,
        steps_at,
        hold_time,
        step_time,
    })
}

/// Where 30 stands among the tests of a link.
#[derive(Clone, Copy, PartialEq, Eq)]
enum DeadTest {
    Nowhere,
    BeforeRepeated,
    AfterRepeated,
}

fn dead_test(format: Format, flaw: Flaw) -> DeadTest {
    match (format, flaw) {
        (Format::New, Flaw::DeadAfterRepeated) => DeadTest::AfterRepeated,
        (Format::New, _) | (Format::Old, Flaw::OldReaderDead) => DeadTest::BeforeRepeated,
        (Format::Old, _) => DeadTest::Nowhere,
    }
}

/// The links of an area of n routers, as far as they are read.
struct Links<'a> {
    n: usize,
    dead: DeadTest,
    listed: [bool; CELLS],
    table: &'a mut [u32],
}

impl<'a> Links<'a> {
    fn new(n: usize, table: &'a mut [u32], dead: DeadTest) -> Links<'a> {
        Links {
            n,
            dead,
            listed: [false; CELLS],
            table,
        }
    }

    /// Puts one link into the table. A pair that stands twice is a fault even where its first entry is a dead link.
    fn enter(&mut self, link: Change) -> Result<(), Fault> {
        match self.fault(link) {
            0 => {
                self.listed[link.cell()] = true;
                self.table[link.cell()] = link.metric;
                Ok(())
            }
            number => Err(Fault {
                number,
                section: Section::Links,
            }),
        }
    }

    /// The first of 4, 5, 6, 30 and 7 that applies, or 0.
    fn fault(&self, link: Change) -> u8 {
        let (from, to) = (usize::from(link.from), usize::from(link.to));
        if from >= self.n || to >= self.n {
            return 4;
        }
        if from == to {
            return 5;
        }
        if link.metric == 0 {
            return 6;
        }
        let is_dead = link.metric == UNUSED;
        if is_dead && self.dead == DeadTest::BeforeRepeated {
            return 30;
        }
        if self.listed[at(from, to)] {
            return 7;
        }
        if is_dead && self.dead == DeadTest::AfterRepeated {
            return 30;
        }
        0
    }
}
