//! The command line.

use std::path::PathBuf;

use crate::{file_cases, isis_cases, reachable};

const DEFAULT_SEED: u64 = 1;

pub struct Options {
    pub seed: u64,
    /// Where a differing case is written.
    pub out: PathBuf,
    /// A saved case that is to be compared again.
    pub replay: Option<PathBuf>,
    pub areas: u64,
    pub direct: u64,
    pub isis: isis_cases::Amount,
    pub files: file_cases::Amount,
    pub small: reachable::Amount,
}

impl Options {
    fn whole() -> Options {
        Options {
            seed: DEFAULT_SEED,
            out: PathBuf::from("."),
            replay: None,
            areas: 600_000,
            direct: 200_000,
            isis: isis_cases::Amount {
                cases: 400_000,
                program: None,
                program_stride: 97,
            },
            files: file_cases::Amount {
                cases: 150_000,
                link_stride: 3,
                program: None,
                program_stride: 97,
                rewrite: None,
                rewrite_stride: 19,
                sheet_steps: None,
                sheet_stride: 29,
                unfinished: None,
                unfinished_stride: 31,
            },
            small: reachable::Amount {
                stride: 1,
                records: 8_000_000,
                timely_records: 4_000_000,
                has_seven: true,
            },
        }
    }

    fn make_slice(&mut self) {
        self.areas = 60_000;
        self.direct = 20_000;
        self.isis.cases = 40_000;
        self.files.cases = 15_000;
        self.files.link_stride = 127;
        self.small = reachable::Amount {
            stride: 5,
            records: 1_000_000,
            timely_records: 400_000,
            has_seven: false,
        };
    }
}

pub fn parse(mut words: impl Iterator<Item = String>) -> Result<Options, String> {
    let mut options = Options::whole();
    while let Some(word) = words.next() {
        let mut value = || words.next().ok_or(format!("{word} needs a value"));
        match word.as_str() {
            "--whole" => {}
            "--slice" => options.make_slice(),
            "--seed" => options.seed = value()?.parse().map_err(|_| "--seed needs a number".to_string())?,
            "--program" => options.files.program = Some(PathBuf::from(value()?)),
            "--rewrite" => options.files.rewrite = Some(PathBuf::from(value()?)),
            "--sheet-steps" => options.files.sheet_steps = Some(PathBuf::from(value()?)),
            "--unfinished" => options.files.unfinished = Some(PathBuf::from(value()?)),
            "--from-isis" => options.isis.program = Some(PathBuf::from(value()?)),
            "--out" => options.out = PathBuf::from(value()?),
            "--replay" => options.replay = Some(PathBuf::from(value()?)),
            _ => return Err(format!("no such option: {word}")),
        }
    }
    Ok(options)
}
