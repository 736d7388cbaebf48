//! A list of calls on a fresh plan, and what 02, No. 8 and No. 10, say of those that are answered ok.

use crate::compare::{Comparison, same};
use crate::flaw::Flaw;
use crate::needs;
use crate::ofib::{self, Answer, Record};
use crate::step::TICK;
use crate::steps::{all_done, waits_for_none};

/// How many calls answered ok the plan needs, and how many there have been, ticks not counted.
pub struct Course {
    pub needs: usize,
    pub oks: usize,
}

impl Course {
    /// One call more of the library: its kind, its answer, and the record after it.
    pub fn went_on(
        &mut self,
        comparison: &mut Comparison,
        kind: u8,
        answer: Answer,
        record: &Record,
    ) -> Result<(), String> {
        self.oks += usize::from(is_counted(kind, answer, comparison.flaw));
        self.judge(record, comparison.flaw)?;
        let missing = comparison.missing(record)?;
        self.judge_missing(missing)
    }

    /// Never are more calls answered ok than the plan needs. So many are where all routers are done and wait for none;
    /// before the first tick, no router is done that waits.
    pub fn judge(&self, record: &Record, flaw: Flaw) -> Result<(), String> {
        let Course { needs, oks } = self;
        let may_wait = record.clock > 0 && flaw != Flaw::ExactThoughWaiting;
        let is_exact = all_done(record) && (waits_for_none(record) || !may_wait);
        if oks > needs || is_exact && oks < needs {
            return Err(format!(
                "{oks} calls answered ok where {needs} are needed with {record:?}"
            ));
        }
        Ok(())
    }

    /// What is missing is what the plan needs but for what has been answered ok.
    pub fn judge_missing(&self, missing: usize) -> Result<(), String> {
        let Course { needs, oks } = self;
        if missing + oks != *needs {
            return Err(format!(
                "{oks} calls answered ok and {missing} missing where {needs} are needed"
            ));
        }
        Ok(())
    }
}

/// Whether the answer is one of those that the plan needs. A tick's never is.
pub fn is_counted(kind: u8, answer: Answer, flaw: Flaw) -> bool {
    answer == Answer::Ok && (kind != TICK || flaw == Flaw::TickCounted)
}

impl Comparison {
    /// What a fresh record needs, or any other.
    pub fn needs(&mut self, record: &Record) -> Result<usize, String> {
        let needs = ofib::needs(record);
        same("needs", needs, needs::needs(record, self.flaw))?;
        self.counts.progress.needs += 1;
        Ok(needs)
    }

    /// What any record is short of.
    pub fn missing(&mut self, record: &Record) -> Result<usize, String> {
        let missing = ofib::missing(record);
        same("missing", missing, needs::missing(record, self.flaw))?;
        self.counts.progress.missing += 1;
        Ok(missing)
    }
}
