//! Stored files without their dead links (02, No. 5), and with times (No. 10).

use crate::flaw::Flaw;
use crate::ofib::{CELLS, Contents};
use crate::paths::UNUSED;
use crate::plan::{Change, WITHOUT_TIMERS};
use crate::read::{Fault, Format, judge};

/// What the old reader makes of a stored file: what it says of itself or its refusal, and the metric table.
pub fn old_reader(file: &[u8], flaw: Flaw) -> (Result<Contents, Fault>, Vec<u32>) {
    let mut table = vec![UNUSED; CELLS];
    let outcome = judge(file, &mut table, Format::Old, flaw);
    if outcome.is_err() {
        table.fill(UNUSED);
    }
    (outcome, table)
}

/// What is written for a stored file: the file without its dead links and with times, or the old reader's refusal
/// alone.
pub fn rewritten(file: &[u8], flaw: Flaw) -> Vec<u8> {
    match old_reader(file, flaw).0 {
        Ok(contents) => anew(file, &contents, flaw),
        Err(fault) => format!("refused {}\n", fault.number).into_bytes(),
    }
}

fn anew(file: &[u8], contents: &Contents, flaw: Flaw) -> Vec<u8> {
    let (links, rest) = file[3..].split_at(5 * contents.links);
    let (changes, steps) = rest.split_at(1 + 5 * contents.changes);
    let links = live(links, flaw);
    let left = match flaw {
        Flaw::CountNotCorrected => contents.links,
        _ => links.len(),
    };
    let head = [file[0], (left / 256) as u8, (left % 256) as u8];
    [&head, links.concat().as_slice(), changes, &times(flaw), steps].concat()
}

fn live(links: &[u8], flaw: Flaw) -> Vec<&[u8]> {
    let mut links: Vec<&[u8]> = links.chunks_exact(5).collect();
    if flaw == Flaw::DeadAtEndOnly {
        let last = links.iter().rposition(|link| !is_dead(link));
        links.truncate(last.map_or(0, |place| place + 1));
    } else {
        links.retain(|link| !is_dead(link));
    }
    links
}

/// The times that a stored file gets, as bytes.
fn times(flaw: Flaw) -> Vec<u8> {
    let two = |time: u16| time.to_be_bytes().to_vec();
    match flaw {
        Flaw::RewrittenWithoutTimes => Vec::new(),
        Flaw::RewrittenNoStepTime => vec![0; 4],
        _ => [two(WITHOUT_TIMERS.hold), two(WITHOUT_TIMERS.step)].concat(),
    }
}

/// A stored file with the times put in, and dead links and faults as they are. One that ends before the times would
/// begin stays as it is.
pub fn with_times(file: &[u8]) -> Vec<u8> {
    match times_at(file) {
        Some(place) => [&file[..place], &times(Flaw::None), &file[place..]].concat(),
        None => file.to_vec(),
    }
}

fn times_at(file: &[u8]) -> Option<usize> {
    let links = usize::from(u16::from_be_bytes([*file.get(1)?, *file.get(2)?]));
    let changes_at = 3 + 5 * links + 1;
    let place = changes_at + 5 * usize::from(*file.get(changes_at - 1)?);
    (place <= file.len()).then_some(place)
}

/// Is any of the links dead in a file that the old reader takes?
pub fn has_dead_link(file: &[u8]) -> bool {
    let count = usize::from(u16::from_be_bytes([file[1], file[2]]));
    file[3..].chunks_exact(5).take(count).any(is_dead)
}

fn is_dead(link: &[u8]) -> bool {
    Change::from_bytes(link).metric == UNUSED
}
