//! Areas from IS-IS: a table of identities and n lists of entries become a metric table (02, No. 6). All that the lists
//! hold is taken apart first, and every fault in it is noted; then the one that stands first decides.

use std::collections::HashMap;

use crate::flaw::Flaw;
use crate::ofib::CELLS;
use crate::paths::{UNUSED, at};

pub const ROW: usize = 8;
/// Bytes of an entry before its sub-TLVs.
pub const HEAD: usize = 11;
pub const MOST_SUB_TLVS: usize = 244;

pub type Identity = [u8; 7];

/// The part of the input in which a fault lies.
#[derive(Clone, Copy, Debug, PartialEq, Eq)]
pub enum Part {
    Routers,
    Row,
    Length,
    List,
    Entry,
    End,
}

/// A refusal's number, and where its cause lies.
#[derive(Clone, Copy, Debug, PartialEq, Eq)]
pub struct Fault {
    pub number: u8,
    pub part: Part,
}

/// What an entry says: a link from the list's router.
struct Link {
    identity: Identity,
    from: usize,
    to: usize,
    metric: u32,
}

/// All that is found in the lists: links, and faults with the place of each.
#[derive(Default)]
struct Found {
    links: Vec<Link>,
    faults: Vec<(usize, Fault)>,
}

/// Fills the table and gives the refusal's number, or 0.
pub fn isis(n: usize, identities: &[u8], lists: &[u8], table: &mut [u32], flaw: Flaw) -> u8 {
    if table.len() != CELLS {
        let counts_first = flaw == Flaw::CountBeforeSize;
        return if counts_first && !is_count(n, flaw) { 3 } else { 8 };
    }
    let before = table.to_vec();
    table.fill(UNUSED);
    let (links, fault) = judge(n, identities, lists, flaw);
    if fault.is_none() || flaw == Flaw::IsisKeepsLinks {
        fill(&links, table, flaw);
    }
    if fault.is_some() && flaw == Flaw::TableAsItWas {
        table.copy_from_slice(&before);
    }
    fault.map_or(0, |fault| fault.number)
}

/// The fault that the input is refused for, if its table has the right size.
pub fn fault_of(n: usize, identities: &[u8], lists: &[u8]) -> Option<Fault> {
    judge(n, identities, lists, Flaw::None).1
}

fn is_count(n: usize, flaw: Flaw) -> bool {
    (1..=flaw.most_routers(Flaw::IsisUpTo32, Flaw::IsisUpTo63)).contains(&n)
}

fn judge(n: usize, identities: &[u8], lists: &[u8], flaw: Flaw) -> (Vec<Link>, Option<Fault>) {
    let count = (!is_count(n, flaw)).then_some(Fault {
        number: 3,
        part: Part::Routers,
    });
    let rows = row_fault(n, identities, flaw);
    let first = if flaw == Flaw::RowsBeforeCount {
        rows.or(count)
    } else {
        count.or(rows)
    };
    if first.is_some() {
        return (Vec::new(), first);
    }
    let found = all_of(n, &routers(identities, flaw), lists, flaw);
    let first = found.faults.iter().min_by_key(|(place, _)| *place);
    (found.links, first.map(|&(_, fault)| fault))
}

/// The fault of the first row that has one.
fn row_fault(n: usize, identities: &[u8], flaw: Flaw) -> Option<Fault> {
    let is_cut = identities.len() % ROW != 0;
    let is_shadowed = |place: usize| {
        let mut earlier = identities.chunks(ROW).take(place);
        earlier.any(|row| row[..7] == identities[ROW * place..ROW * place + 7])
    };
    let mut rows = identities.chunks(ROW).enumerate();
    let fault = rows.find_map(|(place, row)| match row.get(7) {
        _ if flaw == Flaw::CutRowFirst && is_cut => Some(1),
        None => Some(1),
        Some(_) if flaw == Flaw::ShadowedRowPasses && is_shadowed(place) => None,
        Some(&router) => (usize::from(router) >= n).then_some(4),
    });
    fault.map(|number| Fault {
        number,
        part: Part::Row,
    })
}

/// The router of each identity. The first row with an identity is put there last, and stays.
fn routers(identities: &[u8], flaw: Flaw) -> HashMap<Identity, usize> {
    let mut rows: Vec<&[u8]> = identities.chunks_exact(ROW).collect();
    if flaw != Flaw::LastRowCounts {
        rows.reverse();
    }
    let known = |row: &&[u8]| (known_as(identity(row), flaw), usize::from(row[7]));
    rows.iter().map(known).collect()
}

fn identity(bytes: &[u8]) -> Identity {
    std::array::from_fn(|k| bytes[k])
}

/// The identity by which a router is looked up.
fn known_as(mut identity: Identity, flaw: Flaw) -> Identity {
    if flaw == Flaw::SixByteIdentity {
        identity[6] = 0;
    }
    identity
}

/// The links and the faults of all lists. One that is not all there ends them, and no entry of it is looked at.
fn all_of(n: usize, routers: &HashMap<Identity, usize>, lists: &[u8], flaw: Flaw) -> Found {
    let mut found = Found::default();
    let mut place = 0;
    let early = |place: usize| if flaw == Flaw::LengthsFirst { 0 } else { place };
    for from in 0..n {
        let rest = &lists[place..];
        let Some(length) = rest.get(..2).map(|two| usize::from(two[0]) * 256 + usize::from(two[1])) else {
            found.note(early(place), 1, Part::Length);
            return found;
        };
        let list = &rest[2..rest.len().min(2 + length)];
        let is_whole = list.len() == length;
        if is_whole || flaw == Flaw::PartOfList {
            found.take_list(from, routers, list, place + 2, flaw);
        }
        if !is_whole {
            let judged_at = if flaw == Flaw::PartOfList { lists.len() } else { place };
            found.note(early(judged_at), 1, Part::List);
            return found;
        }
        place += 2 + length;
    }
    if place < lists.len() {
        found.note(early(place), 2, Part::End);
    }
    found
}

impl Found {
    fn note(&mut self, place: usize, number: u8, part: Part) {
        self.faults.push((place, Fault { number, part }));
    }

    /// The entries of one list, whose first byte is at `place`.
    fn take_list(&mut self, from: usize, routers: &HashMap<Identity, usize>, list: &[u8], place: usize, flaw: Flaw) {
        let mut taken = 0;
        while taken < list.len() {
            let entry = Entry {
                bytes: &list[taken..],
                from,
                routers,
                flaw,
            };
            let mut tests = tests(flaw).into_iter();
            match (tests.find(|&number| entry.fails(number)), entry.link()) {
                (Some(number), _) => self.note(place + taken, number, Part::Entry),
                (None, link) => self.links.extend(link),
            }
            taken += entry.size().min(entry.bytes.len());
        }
    }
}

/// The refusals of an entry, in the order in which they are tested.
fn tests(flaw: Flaw) -> [u8; 6] {
    match flaw {
        Flaw::LongBeforePast => [32, 31, 33, 5, 6, 30],
        Flaw::LongLast => [31, 33, 5, 6, 32, 30],
        Flaw::UnknownLast => [31, 32, 5, 6, 33, 30],
        Flaw::ZeroBeforeOwn => [31, 32, 33, 6, 5, 30],
        _ => [31, 32, 33, 5, 6, 30],
    }
}

/// An entry in the list of the router `from`: the bytes of the list from the entry's first on.
struct Entry<'a> {
    bytes: &'a [u8],
    from: usize,
    routers: &'a HashMap<Identity, usize>,
    flaw: Flaw,
}

impl Entry<'_> {
    fn sub_tlvs(&self) -> usize {
        self.bytes.get(HEAD - 1).map_or(0, |&length| usize::from(length))
    }

    fn size(&self) -> usize {
        HEAD + self.sub_tlvs()
    }

    fn metric(&self) -> Option<u32> {
        let first = if self.flaw == Flaw::MetricByteEarly { 6 } else { 7 };
        let three = self.bytes.get(first..first + 3)?;
        Some(three.iter().fold(0, |sum, &byte| sum * 256 + u32::from(byte)))
    }

    /// The router that the entry leads to, if its identity has a row.
    fn to(&self) -> Option<usize> {
        let identity = identity(self.bytes.get(..7)?);
        self.routers.get(&known_as(identity, self.flaw)).copied()
    }

    fn link(&self) -> Option<Link> {
        Some(Link {
            identity: identity(self.bytes.get(..7)?),
            from: self.from,
            to: self.to()?,
            metric: self.metric()?,
        })
    }

    fn fails(&self, number: u8) -> bool {
        let more = usize::from(self.flaw == Flaw::EntryOneByteLonger);
        let most = MOST_SUB_TLVS - usize::from(self.flaw == Flaw::MostSubTlvs243);
        match number {
            31 => self.size() > self.bytes.len() + more,
            32 => self.sub_tlvs() > most,
            33 => self.to().is_none() && self.flaw != Flaw::UnknownSkipped,
            5 => self.to() == Some(self.from),
            6 => self.metric() == Some(0),
            _ => self.metric() == Some(UNUSED) && self.flaw == Flaw::DeadEntryRefused,
        }
    }
}

/// The lowest metric of each pair goes into the table, which has 16,777,215 elsewhere.
fn fill(links: &[Link], table: &mut [u32], flaw: Flaw) {
    let mut links: Vec<&Link> = links.iter().collect();
    // Of those that go into one cell, the last stays.
    match flaw {
        Flaw::LastEntryKept => {}
        Flaw::HighestKept => links.sort_by_key(|link| link.metric),
        Flaw::LowestByIdentity => links.sort_by_key(|link| (link.identity, u32::MAX - link.metric)),
        _ => links.sort_by_key(|link| u32::MAX - link.metric),
    }
    for link in links {
        table[at(link.from, link.to)] = link.metric;
    }
}
