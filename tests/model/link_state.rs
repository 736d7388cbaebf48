//! Link-state data: a table of identities and a list of entries for each router; without faults, and with faults at
//! chosen places.

use crate::isis::{HEAD, Identity, MOST_SUB_TLVS, ROW};
use crate::ofib::WIDTH;
use crate::paths::UNUSED;
use crate::random::Random;

/// What the library is handed.
#[derive(Clone)]
pub struct Input {
    pub n: usize,
    pub identities: Vec<u8>,
    pub lists: Vec<u8>,
}

/// An entry. The length of the sub-TLVs stands by itself, so that it can be wrong.
#[derive(Clone)]
pub struct Entry {
    pub identity: Identity,
    pub metric: u32,
    pub length: u8,
    pub sub_tlvs: Vec<u8>,
}

#[derive(Clone, Default)]
pub struct List {
    pub entries: Vec<Entry>,
    /// So many bytes at its end are left out, of which its length knows.
    pub left_out: usize,
    /// Its length is larger than its bytes by this, or smaller, in 16 bits.
    pub more: u16,
}

#[derive(Clone)]
pub struct Data {
    pub rows: Vec<(Identity, u8)>,
    pub lists: Vec<List>,
}

impl Entry {
    pub fn new(identity: Identity, metric: u32, sub_tlvs: Vec<u8>) -> Entry {
        Entry {
            identity,
            metric,
            length: sub_tlvs.len() as u8,
            sub_tlvs,
        }
    }

    pub fn bytes(&self) -> Vec<u8> {
        let metric = &self.metric.to_be_bytes()[1..];
        [&self.identity, metric, &[self.length], &self.sub_tlvs].concat()
    }
}

impl List {
    fn bytes(&self) -> Vec<u8> {
        let mut list: Vec<u8> = self.entries.iter().flat_map(Entry::bytes).collect();
        list.truncate(list.len().saturating_sub(self.left_out));
        let length = (list.len() as u16).wrapping_add(self.more);
        [length.to_be_bytes().as_slice(), &list].concat()
    }
}

impl Data {
    pub fn input(&self) -> Input {
        let row = |&(identity, router): &(Identity, u8)| [identity.as_slice(), &[router]].concat();
        Input {
            n: self.lists.len(),
            identities: self.rows.iter().flat_map(row).collect(),
            lists: self.lists.iter().flat_map(List::bytes).collect(),
        }
    }

    /// Identities that lead to the router, by their first rows, or with `others` those that lead to another one.
    fn identities(&self, router: usize, others: bool) -> Vec<Identity> {
        let is_first = |place: usize| self.rows[..place].iter().all(|row| row.0 != self.rows[place].0);
        let leads = |&place: &usize| is_first(place) && (usize::from(self.rows[place].1) == router) != others;
        let places = (0..self.rows.len()).filter(leads);
        places.map(|place| self.rows[place].0).collect()
    }
}

/// Data without a fault: some routers have several identities and some none, rows are shadowed by earlier ones, and
/// some neighbours are listed more than once.
pub fn faultless(random: &mut Random, n: usize) -> Data {
    let mut data = Data {
        rows: rows(random, n),
        lists: vec![List::default(); n],
    };
    let most = random.pick(&[1, 2, 4, 4, 8, 40]);
    let dead = random.pick(&[0, 0, 10, 50]);
    for router in 0..n {
        let neighbours = data.identities(router, true);
        if neighbours.is_empty() {
            continue;
        }
        for _ in 0..random.between(0, most) {
            let metric = if random.chance(dead) { UNUSED } else { metric(random) };
            let entry = Entry::new(random.pick(&neighbours), metric, sub_tlvs(random));
            data.lists[router].entries.push(entry);
        }
    }
    data
}

/// One to three identities for most routers in any order, and behind them rows that have no effect.
fn rows(random: &mut Random, n: usize) -> Vec<(Identity, u8)> {
    let style = random.below(3);
    let near = std::array::from_fn(|_| random.byte());
    let most = random.pick(&[1, 1, 2, 3]);
    let mut rows: Vec<(Identity, u8)> = Vec::new();
    for router in 0..n {
        for alias in 0..if random.chance(5) { 0 } else { random.between(1, most) } {
            let identity = match style {
                0 => [0, 0, 0, 0, 0, router as u8 + 1, alias as u8],
                1 => std::array::from_fn(|_| random.byte()),
                _ => one_byte_off(random, near),
            };
            rows.push((identity, router as u8));
        }
    }
    random.shuffle(&mut rows);
    if !rows.is_empty() && random.chance(40) {
        for _ in 0..random.between(1, 4) {
            let (identity, _) = random.pick(&rows);
            rows.push((identity, random.below(n) as u8));
        }
    }
    rows
}

fn one_byte_off(random: &mut Random, mut identity: Identity) -> Identity {
    identity[random.below(7)] ^= random.between(1, 255) as u8;
    identity
}

fn metric(random: &mut Random) -> u32 {
    match random.below(4) {
        0 => random.pick(&[1, 255, 256, 65_535, 65_536, UNUSED - 1]),
        1 => random.between(1, 5) as u32,
        2 => random.between(1, 100_000) as u32,
        _ => random.between(1, UNUSED as usize) as u32,
    }
}

fn sub_tlvs(random: &mut Random) -> Vec<u8> {
    let any = random.between(0, MOST_SUB_TLVS);
    let length = random.pick(&[0, 0, 0, 0, 1, 6, 10, 11, 12, MOST_SUB_TLVS - 1, MOST_SUB_TLVS, any]);
    random.bytes(length)
}

/// A fault of an entry, each with its refusal.
#[derive(Clone, Copy)]
pub enum EntryFault {
    /// 31, by a length that goes past the list.
    Past,
    /// 32.
    Long,
    /// 33.
    Unknown,
    /// 5.
    Own,
    /// 6.
    Zero,
}

pub const ENTRY_FAULTS: [EntryFault; 5] = [
    EntryFault::Past,
    EntryFault::Long,
    EntryFault::Unknown,
    EntryFault::Own,
    EntryFault::Zero,
];

/// Puts the fault into the entry. A router without an identity of its own cannot be listed by itself.
pub fn spoil_entry(random: &mut Random, data: &mut Data, router: usize, place: usize, fault: EntryFault) {
    let own = data.identities(router, false);
    let behind: usize = data.lists[router].entries[place + 1..]
        .iter()
        .map(|entry| HEAD + entry.sub_tlvs.len())
        .sum();
    let known = data.rows.clone();
    let entry = &mut data.lists[router].entries[place];
    match fault {
        EntryFault::Past => {
            let least = (entry.sub_tlvs.len() + behind + 1).min(255);
            let most = random.pick(&[least, 255]);
            entry.length = random.between(least, most) as u8;
        }
        EntryFault::Long => {
            let length = random.pick(&[MOST_SUB_TLVS + 1, MOST_SUB_TLVS + 1, MOST_SUB_TLVS + 2, 255]);
            entry.sub_tlvs = random.bytes(length);
            entry.length = length as u8;
        }
        EntryFault::Unknown => loop {
            entry.identity = one_byte_off(random, entry.identity);
            if known.iter().all(|row| row.0 != entry.identity) {
                break;
            }
        },
        EntryFault::Own if own.is_empty() => {}
        EntryFault::Own => entry.identity = random.pick(&own),
        EntryFault::Zero => entry.metric = 0,
    }
}

/// Up to three faults in one entry, if there is any.
fn spoil_some_entry(random: &mut Random, data: &mut Data) {
    let routers: Vec<usize> = (0..data.lists.len())
        .filter(|&router| !data.lists[router].entries.is_empty())
        .collect();
    if routers.is_empty() {
        return;
    }
    let router = random.pick(&routers);
    let place = random.below(data.lists[router].entries.len());
    for _ in 0..random.pick(&[1, 2, 2, 3]) {
        let fault = random.pick(&ENTRY_FAULTS);
        spoil_entry(random, data, router, place, fault);
    }
}

/// A fault at a chosen place: in an entry, at a list's end or length, or in a row.
pub fn spoil(random: &mut Random, data: &mut Data) {
    let n = data.lists.len();
    let router = random.below(n);
    match random.below(8) {
        0..=3 => spoil_some_entry(random, data),
        4 => data.lists[router].left_out = random.between(1, 30),
        5 => {
            let any = random.word() as u16;
            data.lists[router].more = random.pick(&[1, 2, 11, 0x0100, 0xFFFF, 0xFFFE, any]);
        }
        _ if data.rows.is_empty() => {}
        6 => {
            let place = random.below(data.rows.len());
            data.rows[place].1 = not_below(random, n);
        }
        _ => {
            let (identity, _) = random.pick(&data.rows);
            data.rows.push((identity, not_below(random, n)));
        }
    }
}

fn not_below(random: &mut Random, n: usize) -> u8 {
    let any = random.between(n, 255);
    random.pick(&[n, n + 1, any, 255]) as u8
}

/// Bytes that are changed, left out, put in or put behind.
pub fn alter(random: &mut Random, bytes: &mut Vec<u8>) {
    let place = random.below(bytes.len());
    let any = random.byte();
    match random.below(5) {
        0 => bytes.truncate(place),
        1 => bytes.insert(place, any),
        2 => bytes.push(any),
        _ if bytes.is_empty() => {}
        3 => {
            bytes.remove(place);
        }
        _ => bytes[place] = random.pick(&[0, 1, 255, any, bytes[place].wrapping_add(1)]),
    }
}

/// Bytes that follow no plan, mostly small ones, so that lengths are short.
pub fn any_input(random: &mut Random) -> Input {
    let n = random.between(1, 4);
    let rows = random.below(4);
    let mut identities = random.bytes(ROW * rows);
    for row in identities.chunks_mut(ROW) {
        row[7] = random.below(n) as u8;
    }
    let most = random.pick(&[0, 3, 40, 300]);
    let mut lists = random.bytes(most);
    for byte in &mut lists {
        if random.chance(70) {
            *byte = random.below(12) as u8;
        }
    }
    Input { n, identities, lists }
}

/// As long as lists can be, for as many routers as there can be.
pub fn largest(random: &mut Random) -> Data {
    with_lengths(random, &[65_535; WIDTH])
}

/// Every router lists every other one, some at the largest metric that is used.
pub fn full_mesh(random: &mut Random, n: usize) -> Data {
    let mut data = with_lengths(random, &vec![0; n]);
    for router in 0..n {
        let others = data.identities(router, true);
        let entry = |identity| Entry::new(identity, random.pick(&[UNUSED - 1, 10_000_000]), Vec::new());
        data.lists[router].entries = others.into_iter().map(entry).collect();
    }
    data
}

/// A list of each length, made of entries with as many bytes as they can have; a length is 0 or 11 and more.
pub fn with_lengths(random: &mut Random, lengths: &[usize]) -> Data {
    let n = lengths.len();
    let mut list = |(router, &length): (usize, &usize)| {
        let mut list = List::default();
        let mut left = length;
        while left > 0 {
            let most = left.min(HEAD + MOST_SUB_TLVS);
            // What is left must have room for an entry.
            let size = if (1..HEAD).contains(&(left - most)) {
                most - HEAD
            } else {
                most
            };
            let to = (router + random.between(1, n - 1)) % n;
            let entry = Entry::new([to as u8; 7], metric(random), random.bytes(size - HEAD));
            list.entries.push(entry);
            left -= size;
        }
        list
    };
    Data {
        rows: (0..n as u8).map(|router| ([router; 7], router)).collect(),
        lists: lengths.iter().enumerate().map(&mut list).collect(),
    }
}
