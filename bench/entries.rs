//! Entries of five bytes, as links and changes are listed, and sets of router pairs.

use crate::limits::{ENTRY, Set, WIDTH};
use crate::refusal::Refusal;

#[derive(Clone, Copy)]
pub struct Entry {
    pub from: usize,
    pub to: usize,
    pub metric: u32,
}

impl Entry {
    /// The entry in the first five bytes.
    pub fn decode(bytes: &[u8]) -> Entry {
        Entry {
            from: bytes[0] as usize,
            to: bytes[1] as usize,
            metric: u32::from_be_bytes([0, bytes[2], bytes[3], bytes[4]]),
        }
    }

    /// The refusal of the entry by itself, in an area of n routers.
    pub fn check(&self, n: usize) -> Result<(), Refusal> {
        if self.from >= n || self.to >= n {
            return Err(Refusal::UnknownRouter);
        }
        if self.from == self.to {
            return Err(Refusal::SelfLink);
        }
        if self.metric == 0 {
            return Err(Refusal::Metric);
        }
        Ok(())
    }

    /// The cell of the entry's pair in a table.
    pub fn cell(&self) -> usize {
        WIDTH * self.from + self.to
    }
}

/// All entries of a list whose length is a multiple of five.
pub fn entries(list: &[u8]) -> impl Iterator<Item = Entry> {
    list.chunks_exact(ENTRY).map(Entry::decode)
}

/// A set of ordered pairs of routers.
pub struct Pairs([Set; WIDTH]);

impl Pairs {
    pub fn none() -> Pairs {
        Pairs([0; WIDTH])
    }

    /// Adds the entry's pair, and says whether it was absent.
    pub fn insert(&mut self, entry: &Entry) -> bool {
        let bit = 1 << entry.to;
        let is_new = self.0[entry.from] & bit == 0;
        self.0[entry.from] |= bit;
        is_new
    }
}

/// The members of a router set, from the lowest on.
pub fn members(mut set: Set) -> impl Iterator<Item = usize> {
    std::iter::from_fn(move || {
        if set == 0 {
            return None;
        }
        let lowest = set.trailing_zeros() as usize;
        set &= set - 1;
        Some(lowest)
    })
}
