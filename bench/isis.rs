//! An area from IS-IS: lists of TLV 22 entries, and a table of identities.

use crate::limits::{CELLS, UNUSED, WIDTH};
use crate::refusal::Refusal;

/// Bytes of a row of the table: an identity and the number of its router.
pub const ROW: usize = 8;

/// Bytes of an identity, and of an entry before its sub-TLVs.
pub const IDENTITY: usize = 7;
const HEAD: usize = 11;
const MOST_SUB_TLVS: usize = 244;

/// Fills the metric table with the links of n lists, and with none where something is refused.
pub fn read(n: usize, identities: &[u8], lists: &[u8], table: &mut [u32]) -> Result<(), Refusal> {
    if table.len() != CELLS {
        return Err(Refusal::TableSize);
    }
    table.fill(UNUSED);
    let answer = area(n, identities, lists, table);
    if answer.is_err() {
        table.fill(UNUSED);
    }
    answer
}

fn area(n: usize, identities: &[u8], lists: &[u8], table: &mut [u32]) -> Result<(), Refusal> {
    if n < 1 || n > WIDTH {
        return Err(Refusal::RouterCount);
    }
    let rows = identities.chunks_exact(ROW);
    if rows.clone().any(|row| row[IDENTITY] as usize >= n) {
        return Err(Refusal::UnknownRouter);
    }
    if !rows.remainder().is_empty() {
        return Err(Refusal::Incomplete);
    }
    let mut rest = lists;
    for i in 0..n {
        let (size, after) = rest.split_first_chunk().ok_or(Refusal::Incomplete)?;
        let size = u16::from_be_bytes(*size) as usize;
        let (list, after) = after.split_at_checked(size).ok_or(Refusal::Incomplete)?;
        put_list(i, identities, list, &mut table[WIDTH * i..WIDTH * i + WIDTH])?;
        rest = after;
    }
    if rest.is_empty() {
        Ok(())
    } else {
        Err(Refusal::Trailing)
    }
}

/// Lowers the row of router i by the metrics of its list, up to the first faulty entry.
fn put_list(i: usize, identities: &[u8], list: &[u8], row: &mut [u32]) -> Result<(), Refusal> {
    let mut rest = list;
    while !rest.is_empty() {
        let (head, after) = rest.split_first_chunk::<HEAD>().ok_or(Refusal::PastList)?;
        let skipped = head[HEAD - 1] as usize;
        let after = after.get(skipped..).ok_or(Refusal::PastList)?;
        if skipped > MOST_SUB_TLVS {
            return Err(Refusal::LongSubTlvs);
        }
        let j = router_of(identities, &head[..IDENTITY]).ok_or(Refusal::UnknownIdentity)?;
        if j == i {
            return Err(Refusal::SelfLink);
        }
        let metric = u32::from_be_bytes([0, head[7], head[8], head[9]]);
        if metric == 0 {
            return Err(Refusal::Metric);
        }
        row[j] = row[j].min(metric);
        rest = after;
    }
    Ok(())
}

/// The router of the first row with an identity.
fn router_of(identities: &[u8], identity: &[u8]) -> Option<usize> {
    let mut rows = identities.chunks_exact(ROW);
    rows.find(|row| row[..IDENTITY] == *identity)
        .map(|row| row[IDENTITY] as usize)
}
