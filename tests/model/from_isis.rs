//! What the program `from_isis` prints for link-state data: the area as a bench file in hexadecimal. The papers do not
//! have it. Its input is the length of the identity table in two bytes, high byte first, the table, and the lists.
//!
//! A line has the digits of the bytes, spaces, and from its 15th character on a comment: n; the number of links; each
//! link by its routers, with both in decimal again; no changes; the times; no steps. Links are in the order of the
//! table, and dead ones are not listed.

use crate::flaw::Flaw;
use crate::isis::isis;
use crate::link_state::Input;
use crate::ofib::CELLS;
use crate::paths::{UNUSED, at, pairs};

/// Lists of more bytes are not taken.
pub const MOST_BYTES: usize = 262_144;
pub const TOO_LONG: &str = "too long\n";

/// The program's input, where the table has a length of two bytes.
pub fn stream(input: &Input) -> Option<Vec<u8>> {
    let length = u16::try_from(input.identities.len()).ok()?;
    Some([length.to_be_bytes().as_slice(), &input.identities, &input.lists].concat())
}

/// What the program makes of its input: there are as many routers as lists begin in it.
pub fn input_of(stream: &[u8], flaw: Flaw) -> Input {
    let (head, rest) = stream.split_at(stream.len().min(2));
    let length = head.iter().fold(0, |sum, &byte| 256 * sum + usize::from(byte));
    let (identities, lists) = rest.split_at(rest.len().min(length));
    Input {
        n: begun(lists, flaw),
        identities: identities.to_vec(),
        lists: lists.to_vec(),
    }
}

/// In how many places a list begins, whether or not it is all there.
fn begun(lists: &[u8], flaw: Flaw) -> usize {
    let mut rest = lists;
    let mut count = 0;
    while !rest.is_empty() {
        let length = rest
            .get(..2)
            .map_or(0, |two| usize::from(two[0]) * 256 + usize::from(two[1]));
        let behind = rest.get(2 + length..);
        count += usize::from(behind.is_some() || flaw != Flaw::WholeListsCounted);
        rest = behind.unwrap_or_default();
    }
    count
}

pub fn text(stream: &[u8], flaw: Flaw) -> String {
    let Input { n, identities, lists } = input_of(stream, flaw);
    if lists.len() > MOST_BYTES + usize::from(flaw == Flaw::OneByteMoreTaken) {
        return TOO_LONG.to_string();
    }
    let mut table = vec![UNUSED; CELLS];
    match isis(n, &identities, &lists, &mut table, flaw) {
        0 => area_text(n, &table, flaw),
        number => format!("refused {number}\n"),
    }
}

fn area_text(n: usize, table: &[u32], flaw: Flaw) -> String {
    let most = UNUSED - u32::from(flaw == Flaw::LargestNotListed);
    let links: Vec<(usize, usize)> = pairs(n).filter(|&(i, j)| table[at(i, j)] < most).collect();
    let mut lines = vec![
        (format!("{n:02X}"), format!("routers {n}")),
        (format!("{:04X}", links.len()), format!("links {}", links.len())),
    ];
    for (i, j) in links {
        let metric = table[at(i, j)];
        lines.push((format!("{i:02X}{j:02X}{metric:06X}"), format!("{i} to {j} at {metric}")));
    }
    lines.push(("00".to_string(), "changes".to_string()));
    lines.push(("00000001".to_string(), "hold time 0, step time 1".to_string()));
    lines.push(("0000".to_string(), "steps".to_string()));
    let line = |(digits, words): &(String, String)| format!("{digits:<14}# {words}\n");
    lines.iter().map(line).collect()
}
