//! Areas from IS-IS that are worked out by hand, and link-state data of a real implementation: the model must give what
//! is written beside them, and the library the same.

use crate::compare::{Comparison, same};
use crate::difference::Difference;
use crate::files::bytes;
use crate::flaw::Flaw;
use crate::isis::isis;
use crate::isis_cases::compare_input;
use crate::link_state::Input;
use crate::ofib::CELLS;
use crate::paths::{UNUSED, at};
use crate::random::Random;

type Link = (usize, usize, u32);

/// Two routers. The third row is shadowed by the first, and router 1 has two identities.
const TABLE: &str = "AAAAAAAAAAAAAA 00  BBBBBBBBBBBBBB 01  AAAAAAAAAAAAAA 01  CCCCCCCCCCCCCC 01";

/// Lists for two routers beside that table: the links, or the refusal.
const LISTS: [(&str, Result<&[Link], u8>); 27] = [
    ("0000 0000", Ok(&[])),
    (
        "000B BBBBBBBBBBBBBB 000005 00  000B AAAAAAAAAAAAAA 000007 00",
        Ok(&[(0, 1, 5), (1, 0, 7)]),
    ),
    (
        "0019 BBBBBBBBBBBBBB 000005 00 CCCCCCCCCCCCCC 000003 03 010203  0000",
        Ok(&[(0, 1, 3)]),
    ),
    (
        "0019 CCCCCCCCCCCCCC 000003 03 010203 BBBBBBBBBBBBBB 000005 00  0000",
        Ok(&[(0, 1, 3)]),
    ),
    ("000B BBBBBBBBBBBBBB FFFFFF 00  0000", Ok(&[])),
    (
        "0016 BBBBBBBBBBBBBB FFFFFF 00 BBBBBBBBBBBBBB FFFFFE 00  0000",
        Ok(&[(0, 1, UNUSED - 1)]),
    ),
    ("000B BBBBBBBBBBBBBB 010203 00  0000", Ok(&[(0, 1, 66_051)])),
    ("", Err(1)),
    ("00", Err(1)),
    ("0000", Err(1)),
    ("0000 00", Err(1)),
    ("0005 01020304", Err(1)),
    ("000C BBBBBBBBBBBBBB 000000 00", Err(1)),
    ("000B BBBBBBBBBBBBBB 000005 00  0001", Err(1)),
    ("0002 0102  0000", Err(31)),
    ("000A BBBBBBBBBBBBBB 000000  0000", Err(31)),
    ("000B BBBBBBBBBBBBBB 000005 01  0000", Err(31)),
    ("000B BBBBBBBBBBBBBB 000005 FA  0000", Err(31)),
    ("000C BBBBBBBBBBBBBB 000005 00 01  0000", Err(31)),
    ("000B EEEEEEEEEEEEEE 000000 00  0000", Err(33)),
    ("000B EEEEEEEEEEEEEE 000005 00  0005", Err(33)),
    ("000B AAAAAAAAAAAAAA 000000 00  0000", Err(5)),
    ("0000  000B CCCCCCCCCCCCCC 000005 00", Err(5)),
    ("000B BBBBBBBBBBBBBB 000000 00  0001 01", Err(6)),
    ("0016 BBBBBBBBBBBBBB 000000 00 EEEEEEEEEEEEEE 000005 00  0000", Err(6)),
    ("0000 0000 09", Err(2)),
    ("0000  000B BBBBBBBBBBBBBB 000005 00  09", Err(5)),
];

/// A number of routers, a table of identities beside lists without an entry, and the answer.
const TABLES: [(usize, &str, u8); 13] = [
    (2, "", 0),
    (2, "AAAAAAAAAAAAAA 02 01", 4),
    (2, "AAAAAAAAAAAAAA 00 01", 1),
    (2, "AAAAAAAAAAAAAA", 1),
    (2, "AAAAAAAAAAAAAA 00 AAAAAAAAAAAAAA 02", 4),
    (2, "AAAAAAAAAAAAAA 00 BBBBBBBBBBBBBB FF AAAAAAAAAAAA", 4),
    (1, TABLE, 4),
    (0, "", 3),
    (0, TABLE, 3),
    (33, "AAAAAAAAAAAAAA 20 AA", 1),
    (64, "AAAAAAAAAAAAAA 3F AA", 1),
    (64, "AAAAAAAAAAAAAA 40", 4),
    (65, "AAAAAAAAAAAAAA", 3),
];

/// Data as it was sent, the identity table beside it, and the links that it stands for.
const SENT: [[&str; 4]; 3] = [
    [
        "p2p",
        include_str!("../../crates/isis_test/data/p2p/lists.hex"),
        include_str!("../../crates/isis_test/data/p2p/table.hex"),
        include_str!("../../crates/isis_test/data/p2p/expect"),
    ],
    [
        "te",
        include_str!("../../crates/isis_test/data/te/lists.hex"),
        include_str!("../../crates/isis_test/data/te/table.hex"),
        include_str!("../../crates/isis_test/data/te/expect"),
    ],
    [
        "fan",
        include_str!("../../crates/isis_test/data/fan/lists.hex"),
        include_str!("../../crates/isis_test/data/fan/table.hex"),
        include_str!("../../crates/isis_test/data/fan/expect"),
    ],
];

struct Example {
    name: String,
    input: Input,
    /// The table of the links, or the refusal.
    outcome: Result<Vec<u32>, u8>,
}

/// The examples on the model alone. A table of a wrong size is refused first, whatever else is wrong.
pub fn check_model() -> Result<(), String> {
    for Example { name, input, outcome } in examples() {
        let Input { n, identities, lists } = &input;
        let (answer, table) = match outcome {
            Ok(table) => (0, table),
            Err(number) => (number, vec![UNUSED; CELLS]),
        };
        let mut filled = vec![7; CELLS];
        let number = isis(*n, identities, lists, &mut filled, Flaw::None);
        same(&name, number, answer)?;
        same(&format!("{name}, the table"), filled, table)?;
        let mut short = vec![7; CELLS - 1];
        let number = isis(*n, identities, lists, &mut short, Flaw::None);
        same(&format!("{name}, a cell less"), number, 8)?;
        same(&format!("{name}, a cell less, the table"), short, vec![7; CELLS - 1])?;
    }
    Ok(())
}

/// The examples on the library beside the model, whole and cut after every byte.
pub fn compare_library(comparison: &mut Comparison) -> Result<(), Difference> {
    let mut random = Random::for_case(0, 0, 3);
    for (name, input) in inputs() {
        compare_input(comparison, &mut random, &name, &input, CELLS)?;
        compare_input(comparison, &mut random, &name, &input, CELLS - 1)?;
        for length in 0..input.lists.len() {
            let lists = input.lists[..length].to_vec();
            let cut = Input { lists, ..input.clone() };
            compare_input(comparison, &mut random, &name, &cut, CELLS)?;
        }
        for length in 0..input.identities.len() {
            let identities = input.identities[..length].to_vec();
            let cut = Input {
                identities,
                ..input.clone()
            };
            compare_input(comparison, &mut random, &name, &cut, CELLS)?;
        }
    }
    Ok(())
}

/// The inputs of the examples, each with its name.
pub fn inputs() -> Vec<(String, Input)> {
    let named = |example: Example| (example.name, example.input);
    examples().into_iter().map(named).collect()
}

fn examples() -> Vec<Example> {
    let example = |name: String, n: usize, table: &str, lists: &str, outcome| Example {
        name,
        input: Input {
            n,
            identities: bytes(table),
            lists: bytes(lists),
        },
        outcome,
    };
    let table = |links: &[Link]| table_of(links.iter().copied());
    let mut examples = Vec::new();
    for (lists, outcome) in LISTS {
        examples.push(example(format!("lists {lists:?}"), 2, TABLE, lists, outcome.map(table)));
    }
    for (n, rows, answer) in TABLES {
        let outcome = if answer == 0 { Ok(table(&[])) } else { Err(answer) };
        examples.push(example(
            format!("{n} routers, rows {rows:?}"),
            n,
            rows,
            "0000 0000",
            outcome,
        ));
    }
    for (count, outcome) in [(244, Ok(table(&[(0, 1, 5)]))), (245, Err(32))] {
        let (length, sub_tlvs) = (11 + count, "00".repeat(count));
        let lists = format!("{length:04X} BBBBBBBBBBBBBB 000005 {count:02X} {sub_tlvs} 0000");
        examples.push(example(format!("{count} bytes of sub-TLVs"), 2, TABLE, &lists, outcome));
    }
    for [name, lists, rows, expected] in SENT {
        let (n, links) = links_of(expected);
        examples.push(example(
            name.to_string(),
            n,
            rows,
            lists,
            Ok(table_of(links.into_iter())),
        ));
    }
    examples
}

fn table_of(links: impl Iterator<Item = Link>) -> Vec<u32> {
    let mut table = vec![UNUSED; CELLS];
    for (i, j, metric) in links {
        table[at(i, j)] = metric;
    }
    table
}

/// Lines `n N` and `link I J METRIC`.
fn links_of(expected: &str) -> (usize, Vec<Link>) {
    let mut n = 0;
    let mut links = Vec::new();
    for line in expected.lines() {
        let numbers: Vec<usize> = line.split(' ').filter_map(|word| word.parse().ok()).collect();
        match numbers.as_slice() {
            &[count] => n = count,
            &[i, j, metric] => links.push((i, j, metric as u32)),
            _ => panic!("a line of another form: {line}"),
        }
    }
    (n, links)
}
