//! The rehearsal of a bench file, as text.

use crate::file;
use crate::limits::{ENTRY, STEP, Set};
use crate::plan::{Record, Tables, plan};
use crate::refusal::Refusal;
use crate::step::{Answer, step};

/// Puts the text of the rehearsal into `out`, in place of what that has.
pub fn rehearse(file: &[u8], tables: &mut Tables, out: &mut Vec<u8>) {
    out.clear();
    if let Err(why) = lines(file, tables, out) {
        field(out, b"refused ", why.number() as u64);
        out.push(b'\n');
    }
}

fn lines(file: &[u8], tables: &mut Tables, out: &mut Vec<u8>) -> Result<(), Refusal> {
    let contents = file::read(file, &mut tables.old)?;
    let changes = &file[contents.changes_at..contents.changes_at + ENTRY * contents.changes];
    let mut record = plan(contents.n, contents.times, changes, tables)?;
    routers(&record, out);
    field(out, b"needs ", needs(&record));
    out.push(b'\n');
    for (k, s) in file[contents.steps_at..].chunks_exact(STEP).enumerate() {
        let answer = step(&mut record, s[0], s[1], s[2]);
        field(out, b"step ", k as u64 + 1);
        said(answer, out);
    }
    out.extend_from_slice(b"end\n");
    Ok(())
}

/// A line for each router.
fn routers(record: &Record, out: &mut Vec<u8>) {
    for r in 0..record.n as usize {
        field(out, b"router ", r as u64);
        field(out, b" rank ", record.ranks[r] as u64);
        field(out, b" waits ", record.waiting[r]);
        field(out, b" tells ", record.telling[r]);
        field(out, b" due ", record.due[r]);
        out.push(b'\n');
    }
}

/// How many steps that are answered ok bring the fresh record to its end: three of each router, and each message and
/// each write.
fn needs(fresh: &Record) -> u64 {
    let size = |set: &Set| u64::from(set.count_ones());
    let messages: u64 = fresh.waiting.iter().map(size).sum();
    let writes: u64 = fresh.due.iter().map(size).sum();
    3 * u64::from(fresh.n) + messages + writes
}

/// An answer, up to the end of its line.
fn said(answer: Answer, out: &mut Vec<u8>) {
    match answer {
        Answer::Ok => out.extend_from_slice(b" ok\n"),
        Answer::Ignored => out.extend_from_slice(b" ignored\n"),
        Answer::Refused(why) => {
            field(out, b" refused ", why.number() as u64);
            out.push(b'\n');
        }
    }
}

/// A number in decimal after its name.
fn field(out: &mut Vec<u8>, name: &[u8], x: u64) {
    out.extend_from_slice(name);
    let mut digits = [0; 20];
    let mut from = digits.len();
    let mut rest = x;
    loop {
        from -= 1;
        digits[from] = b'0' + (rest % 10) as u8;
        rest /= 10;
        if rest == 0 {
            break;
        }
    }
    out.extend_from_slice(&digits[from..]);
}
