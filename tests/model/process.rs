//! The rehearsal program and those that print the steps of a sheet, print what is unfinished, rewrite stored files and
//! print areas from IS-IS, run as processes with a file as their standard input.

use std::io::{self, ErrorKind, Write};
use std::path::Path;
use std::process::{Command, Stdio};
use std::time::Duration;

use crate::compare::{files, texts};
use crate::flaw::Flaw;
use crate::from_isis;
use crate::lent::{PlanTables, RIGHT_SIZES};
use crate::random::Random;
use crate::read::LARGEST;
use crate::rewriting::rewritten;
use crate::text::{rehearsal, sheet_steps, unfinished};

/// How much of a bench file a program reads.
const READ: usize = LARGEST + 1;

/// The program's output beside the model's text of what the program reads.
pub fn compare(random: &mut Random, program: &Path, file: &[u8]) -> Result<(), String> {
    let in_pieces = random.chance(20);
    let output = output(program, file, in_pieces).map_err(|error| format!("{}: {error}", program.display()))?;
    let mut tables = PlanTables::filled(random, RIGHT_SIZES);
    let text = rehearsal(&file[..file.len().min(READ)], &mut tables.lend(), Flaw::None);
    texts("output of the program", &output, text.as_bytes())
}

/// The same of the program that prints the steps of the sheet, whose text is given back.
pub fn compare_sheet_steps(random: &mut Random, program: &Path, file: &[u8], flaw: Flaw) -> Result<String, String> {
    let in_pieces = random.chance(20);
    let output = output(program, file, in_pieces).map_err(|error| format!("{}: {error}", program.display()))?;
    let mut tables = PlanTables::filled(random, RIGHT_SIZES);
    let text = sheet_steps(&file[..file.len().min(READ)], &mut tables.lend(), flaw);
    texts("output of the program that prints steps", &output, text.as_bytes())?;
    Ok(text)
}

/// The same of the program that prints what is unfinished.
pub fn compare_unfinished(random: &mut Random, program: &Path, file: &[u8], flaw: Flaw) -> Result<String, String> {
    let in_pieces = random.chance(20);
    let output = output(program, file, in_pieces).map_err(|error| format!("{}: {error}", program.display()))?;
    let mut tables = PlanTables::filled(random, RIGHT_SIZES);
    let text = unfinished(&file[..file.len().min(READ)], &mut tables.lend(), flaw);
    texts(
        "output of the program that prints what is unfinished",
        &output,
        text.as_bytes(),
    )?;
    Ok(text)
}

/// What the program writes for a stored file beside what the model does. The whole file counts, though no more of it
/// need be read than of a bench file.
pub fn compare_rewriting(random: &mut Random, program: &Path, file: &[u8], flaw: Flaw) -> Result<(), String> {
    let in_pieces = random.chance(20);
    let output = output(program, file, in_pieces).map_err(|error| format!("{}: {error}", program.display()))?;
    files("output of the program that rewrites", &output, &rewritten(file, flaw))
}

/// What the program prints for link-state data beside the model's text, which is given back.
pub fn compare_from_isis(random: &mut Random, program: &Path, stream: &[u8], flaw: Flaw) -> Result<String, String> {
    let in_pieces = random.chance(20);
    let output = output(program, stream, in_pieces).map_err(|error| format!("{}: {error}", program.display()))?;
    let text = from_isis::text(stream, flaw);
    texts("output of the program that prints areas", &output, text.as_bytes())?;
    Ok(text)
}

/// A program has read all that it takes of its input before it writes. Then a pipe has room for what is left of the
/// input, or for all that the program writes, so the whole input can be written before the output is read.
fn output(program: &Path, file: &[u8], in_pieces: bool) -> io::Result<Vec<u8>> {
    let mut child = Command::new(program)
        .stdin(Stdio::piped())
        .stdout(Stdio::piped())
        .spawn()?;
    if let Some(mut input) = child.stdin.take() {
        let written = write(&mut input, file, in_pieces);
        // The program may have ended before it has been given all.
        if let Err(error) = written
            && error.kind() != ErrorKind::BrokenPipe
        {
            return Err(error);
        }
    }
    let output = child.wait_with_output()?;
    match output.status.code() {
        Some(_) => Ok(output.stdout),
        None => Err(io::Error::other(format!("the program was ended: {}", output.status))),
    }
}

/// In pieces, with a pause between them, the program gets its input by more than one reading.
fn write(input: &mut impl Write, file: &[u8], in_pieces: bool) -> io::Result<()> {
    if !in_pieces {
        return input.write_all(file);
    }
    let size = (file.len() / 3).max(1);
    for piece in file.chunks(size) {
        input.write_all(piece)?;
        input.flush()?;
        std::thread::sleep(Duration::from_millis(1));
    }
    Ok(())
}
