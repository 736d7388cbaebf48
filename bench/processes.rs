//! The rehearsal of the largest file as two processes, from standard input to standard output.

use std::io::{Read, Write};
use std::path::Path;
use std::process::{Child, Command, Stdio};

use crate::limits::LARGEST_FILE;
use crate::measure::{Effort, compare};
use crate::plan::Tables;
use crate::text;

/// Reads a bench file from standard input and prints its rehearsal, as one text.
pub fn rehearse() -> std::io::Result<()> {
    let mut file = Vec::with_capacity(LARGEST_FILE + 1);
    std::io::stdin().take(LARGEST_FILE as u64 + 1).read_to_end(&mut file)?;
    let mut out = Vec::new();
    text::rehearse(&file, &mut Tables::blank(), &mut out);
    std::io::stdout().write_all(&out)
}

/// Measures `program`, which is the library's, beside this program with `--rehearse`.
pub fn measure(effort: Effort, program: &Path, file: &[u8]) -> std::io::Result<()> {
    let this = std::env::current_exe()?;
    let expected = output(&mut command(&this, true), file)?;
    if output(&mut command(program, false), file)? != expected {
        return Err(std::io::Error::other("the two processes print different texts"));
    }
    let mut library = || spend(&mut command(program, false), file);
    let mut plain = || spend(&mut command(&this, true), file);
    compare(effort, 1, &mut library, &mut plain).print("process", "file");
    Ok(())
}

fn command(program: &Path, is_plain: bool) -> Command {
    let mut command = Command::new(program);
    if is_plain {
        command.arg("--rehearse");
    }
    command.stdin(Stdio::piped());
    command
}

/// The file is smaller than a pipe, so it is written before anything is read.
fn start(command: &mut Command, file: &[u8]) -> std::io::Result<Child> {
    let mut child = command.spawn()?;
    child.stdin.take().expect("standard input is a pipe").write_all(file)?;
    Ok(child)
}

fn output(command: &mut Command, file: &[u8]) -> std::io::Result<Vec<u8>> {
    let result = start(command.stdout(Stdio::piped()), file)?.wait_with_output()?;
    Ok(result.stdout)
}

fn spend(command: &mut Command, file: &[u8]) {
    let child = start(command.stdout(Stdio::null()), file);
    child.and_then(|mut c| c.wait()).expect("the process runs");
}
