//! The column program beside the second engine's column on generated lists: what it prints is held to the second text
//! byte for byte. The first list that differs is made small, printed, and ends the run.

use crate::check::{ended, progress};
use crate::column::column;
use crate::column_coverage::ColumnCoverage;
use crate::column_lists::any_list;
use crate::random::Random;
use crate::same::Compared;
use crate::shrink::smallest_charges;
use std::io::{self, ErrorKind, Write};
use std::path::{Path, PathBuf};
use std::process::{Command, Output, Stdio};

/// The variable that names the program; `run` sets it.
const PROGRAM: &str = "MUNDZAVCH_COLUMN";
/// From so many charges on, a run that left out a point of its coverage is no good.
const ENOUGH: u64 = 1_000_000;

fn program() -> Result<PathBuf, String> {
    let path = PathBuf::from(std::env::var_os(PROGRAM).ok_or("run this by compare/run")?);
    if path.is_file() {
        return Ok(path);
    }
    Err(format!("{} is no program", path.display()))
}

/// Runs the program with a list on its standard input. It may stop reading one that is too long.
fn run(program: &Path, list: &[u8]) -> io::Result<Output> {
    let mut command = Command::new(program);
    let mut child = command.stdin(Stdio::piped()).stdout(Stdio::piped()).stderr(Stdio::null()).spawn()?;
    let written = child.stdin.take().expect("it has a pipe").write_all(list);
    let output = child.wait_with_output()?;
    match written {
        Err(e) if e.kind() != ErrorKind::BrokenPipe => Err(e),
        _ => Ok(output),
    }
}

fn compare(program: &Path, list: &[u8]) -> Compared {
    let output = run(program, list).map_err(|e| format!("{}: {e}", program.display()))?;
    let (ours, theirs) = (output.stdout, column(list));
    if ours != theirs.as_bytes() {
        return Err(format!("the program prints{}\nthe second engine has{}", shown(&ours), shown(theirs.as_bytes())));
    }
    if output.status.success() {
        return Ok(());
    }
    Err(format!("the program does not end normally: {}", output.status))
}

/// A text for a reader, line by line, with its line feeds.
fn shown(text: &[u8]) -> String {
    String::from_utf8_lossy(text).split_inclusive('\n').map(|line| format!("\n  {line:?}")).collect()
}

fn hex(list: &[u8]) -> String {
    list.iter().map(|byte| format!("{byte:02x}")).collect()
}

/// A list that still shows the difference, with as few charges as we can find.
fn small_list(program: &Path, list: &[u8], text: String) -> String {
    let small = smallest_charges(list, |part| compare(program, part).is_err());
    let why = compare(program, &small).err().unwrap_or(text);
    format!("{why}\non a list of {} bytes: {}", small.len(), hex(&small))
}

fn check_columns(program: &Path, count: u64, seed: u64, seen: &mut ColumnCoverage) -> Compared {
    let mut r = Random::new(seed);
    while seen.charges < count {
        let list = any_list(&mut r);
        compare(program, &list).map_err(|text| small_list(program, &list, text))?;
        seen.list(&list);
        progress(&format!("{} charges of {count}", seen.charges));
    }
    Ok(())
}

/// Lists until those without a fault have `count` charges; whether nothing differs, and nothing was left out.
pub fn columns(count: u64, seed: u64) -> Result<bool, String> {
    let (program, mut seen) = (program()?, ColumnCoverage::default());
    let result = check_columns(&program, count, seed, &mut seen);
    progress("");
    print!("{seen}");
    Ok(ended(result, seen.lists, &seen.left_out(), count >= ENOUGH))
}
