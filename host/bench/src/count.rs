//! Instructions, by callgrind. Of a call: it counts inside one function only and writes
//! what it counted each time that function is left. Of a program: it counts all of it.

use crate::calls::Row;
use crate::folder::Folder;
use std::env;
use std::fs;
use std::hint::black_box;
use std::io::{Error, ErrorKind};
use std::path::{Path, PathBuf};
use std::process::{Command, Output};

/// The function that callgrind counts in.
const COUNTED: &str = "w83782d_bench_counted";

#[no_mangle]
#[inline(never)]
fn w83782d_bench_counted(pass: &dyn Fn(u64)) {
    pass(1);
    // Not a jump to the pass, which would leave this function before it ran.
    black_box(());
}

/// One pass of each program for each row, or for the one of a name, to be run
/// under callgrind.
pub fn passes(rows: &[Row], only: Option<String>) {
    let wanted = |row: &&Row| only.as_ref().map_or(true, |name| name == row.name);
    for row in rows.iter().filter(wanted) {
        for pass in &row.passes {
            w83782d_bench_counted(pass);
        }
    }
}

/// Instructions of one pass of each row, the library's and the second program's;
/// nothing where there is no valgrind.
pub fn under_callgrind(rows: usize) -> Option<Vec<[u64; 2]>> {
    if let Err(error) = Command::new("valgrind").arg("--version").output() {
        println!("No instruction counts: valgrind doesn't start here ({error}).\n");
        return None;
    }
    match counted_in(Folder::new().path(), rows) {
        Ok(counts) => Some(counts),
        Err(error) => {
            println!("No instruction counts: {error}.\n");
            None
        }
    }
}

fn counted_in(folder: &Path, rows: usize) -> Result<Vec<[u64; 2]>, Error> {
    let run = callgrind(folder)
        .arg(format!("--toggle-collect={COUNTED}"))
        .arg(format!("--dump-after={COUNTED}"))
        .arg(env::current_exe()?)
        .arg("count")
        .output()?;
    if !run.status.success() {
        return Err(failure(&run));
    }
    // Files are numbered from 1, in the order of the passes.
    let file = |n: usize| folder.join(format!("{OUT}.{n}"));
    (0..rows)
        .map(|row| Ok([total(file(2 * row + 1))?, total(file(2 * row + 2))?]))
        .collect()
}

// ---- Of a program

/// A command that runs a program under callgrind; its arguments are still to be given.
pub fn under(program: &Path, folder: &Path) -> Command {
    let mut command = callgrind(folder);
    command.arg("--quiet").arg(program);
    command
}

/// Runs such a command to its end; nothing where there is no valgrind.
pub fn of_a_program(command: &mut Command, folder: &Path) -> Option<u64> {
    let counted = command.output().and_then(|run| match run.status.success() {
        true => total(folder.join(OUT)),
        false => Err(failure(&run)),
    });
    match counted {
        Err(error) if error.kind() != ErrorKind::NotFound => {
            println!("No instruction counts of a program: {error}.\n");
            None
        }
        counted => counted.ok(),
    }
}

// ---- What callgrind writes

fn failure(run: &Output) -> Error {
    Error::other(String::from_utf8_lossy(&run.stderr).into_owned())
}

/// The file that it writes, in a folder.
const OUT: &str = "callgrind.out";

fn callgrind(folder: &Path) -> Command {
    let mut command = Command::new("valgrind");
    let out = folder.join(OUT);
    command
        .arg("--tool=callgrind")
        .arg(format!("--callgrind-out-file={}", out.display()));
    command
}

/// The line "totals: N" of one of callgrind's files.
fn total(path: PathBuf) -> Result<u64, Error> {
    let text = fs::read_to_string(&path)?;
    text.lines()
        .find_map(|line| line.strip_prefix("totals: ")?.trim().parse().ok())
        .ok_or_else(|| Error::new(ErrorKind::InvalidData, "callgrind counted nothing"))
}
