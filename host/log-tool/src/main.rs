//! The command `w83782d-log`.

use std::ffi::{OsStr, OsString};
use std::fs;
use std::io::{self, Read, Write};
use std::path::Path;
use std::process::ExitCode;
use w83782d_log::Fault;

const USAGE: &str = "\
usage: w83782d-log pack [SCRIPT [LOG]]
       w83782d-log unpack [LOG [SCRIPT]]
A name left out, or -, is standard input or output. A named output is written
only if all of it can be.";

/// Status of a command line that asks for nothing this program does.
const MISUSED: u8 = 2;

/// From all of the input to all of the output.
type Turn = fn(&[u8]) -> Result<Vec<u8>, Fault>;

fn main() -> ExitCode {
    let arguments: Vec<OsString> = std::env::args_os().skip(1).collect();
    let command = arguments.first().and_then(|word| word.to_str());
    let turn: Turn = match command {
        Some("pack") if arguments.len() <= 3 => w83782d_log::pack,
        Some("unpack") if arguments.len() <= 3 => unpack,
        _ => {
            eprintln!("{USAGE}");
            return ExitCode::from(MISUSED);
        }
    };
    match run(turn, named(&arguments, 1), named(&arguments, 2)) {
        Ok(()) => ExitCode::SUCCESS,
        Err(reason) => {
            eprintln!("w83782d-log: {reason}");
            ExitCode::FAILURE
        }
    }
}

/// The file of an argument, or none where standard input or output is meant.
fn named(arguments: &[OsString], n: usize) -> Option<&Path> {
    let name = arguments.get(n).filter(|name| *name != OsStr::new("-"))?;
    Some(Path::new(name))
}

fn unpack(log: &[u8]) -> Result<Vec<u8>, Fault> {
    w83782d_log::unpack(log).map(String::into_bytes)
}

/// All of the output is made before the first byte of it is written.
fn run(turn: Turn, from: Option<&Path>, to: Option<&Path>) -> Result<(), String> {
    let source = from.map_or("standard input".into(), Path::to_string_lossy);
    let target = to.map_or("standard output".into(), Path::to_string_lossy);
    let input = bytes_of(from).map_err(|e| format!("{source}: {e}"))?;
    let output = turn(&input).map_err(|e| format!("{source}: {e}"))?;
    put(to, &output).map_err(|e| format!("{target}: {e}"))
}

fn bytes_of(from: Option<&Path>) -> io::Result<Vec<u8>> {
    if let Some(path) = from {
        return fs::read(path);
    }
    let mut bytes = Vec::new();
    io::stdin().read_to_end(&mut bytes)?;
    Ok(bytes)
}

fn put(to: Option<&Path>, bytes: &[u8]) -> io::Result<()> {
    if let Some(path) = to {
        return put_whole(path, bytes);
    }
    let mut output = io::stdout().lock();
    output.write_all(bytes)?;
    output.flush()
}

/// An empty log is a whole one, and a part of a log looks like one: so the file
/// has its name only when all of it is written.
fn put_whole(path: &Path, bytes: &[u8]) -> io::Result<()> {
    if fs::symlink_metadata(path).is_ok_and(|found| !found.is_file()) {
        // Else a device or a link would be replaced by a file.
        return Err(io::Error::other("is there and is no plain file"));
    }
    let mut beside = path.as_os_str().to_owned();
    beside.push(".part");
    let written = fs::write(&beside, bytes).and_then(|()| fs::rename(&beside, path));
    if written.is_err() {
        // Of two failures the first is the one to tell.
        let _ = fs::remove_file(&beside);
    }
    written
}
