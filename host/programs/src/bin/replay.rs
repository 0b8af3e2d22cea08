//! `replay` over the second program: a log on standard input, its lines on standard
//! output.

use programs::PART;
use std::io::{self, BufReader, BufWriter, Write};
use std::process::ExitCode;

fn main() -> ExitCode {
    match replay() {
        Ok(()) => ExitCode::SUCCESS,
        Err(error) => {
            eprintln!("replay: {error}");
            ExitCode::FAILURE
        }
    }
}

fn replay() -> io::Result<()> {
    let log = BufReader::with_capacity(PART, io::stdin().lock());
    let mut out = BufWriter::with_capacity(PART, io::stdout().lock());
    programs::replay(log, &mut out)?;
    out.flush()
}
