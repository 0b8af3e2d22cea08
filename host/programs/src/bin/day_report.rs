//! `day_report` over the second program: a day's log on standard input, its report on
//! standard output.

use programs::PART;
use std::io::{self, BufWriter, Write};
use std::process::ExitCode;

fn main() -> ExitCode {
    match day_report() {
        Ok(()) => ExitCode::SUCCESS,
        Err((stream, error)) => {
            eprintln!("day_report: standard {stream}: {error}");
            ExitCode::FAILURE
        }
    }
}

/// Prints the report; the stream that failed, and how.
fn day_report() -> Result<(), (&'static str, io::Error)> {
    let mut out = BufWriter::with_capacity(PART, io::stdout().lock());
    // 28 short lines: the buffer holds them all, so that what fails here is the log.
    programs::report(io::stdin().lock(), &mut out).map_err(|error| ("input", error))?;
    out.flush().map_err(|error| ("output", error))
}
