//! `plan` over the second program: speeds as arguments, their plans on standard
//! output.

use programs::{direct_plan, PART};
use std::env;
use std::ffi::OsString;
use std::io::{self, BufWriter, Write};
use std::os::unix::ffi::OsStringExt;
use std::process::ExitCode;

fn main() -> ExitCode {
    match plan() {
        Ok(()) => ExitCode::SUCCESS,
        Err(error) => {
            eprintln!("plan: {error}");
            ExitCode::FAILURE
        }
    }
}

fn plan() -> io::Result<()> {
    let arguments: Vec<_> = env::args_os().skip(1).map(OsString::into_vec).collect();
    let mut out = BufWriter::with_capacity(PART, io::stdout().lock());
    let mut errors = BufWriter::with_capacity(PART, io::stderr().lock());
    programs::plan(&arguments, direct_plan, &mut out, &mut errors)?;
    out.flush()?;
    errors.flush()
}
