//! The proved library and programs beside the second program: nanoseconds and
//! instructions of a call, milliseconds, instructions and memory of a program, their
//! ratios, and the goals.
//!
//! `bench` measures, after it has held answers and states of both libraries, and
//! what both programs print, to each other; `bench programs` measures the programs
//! alone; `bench count` is what it runs under callgrind, with a row's name of that
//! row alone.

mod calls;
mod count;
mod folder;
mod inputs;
mod jobs;
mod process;
mod rows;
mod table;
mod time;

// Shared with the wrapper and the tests, which use the rest of them.
#[path = "../../tests/common/mod.rs"]
mod common;
#[allow(dead_code)]
#[path = "../../tests/differential/image.rs"]
mod image;
#[allow(dead_code)]
#[path = "../../src/raw.rs"]
mod raw;

use inputs::Size;
use jobs::jobs;
use rows::rows;
use std::env;
use std::process::ExitCode;
use table::Calls;

fn main() -> ExitCode {
    let mut arguments = env::args().skip(1);
    match arguments.next().as_deref() {
        None => {
            measure_calls();
            println!();
            measure_programs();
        }
        Some("programs") => measure_programs(),
        Some("count") => count::passes(&rows(Size::WHOLE), arguments.next()),
        Some(_) => {
            eprintln!("bench: takes nothing, or programs, or count and the name of a row");
            return ExitCode::FAILURE;
        }
    }
    ExitCode::SUCCESS
}

fn measure_calls() {
    let rows = rows(Size::WHOLE);
    for row in &rows {
        (row.check)();
    }
    table::print(&Calls {
        instructions: count::under_callgrind(rows.len()),
        times: rows.iter().map(time::both).collect(),
        rows,
    });
}

fn measure_programs() {
    let jobs = jobs(Size::WHOLE);
    table::print_programs(&jobs, &jobs::costs(&jobs));
}

#[test]
fn both_programs_agree_on_what_is_measured() {
    for row in rows(Size::SMALL) {
        (row.check)();
    }
}

/// What both programs print is compared in host/programs, on many logs.
#[test]
fn days_for_programs_are_accepted_from_power_on() {
    assert_eq!(jobs(Size::SMALL).len(), 6);
}
