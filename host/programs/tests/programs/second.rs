//! This package's own `replay`, `plan` and `day_report`, which `./bench` measures the
//! built ones against, print what the library gives.

use crate::program::{hold_text, top};
use crate::{plan, replay, report};
use std::fs::{self, File, OpenOptions};
use std::process::{Command, Output};

fn hold(found: Output, output: &[u8], errors: &[u8]) {
    hold_text(&found.stdout, output, "output");
    hold_text(&found.stderr, errors, "errors");
    assert!(found.status.success(), "{}", found.status);
}

#[test]
fn replay_prints_the_lines_of_a_day() {
    let path = top().join("examples/cabinet-day.log");
    let log = fs::read(&path).expect("the bundled log");
    let found = Command::new(env!("CARGO_BIN_EXE_replay"))
        .stdin(File::open(&path).expect("the bundled log"))
        .output();
    let lines = replay::lines(&log);
    hold(found.expect("replay runs"), lines.as_bytes(), b"");
}

/// Its planner is not the one that the library's lines are expected by.
#[test]
fn plan_prints_the_lines_of_its_arguments() {
    let words = ["4400", "0", "1", "fast", "1350000", "1350001", "9999999999"];
    let found = Command::new(env!("CARGO_BIN_EXE_plan"))
        .args(words)
        .output();
    let [output, errors] = plan::expected(&words);
    hold(found.expect("plan runs"), &output, &errors);
}

/// Its lines are held to the paper in tests/report.rs.
#[test]
fn day_report_prints_the_report_of_a_day() {
    let path = top().join("examples/cabinet-day.log");
    let log = fs::read(&path).expect("the bundled log");
    let found = Command::new(env!("CARGO_BIN_EXE_day_report"))
        .stdin(File::open(&path).expect("the bundled log"))
        .output();
    let lines = report::lines(&log);
    hold(found.expect("day_report runs"), lines.as_bytes(), b"");
}

/// One line on standard error, the first words of it, and a status that isn't 0.
fn hold_failure(found: Output, told: &str) {
    hold_text(&found.stdout, b"", "output");
    let errors = String::from_utf8(found.stderr).expect("text");
    assert!(errors.starts_with(told), "{errors}");
    assert_eq!(errors.lines().count(), 1, "{errors}");
    assert_eq!(found.status.code(), Some(1), "{}", found.status);
}

/// A folder can be opened and not read, and a device is full from the start.
#[test]
fn day_report_tells_what_failed() {
    let mut command = Command::new(env!("CARGO_BIN_EXE_day_report"));
    command.stdin(File::open(top()).expect("the folder is opened"));
    let found = command.output().expect("day_report runs");
    hold_failure(found, "day_report: standard input: Is a directory");

    let full = OpenOptions::new().write(true).open("/dev/full");
    command.stdin(File::open("/dev/null").expect("the device is there"));
    command.stdout(full.expect("the device is there"));
    let found = command.output().expect("day_report runs");
    hold_failure(found, "day_report: standard output: No space left");
}
