//! What fails is told, and not taken for success: output that can't be written, a log
//! that can't be read, before any of it or after a part.

use crate::program::{built, hold_text, top};
use crate::replay;
use reference::w83782d::RECORD_LENGTH;
use std::fs::{self, File, OpenOptions};
use std::io::Write;
use std::os::fd::OwnedFd;
use std::os::unix::net::UnixStream;
use std::process::{Command, Output, Stdio};

/// A device that takes no byte.
fn full() -> File {
    let device = OpenOptions::new().write(true).open("/dev/full");
    device.expect("the device is there")
}

fn run(command: &mut Command) -> Output {
    command.output().expect("the program runs")
}

fn bundled_day() -> File {
    File::open(top().join("examples/cabinet-day.log")).expect("the bundled log")
}

#[test]
fn replay_tells_that_its_lines_were_not_written() {
    let found = run(built("replay").stdin(bundled_day()).stdout(full()));
    let told = b"replay: standard output: No space left on device\n";
    hold_text(&found.stderr, told, "errors");
}

/// More lines than its buffer holds: it ends at the first that can't be written.
#[test]
fn replay_tells_it_once() {
    let day = fs::read(top().join("examples/cabinet-day.log")).expect("the bundled log");
    let mut child = built("replay")
        .stdin(Stdio::piped())
        .stdout(full())
        .spawn()
        .expect("replay runs");
    let mut input = child.stdin.take().expect("its input is a pipe");
    // It may end before it has read all of this.
    let _ = input.write_all(&day.repeat(200));
    drop(input);
    let found = child.wait_with_output().expect("replay ends");
    let told = b"replay: standard output: No space left on device\n";
    hold_text(&found.stderr, told, "errors");
}

#[test]
fn plan_tells_that_its_lines_were_not_written() {
    let found = run(built("plan").args(["4400", "3000"]).stdout(full()));
    let told = b"plan: standard output: No space left on device\n";
    hold_text(&found.stderr, told, "errors");
}

/// A folder can be opened and not read.
#[test]
fn replay_tells_that_its_log_was_not_read() {
    let folder = File::open(top()).expect("the folder is opened");
    let found = run(built("replay").stdin(folder));
    hold_text(&found.stdout, b"", "output");
    let told = b"replay: standard input: Is a directory\n";
    hold_text(&found.stderr, told, "errors");
}

#[test]
fn day_report_tells_that_its_log_was_not_read() {
    let folder = File::open(top()).expect("the folder is opened");
    let found = run(built("day_report").stdin(folder));
    hold_text(&found.stdout, b"", "output");
    let told = b"day_report: standard input: Is a directory\n";
    hold_text(&found.stderr, told, "errors");
}

/// Runs a program on a log of which no more can be read than this part.
fn run_on_part(program: &str, part: &[u8]) -> Output {
    let (input, mut rest) = UnixStream::pair().expect("two sockets");
    rest.write_all(part).expect("the part is written");
    // After the part there is nothing to read, and no end either: a read fails.
    input.set_nonblocking(true).expect("a mode");
    let found = run(built(program).stdin(OwnedFd::from(input)));
    drop(rest);
    found
}

#[test]
fn replay_tells_that_the_rest_was_not_read() {
    let day = fs::read(top().join("examples/cabinet-day.log")).expect("the bundled log");
    let part = &day[..10 * RECORD_LENGTH];
    let found = run_on_part("replay", part);
    let lines = replay::lines(part);
    let end = lines.trim_end().rfind('\n').expect("more than one line") + 1;
    hold_text(&found.stdout, &lines.as_bytes()[..end], "output");
    let told = b"replay: standard input: Resource temporarily unavailable\n";
    hold_text(&found.stderr, told, "errors");
}

/// What it has read so far is no report.
#[test]
fn day_report_tells_that_the_rest_was_not_read() {
    let day = fs::read(top().join("examples/cabinet-day.log")).expect("the bundled log");
    for length in [10 * RECORD_LENGTH, day.len() - 1, day.len()] {
        let found = run_on_part("day_report", &day[..length]);
        hold_text(&found.stdout, b"", "output");
        let told = b"day_report: standard input: Resource temporarily unavailable\n";
        hold_text(&found.stderr, told, "errors");
    }
}

#[test]
fn day_report_tells_that_its_lines_were_not_written() {
    let found = run(built("day_report").stdin(bundled_day()).stdout(full()));
    let told = b"day_report: standard output: No space left on device\n";
    hold_text(&found.stderr, told, "errors");
}

/// The lines of what was written before are whole, and in their order.
#[test]
fn plan_keeps_its_order_on_one_stream() {
    let words = ["4400", "0", "3000", "fast", "1"];
    let path = std::path::Path::new(env!("CARGO_TARGET_TMPDIR")).join("both-streams");
    let both = File::create(&path).expect("a file for both streams");
    let errors = both.try_clone().expect("the same file");
    let status = built("plan")
        .args(words)
        .stdout(both)
        .stderr(errors)
        .status();
    assert!(status.expect("plan runs").success());
    let found = fs::read_to_string(&path).expect("what was written");
    let starts: Vec<&str> = found
        .lines()
        .map(|line| line.split([' ', ':']).next().unwrap_or(""))
        .collect();
    assert_eq!(starts, words, "{found}");
    fs::remove_file(&path).expect("the file is removed");
}
