//! The command: its input and output, its status, and what it leaves of a file.

use std::fs;
use std::io::Write;
use std::path::PathBuf;
use std::process::{Command, Output, Stdio};

const SCRIPT: &str = "write 47 50\nchassis\n";
const BAD_SCRIPT: &str = "write 47 50\nwrite 47\n";
const BAD_LINE: &str = "line 2: write takes an index and a value, in hex\n";

fn log() -> Vec<u8> {
    let mut log = vec![0; 64];
    log[..3].copy_from_slice(&[0x01, 0x47, 0x50]);
    log[32] = 0x04;
    log
}

fn run(arguments: &[&str], input: &[u8]) -> Output {
    let mut child = Command::new(env!("CARGO_BIN_EXE_w83782d-log"))
        .args(arguments)
        .stdin(Stdio::piped())
        .stdout(Stdio::piped())
        .stderr(Stdio::piped())
        .spawn()
        .unwrap();
    // A command that reads no input may have ended: no failure of this test.
    let _ = child.stdin.take().unwrap().write_all(input);
    child.wait_with_output().unwrap()
}

fn done(arguments: &[&str], input: &[u8]) -> Vec<u8> {
    let output = run(arguments, input);
    assert_eq!(String::from_utf8_lossy(&output.stderr), "");
    assert_eq!(output.status.code(), Some(0));
    output.stdout
}

/// What is told on standard error; nothing is left on standard output.
fn told(arguments: &[&str], input: &[u8], status: i32) -> String {
    let output = run(arguments, input);
    assert_eq!(output.status.code(), Some(status));
    assert_eq!(output.stdout, []);
    String::from_utf8(output.stderr).unwrap()
}

/// An empty folder of a test's own.
fn folder(name: &str) -> PathBuf {
    let folder = PathBuf::from(env!("CARGO_TARGET_TMPDIR")).join(name);
    let _ = fs::remove_dir_all(&folder);
    fs::create_dir(&folder).unwrap();
    folder
}

fn names_in(folder: &PathBuf) -> Vec<String> {
    let entries = fs::read_dir(folder).unwrap();
    let mut names: Vec<String> = entries
        .map(|entry| entry.unwrap().file_name().into_string().unwrap())
        .collect();
    names.sort();
    names
}

#[test]
fn standard_input_goes_to_standard_output_both_ways() {
    for names in [&["-", "-"][..], &["-"], &[]] {
        let command = |name| [&[name], names].concat();
        assert_eq!(done(&command("pack"), SCRIPT.as_bytes()), log());
        assert_eq!(done(&command("unpack"), &log()), SCRIPT.as_bytes());
    }
}

#[test]
fn files_go_to_files_and_nothing_else_is_left() {
    let folder = folder("files");
    let path = |name: &str| folder.join(name).to_str().unwrap().to_string();
    fs::write(path("day.script"), SCRIPT).unwrap();
    // A longer file that was there is replaced.
    fs::write(path("day.log"), [0xEE; 100]).unwrap();
    assert_eq!(
        done(&["pack", &path("day.script"), &path("day.log")], b""),
        []
    );
    assert_eq!(fs::read(path("day.log")).unwrap(), log());
    assert_eq!(done(&["unpack", &path("day.log"), &path("again")], b""), []);
    assert_eq!(fs::read(path("again")).unwrap(), SCRIPT.as_bytes());
    assert_eq!(done(&["pack", &path("day.script")], b""), log());
    assert_eq!(names_in(&folder), ["again", "day.log", "day.script"]);
}

#[test]
fn a_refused_script_leaves_no_byte_and_a_named_log_as_it_was() {
    let folder = folder("refused");
    let log_path = folder.join("day.log").to_str().unwrap().to_string();
    let expected = format!("w83782d-log: standard input: {BAD_LINE}");
    assert_eq!(told(&["pack"], BAD_SCRIPT.as_bytes(), 1), expected);
    assert_eq!(
        told(&["pack", "-", &log_path], BAD_SCRIPT.as_bytes(), 1),
        expected
    );
    assert_eq!(names_in(&folder), [""; 0]);
    fs::write(&log_path, "kept").unwrap();
    assert_eq!(
        told(&["pack", "-", &log_path], BAD_SCRIPT.as_bytes(), 1),
        expected
    );
    assert_eq!(fs::read(&log_path).unwrap(), b"kept");
    assert_eq!(names_in(&folder), ["day.log"]);
}

#[test]
fn a_refused_log_leaves_no_byte() {
    let expected =
        "w83782d-log: standard input: record 1 (at byte 32): answer 5, cut after 31 of 32 bytes\n";
    assert_eq!(told(&["unpack"], &log()[..63], 1), expected);
}

#[test]
fn the_name_of_the_file_is_told() {
    let folder = folder("told");
    let path = |name: &str| folder.join(name).to_str().unwrap().to_string();
    fs::write(path("bad.script"), BAD_SCRIPT).unwrap();
    let expected = format!("w83782d-log: {}: {BAD_LINE}", path("bad.script"));
    assert_eq!(told(&["pack", &path("bad.script")], b"", 1), expected);
    let missing = told(&["pack", &path("none")], b"", 1);
    assert!(
        missing.starts_with(&format!("w83782d-log: {}: ", path("none"))),
        "{missing}"
    );
    // Nowhere to write.
    let nowhere = path("none/day.log");
    let told = told(&["pack", "-", &nowhere], SCRIPT.as_bytes(), 1);
    assert!(
        told.starts_with(&format!("w83782d-log: {nowhere}: ")),
        "{told}"
    );
}

#[test]
fn what_is_no_plain_file_is_not_replaced() {
    let folder = folder("plain");
    let path = |name: &str| folder.join(name).to_str().unwrap().to_string();
    fs::create_dir(path("day.log")).unwrap();
    let expected = format!(
        "w83782d-log: {}: is there and is no plain file\n",
        path("day.log")
    );
    assert_eq!(
        told(&["pack", "-", &path("day.log")], SCRIPT.as_bytes(), 1),
        expected
    );
    assert_eq!(names_in(&folder), ["day.log"]);
}

#[test]
fn another_command_line_shows_the_usage() {
    for arguments in [
        &[][..],
        &["help"],
        &["pack", "a", "b", "c"],
        &["unpack", "-", "-", "-"],
    ] {
        let usage = told(arguments, b"", 2);
        assert!(usage.starts_with("usage: w83782d-log pack "), "{usage}");
    }
}
