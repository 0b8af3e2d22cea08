//! A built program: run, and what it printed held to what is expected.

use std::ffi::OsStr;
use std::fs::{self, File};
use std::io::{ErrorKind, Write};
use std::path::{Path, PathBuf};
use std::process::{Command, Output, Stdio};
use std::sync::atomic::{AtomicUsize, Ordering};
use std::thread;
use std::time::Duration;

/// The top of the repository.
pub fn top() -> PathBuf {
    Path::new(env!("CARGO_MANIFEST_DIR")).join("../..")
}

/// A program that `rt ci` or `rt run` has built.
pub fn built(name: &str) -> Command {
    let program = top().join(format!("crates/{name}/out/{name}"));
    assert!(
        program.is_file(),
        "there is no {}: make it at the top of the repository with `host/build {name}`",
        program.display()
    );
    let mut command = Command::new(program);
    command.stdout(Stdio::piped()).stderr(Stdio::piped());
    command
}

/// Runs `plan` with arguments.
pub fn plan<S: AsRef<OsStr>>(arguments: &[S]) -> Output {
    let mut command = built("plan");
    command.args(arguments).stdin(Stdio::null());
    command.output().expect("plan runs")
}

/// How a log reaches a program.
#[derive(Clone, Copy, Debug)]
pub enum Feed<'a> {
    /// From a file: each read gives as much as it asks for.
    File,
    /// Through a pipe, in pieces of these lengths by turns.
    Pieces(&'a [usize]),
    /// The same, but each piece is written only when the program has read those before it
    /// and waits for more, so that reads come back short.
    SlowPieces(&'a [usize]),
}

impl Feed<'_> {
    pub const PIPE: Feed<'static> = Feed::Pieces(&[usize::MAX]);

    /// As a file and through a pipe by turns.
    pub fn by_turns(seed: u64) -> Feed<'static> {
        match seed % 2 {
            0 => Feed::File,
            _ => Feed::PIPE,
        }
    }
}

/// Runs a program on a log.
pub fn fed(program: &str, log: &[u8], feed: Feed) -> Output {
    match feed {
        Feed::File => fed_file(program, log),
        Feed::Pieces(lengths) => fed_pieces(program, log, lengths, |_| ()),
        Feed::SlowPieces(lengths) => fed_pieces(program, log, lengths, wait_until_it_waits),
    }
}

fn fed_file(program: &str, log: &[u8]) -> Output {
    static FILES: AtomicUsize = AtomicUsize::new(0);
    let n = FILES.fetch_add(1, Ordering::Relaxed);
    let path = Path::new(env!("CARGO_TARGET_TMPDIR")).join(format!("{n}.log"));
    fs::write(&path, log).expect("the log is written");
    let file = File::open(&path).expect("the log is opened");
    let output = built(program).stdin(file).output();
    fs::remove_file(&path).expect("the log is removed");
    output.expect("the program runs")
}

/// Through a pipe, with a pause before each piece for the process of this number.
fn fed_pieces(program: &str, log: &[u8], lengths: &[usize], pause: fn(u32)) -> Output {
    let mut child = built(program)
        .stdin(Stdio::piped())
        .spawn()
        .expect("the program runs");
    let mut input = child.stdin.take().expect("its input is a pipe");
    let process = child.id();
    thread::scope(|scope| {
        scope.spawn(move || {
            let mut rest = log;
            for length in lengths.iter().cycle() {
                if rest.is_empty() {
                    break;
                }
                pause(process);
                let (piece, more) = rest.split_at(rest.len().min(*length));
                match input.write_all(piece) {
                    // Behind a refused record nothing more is read.
                    Err(e) if e.kind() == ErrorKind::BrokenPipe => break,
                    written => written.expect("the pipe takes a piece"),
                }
                rest = more;
            }
        });
        child.wait_with_output().expect("the program ends")
    })
}

/// Waits while a process is at work. One that has started and reads a pipe works until
/// it finds that empty, and sleeps then.
fn wait_until_it_waits(process: u32) {
    // Linux tells it, after the name: "N (name) S ..". S is asleep, Z has ended.
    let stat = format!("/proc/{process}/stat");
    let works = |stat: String| !stat.contains(") S ") && !stat.contains(") Z ");
    while fs::read_to_string(&stat).is_ok_and(works) {
        thread::sleep(Duration::from_micros(20));
    }
}

/// Holds what a program printed, on standard output or error, to what is expected;
/// `origin` says how to make the input again.
pub fn hold_text(found: &[u8], expected: &[u8], origin: &str) {
    if let Some(difference) = first_difference(found, expected) {
        panic!("{origin}: {difference}");
    }
}

/// The first line that differs. Of `replay` a line's number is that of the record that
/// it tells, unless it is the end.
fn first_difference(found: &[u8], expected: &[u8]) -> Option<String> {
    // Line ends stay, so that one too few is a difference too.
    let [mut found, mut expected] = [found, expected].map(|text| text.split_inclusive(is_end));
    for n in 0.. {
        let lines = [expected.next(), found.next()];
        if lines == [None, None] {
            break;
        }
        if lines[0] != lines[1] {
            let [expected, found] = lines.map(in_words);
            return Some(format!(
                "line {n}, counted from 0 as records are\n  expected {expected}\n  found    {found}"
            ));
        }
    }
    None
}

fn is_end(byte: &u8) -> bool {
    *byte == b'\n'
}

fn in_words(line: Option<&[u8]>) -> String {
    line.map_or("no line".into(), |line| {
        format!("'{}'", line.escape_ascii())
    })
}

#[test]
fn a_difference_is_told_with_its_place() {
    for (found, expected) in [
        ("a\nb\n", None),
        ("a\nc\n", Some(("line 1,", "'c\\n'"))),
        ("b\nb\n", Some(("line 0,", "'b\\n'"))),
        ("a\nb", Some(("line 1,", "'b'"))),
        ("a\n", Some(("line 1,", "no line"))),
        ("", Some(("line 0,", "no line"))),
        ("a\nb\nc\n", Some(("line 2,", "'c\\n'"))),
        ("a\nb\n\n", Some(("line 2,", "'\\n'"))),
    ] {
        let difference = first_difference(found.as_bytes(), b"a\nb\n");
        assert_eq!(difference.is_some(), expected.is_some(), "{found:?}");
        if let (Some(difference), Some((place, line))) = (difference, expected) {
            let found = format!("found    {line}");
            assert!(difference.starts_with(place), "{difference}");
            assert!(difference.ends_with(&found), "{difference}");
        }
    }
}
