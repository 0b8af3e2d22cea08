//! What a whole process takes.

use std::ffi::{c_int, c_long};
use std::fs;
use std::io::{Error, Read, Write};
use std::process::{Child, Command, Stdio};
use std::thread;
use std::time::Duration;

/// Runs a program to its end. How long it ran, from its start to its end, without
/// the time that others had its processor.
pub fn time(command: &mut Command) -> Duration {
    let usage = end(start(command));
    usage.user.length() + usage.system.length()
}

/// Runs a program to its end on this input, through a pipe. Its largest resident set in
/// KiB, as it was seen when it had taken the input and waited for its end, and each time
/// before a part of its output was taken: it may wait with the next one meanwhile. So a
/// short run is seen too. `wait4` tells one as well, but of the process that started it
/// where that one's is larger.
pub fn memory(command: &mut Command, input: &[u8]) -> u64 {
    let mut child = start(command.stdin(Stdio::piped()).stdout(Stdio::piped()));
    let process = child.id();
    let mut to = child.stdin.take().expect("its input is a pipe");
    let from = child.stdout.take().expect("its output is a pipe");
    let largest = thread::scope(|scope| {
        let printing = scope.spawn(move || while_printing(process, from));
        to.write_all(input).expect("the pipe takes the input");
        wait_until_it_waits(process);
        let waiting = largest_set(process);
        drop(to);
        waiting.max(printing.join().expect("the output is read"))
    });
    end(child);
    largest.expect("it was seen once")
}

fn while_printing(process: u32, mut output: impl Read) -> Option<u64> {
    let mut part = [0; 4096];
    let mut largest = None;
    loop {
        largest = largest_set(process).max(largest);
        if output.read(&mut part).expect("the pipe is read") == 0 {
            return largest;
        }
    }
}

/// Waits while a process is at work. Linux tells it, after the name: "N (name) S ..". S
/// is asleep, Z has ended.
fn wait_until_it_waits(process: u32) {
    let stat = format!("/proc/{process}/stat");
    let works = |stat: String| !stat.contains(") S ") && !stat.contains(") Z ");
    while fs::read_to_string(&stat).is_ok_and(works) {
        thread::yield_now();
    }
}

fn start(command: &mut Command) -> Child {
    let started = command.spawn();
    started.unwrap_or_else(|error| panic!("{:?}: {error}", command.get_program()))
}

/// The line "VmHWM: N kB"; it is not there any more once the process has ended.
fn largest_set(process: u32) -> Option<u64> {
    let text = fs::read_to_string(format!("/proc/{process}/status")).ok()?;
    let line = text.lines().find_map(|line| line.strip_prefix("VmHWM:"))?;
    line.trim().strip_suffix(" kB")?.parse().ok()
}

/// Waits for the end of a process, and gives what it used.
fn end(child: Child) -> Usage {
    let mut status = -1;
    let mut usage = Usage::default();
    // SAFETY: both pointers are those of variables, laid out as the C library's.
    let ended = unsafe { wait4(child.id() as c_int, &mut status, 0, &mut usage) };
    assert_eq!(ended, child.id() as c_int, "{}", Error::last_os_error());
    assert_eq!(status, 0, "the program failed");
    usage
}

extern "C" {
    fn wait4(process: c_int, status: *mut c_int, options: c_int, usage: *mut Usage) -> c_int;
}

/// The C library's `struct rusage`.
#[repr(C)]
#[derive(Default)]
struct Usage {
    user: Time,
    system: Time,
    rest: [c_long; 14],
}

/// Its `struct timeval`.
#[repr(C)]
#[derive(Default)]
struct Time {
    seconds: c_long,
    microseconds: c_long,
}

impl Time {
    fn length(&self) -> Duration {
        Duration::from_secs(self.seconds as u64) + Duration::from_micros(self.microseconds as u64)
    }
}
