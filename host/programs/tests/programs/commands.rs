//! The commands at the top of the repository: help, arguments, `./run` and `./run report`
//! on good and bad logs, with and without a terminal, and how `./test` ends.
//!
//! They are tried in a folder of their own, with an `rt` and a program that are scripts
//! of a few lines: what these say is what they have to show.

use crate::program::top;
use std::env;
use std::ffi::OsStr;
use std::fs::{self, File};
use std::io::{BufRead, BufReader};
use std::os::unix::fs::PermissionsExt;
use std::path::PathBuf;
use std::process::{self, Command, Output, Stdio};
use std::time::{Duration, SystemTime};

/// Of these crates three are proved for `replay`, itself among them, and four for
/// `day_report`.
const CRATES: &str = "# NAME: what it needs\nlow:\nmiddle: low\nother: low\n\
    replay: middle low io\nday_report: other middle io\n";

/// For a program that must not be started.
const NOTHING: &str = "touch \"$(dirname \"$0\")/started\"; exit 9";

/// What `./run` is called for.
#[derive(Clone, Copy)]
struct Job {
    arguments: &'static [&'static str],
    program: &'static str,
    /// The last line of an empty log.
    end: &'static str,
}

const REPLAY: Job = Job {
    arguments: &[],
    program: "replay",
    end: "end: answer 0, accepted 0\n",
};

const REPORT: Job = Job {
    arguments: &["report"],
    program: "day_report",
    end: "end 0 0\n",
};

const JOBS: [Job; 2] = [REPLAY, REPORT];

impl Job {
    /// Where `rt` leaves the program.
    fn built(self) -> String {
        format!("crates/{0}/out/{0}", self.program)
    }
}

/// A source that both programs stand on.
const SOURCE: &str = "crates/low/src/lib.rt";

/// What `rt` says where all is proved and built.
const UNCHANGED: &str = "echo 'rt: nothing has changed since the last proved build, by its stamp'";

struct Scratch {
    folder: PathBuf,
    job: Job,
}

impl Scratch {
    /// A folder that others may read, with the bundled log, an `rt` and the program of a
    /// job, newer than its sources; that of the other must not be started.
    fn new(name: &str, rt: &str, job: Job, program: &str) -> Scratch {
        let name = format!("run-test-{}-{name}-{}", process::id(), job.program);
        let folder = env::temp_dir().join(name);
        for part in ["bin", "examples", "host", "crates/low/src"] {
            fs::create_dir_all(folder.join(part)).expect("a folder");
        }
        for Job { program, .. } in JOBS {
            let out = folder.join("crates").join(program).join("out");
            fs::create_dir_all(out).expect("a folder");
        }
        fs::set_permissions(&folder, fs::Permissions::from_mode(0o755)).expect("a mode");
        fs::write(folder.join("crates.txt"), CRATES).expect("a file");
        fs::write(folder.join(SOURCE), "").expect("a file");
        fs::write(folder.join("examples/cabinet-day.log"), "bundled").expect("a file");
        let scratch = Scratch { folder, job };
        for name in ["run", "host/build"] {
            scratch.install(name, &fs::read(top().join(name)).expect("a script"));
        }
        let mut scripts = vec![("bin/rt".into(), rt), ("bin/cargo".into(), NOTHING)];
        for job in JOBS {
            scripts.push((job.built(), NOTHING));
        }
        scripts.push((job.built(), program));
        for (path, text) in scripts {
            scratch.install(&path, format!("#!/bin/sh\n{text}\n").as_bytes());
        }
        scratch
    }

    fn path(&self, name: &str) -> PathBuf {
        self.folder.join(name)
    }

    /// Makes a file that can be run. Another process writes it: a file that this one
    /// has open is busy for as long as a process that is being started has it too.
    fn install(&self, path: &str, text: &[u8]) {
        let source = self.path("source");
        fs::write(&source, text).expect("a file");
        let mut install = Command::new("install");
        install.arg("-m755").arg(source).arg(self.path(path));
        assert!(install.status().expect("install runs").success());
    }

    /// Has a source changed since the programs were built.
    fn edit(&self) {
        let source = File::options().write(true).open(self.path(SOURCE));
        let later = SystemTime::now() + Duration::from_secs(60);
        let changed = source.and_then(|source| source.set_modified(later));
        changed.expect("the source is there");
    }

    /// A command in this folder, whose `rt` comes before any other.
    fn command(&self, program: impl AsRef<OsStr>) -> Command {
        let mut path = self.path("bin").into_os_string();
        path.push(":");
        path.push(env::var_os("PATH").expect("a PATH"));
        let mut command = Command::new(program);
        command.env("PATH", path).current_dir(&self.folder);
        command.stdin(Stdio::null());
        command
    }

    /// Calls `./run` for the job, with these arguments besides.
    fn run(&self, arguments: &[&str]) -> Output {
        let mut run = self.command(self.path("run"));
        run.args(self.job.arguments).args(arguments);
        run.output().expect("./run runs")
    }

    /// That call in a shell's words.
    fn words(&self) -> String {
        [&["./run"], self.job.arguments].concat().join(" ")
    }

    /// What `./run` shows on a terminal that is its standard error alone; nothing
    /// where there is no util-linux to make one.
    fn run_on_terminal(&self) -> Option<String> {
        let version = Command::new("script").arg("--version").output();
        let is_known =
            |found: Output| String::from_utf8_lossy(&found.stdout).contains("util-linux");
        if !version.is_ok_and(is_known) {
            eprintln!("not tried: there is no script of util-linux here");
            return None;
        }
        let mut script = self.command("timeout");
        let command = format!("{} >output", self.words());
        script.args(["60", "script", "-qec", &command, "/dev/null"]);
        let shown = script.output().expect("script runs");
        assert!(shown.status.success(), "{shown:?}");
        let output = fs::read_to_string(self.path("output")).expect("the output");
        assert_eq!(output, self.job.end);
        Some(String::from_utf8(shown.stdout).expect("text"))
    }

    /// Whether anything was proved, built or run that must not be.
    fn has_started(&self) -> bool {
        let folders = JOBS.map(|Job { program, .. }| format!("crates/{program}/out"));
        let mut folders = folders.iter().map(|it| &**it).chain(["bin"]);
        folders.any(|folder| self.path(folder).join("started").exists())
    }
}

impl Drop for Scratch {
    fn drop(&mut self) {
        let _ = fs::remove_dir_all(&self.folder);
    }
}

/// A script's command that prints a text.
fn prints(text: &str) -> String {
    format!("printf '%s' '{text}'")
}

fn texts(output: &Output) -> [String; 2] {
    [&output.stdout, &output.stderr].map(|text| String::from_utf8_lossy(text).into_owned())
}

/// One line on standard error alone, with each of these words.
fn hold_refusal(output: &Output, status: i32, words: &[&str]) {
    let [out, error] = texts(output);
    assert_eq!(output.status.code(), Some(status), "{error}");
    assert_eq!(out, "");
    assert_eq!(error.lines().count(), 1, "{error}");
    for word in words {
        assert!(error.contains(word), "{word:?}: {error}");
    }
}

// ---- Arguments

#[test]
fn help_is_a_few_lines_and_starts_nothing() {
    let scratch = Scratch::new("help", NOTHING, REPLAY, NOTHING);
    for (name, lines) in [("run", 4), ("test", 3), ("bench", 3)] {
        let mut command = scratch.command(top().join(name));
        let output = command.arg("--help").output().expect("it runs");
        let [out, error] = texts(&output);
        assert!(output.status.success(), "{name}: {error}");
        assert_eq!(error, "");
        assert_eq!(out.lines().count(), lines, "{out}");
        assert!(out.starts_with(&format!("./{name} ")), "{out}");
    }
    assert!(!scratch.has_started());
}

#[test]
fn help_tells_of_replay_and_report() {
    let helps = JOBS.map(|job| {
        let scratch = Scratch::new("helps", NOTHING, job, NOTHING);
        let output = scratch.run(&["--help"]);
        assert!(output.status.success() && !scratch.has_started());
        texts(&output)
    });
    assert_eq!(helps[0], helps[1]);
    for words in ["./run [LOG] ", "./run report [LOG] "] {
        assert!(helps[0][0].contains(words), "{helps:?}");
    }
}

#[test]
fn wrong_arguments_are_refused_in_one_line() {
    for job in JOBS {
        let scratch = Scratch::new("arguments", NOTHING, job, NOTHING);
        hold_refusal(&scratch.run(&["-x"]), 2, &["run: ", "-x", "--help"]);
        hold_refusal(&scratch.run(&["--", "a"]), 2, &["run: ", "--help"]);
        let log = "examples/cabinet-day.log";
        hold_refusal(&scratch.run(&[log, log]), 2, &["run: ", "2", "--help"]);
        assert!(!scratch.has_started());
    }
    let scratch = Scratch::new("bench", NOTHING, REPLAY, NOTHING);
    let mut bench = scratch.command(top().join("bench"));
    let output = bench.arg("-x").output().expect("it runs");
    hold_refusal(&output, 2, &["bench: ", "-x", "--help"]);
    assert!(!scratch.has_started());
}

// ---- Logs

#[test]
fn a_log_that_cannot_be_read_is_named_before_anything_is_proved() {
    for job in JOBS {
        let scratch = Scratch::new("bad-logs", NOTHING, job, NOTHING);
        for log in ["no such.log", "no/such.log", "examples", ""] {
            let named = format!("log {log}: ");
            hold_refusal(&scratch.run(&[log]), 1, &["run: ", &named]);
        }
        fs::remove_file(scratch.path("examples/cabinet-day.log")).expect("it was there");
        hold_refusal(&scratch.run(&[]), 1, &["examples/cabinet-day.log: "]);
        assert!(!scratch.has_started());
    }
}

/// Root may read everything: it tries it as nobody, where it can.
#[test]
fn a_log_without_permission_is_named_before_anything_is_proved() {
    let scratch = Scratch::new("permission", NOTHING, REPLAY, NOTHING);
    let log = scratch.path("secret.log");
    fs::write(&log, "").expect("a file");
    fs::set_permissions(&log, fs::Permissions::from_mode(0o000)).expect("a mode");
    let mut run = match fs::read(&log) {
        Err(_) => scratch.command("./run"),
        Ok(_) => {
            let mut nobody = scratch.command("setpriv");
            nobody.args(["--reuid=65534", "--regid=65534", "--clear-groups", "./run"]);
            nobody
        }
    };
    match run.arg("secret.log").output() {
        Ok(output) => hold_refusal(&output, 1, &["log secret.log: ", "permission"]),
        Err(error) => eprintln!("not tried: this is root, and setpriv does not start ({error})"),
    }
    assert!(!scratch.has_started());
}

/// Its name is meant from the folder of whoever calls.
#[test]
fn the_log_that_is_named_is_taken() {
    for job in JOBS {
        let program = format!("cat; echo; {}", prints(job.end));
        let scratch = Scratch::new("logs", UNCHANGED, job, &program);
        let elsewhere = scratch.path("elsewhere");
        fs::create_dir(&elsewhere).expect("a folder");
        for (name, text) in [("own.log", "own"), ("report", "of that name")] {
            fs::write(elsewhere.join(name), text).expect("a file");
        }
        let hold = |run: &mut Command, log: &str| {
            let output = run.current_dir(&elsewhere).output().expect("./run runs");
            assert!(output.status.success(), "{output:?}");
            let lines = format!("{log}\n{}", job.end);
            assert_eq!(texts(&output), [lines, String::new()]);
        };
        let run = || {
            let mut run = scratch.command("../run");
            run.args(job.arguments);
            run
        };
        let whole_name = elsewhere.join("own.log");
        hold(&mut run(), "bundled");
        hold(run().arg("own.log"), "own");
        hold(run().arg("../elsewhere/own.log"), "own");
        hold(run().arg(whole_name), "own");
        hold(run().arg("./report"), "of that name");
        let pipe = format!("printf piped | .{} /dev/stdin", scratch.words());
        hold(scratch.command("sh").args(["-c", &pipe]), "piped");
    }
}

/// `rt` is asked for that one alone, in its crate's folder and with no log, and the
/// other is not started.
#[test]
fn the_program_of_the_job_is_proved_and_run() {
    for job in JOBS {
        let rt = format!("echo \"$*\" >>asked; cat >>asked\n{UNCHANGED}");
        let scratch = Scratch::new("program", &rt, job, &prints(job.end));
        scratch.edit();
        let output = scratch.run(&[]);
        assert_eq!(texts(&output), [job.end, ""]);
        let asked = scratch.path("crates").join(job.program).join("asked");
        let asked = fs::read_to_string(asked).expect("rt was started there");
        assert_eq!(asked, "run\n");
        assert!(!scratch.has_started());
    }
}

/// As `./test` leaves it.
#[test]
fn a_program_that_is_newer_than_its_sources_is_run_at_once() {
    for job in JOBS {
        let scratch = Scratch::new("newer", NOTHING, job, &prints(job.end));
        let output = scratch.run(&[]);
        assert_eq!(texts(&output), [job.end, ""]);
        assert!(!scratch.has_started());
    }
}

// ---- Status

fn hold_status(job: Job, n: usize, lines: &str, status: i32) {
    let scratch = Scratch::new(&format!("status-{n}"), UNCHANGED, job, &prints(lines));
    let output = scratch.run(&[]);
    assert_eq!(output.status.code(), Some(status), "{lines:?}");
    assert_eq!(texts(&output), [lines, ""]);
}

#[test]
fn the_status_is_that_of_the_last_line() {
    for (n, (lines, status)) in [
        ("0 chassis opened\nend: answer 0, accepted 1\n", 0),
        ("0 no event: answer 5\nend: answer 5, accepted 0\n", 1),
        // A log that can't be read to its end, and lines that can't be written, have none.
        ("0 chassis opened\n", 1),
        ("", 1),
        ("end: answer 0, accepted 1\n0 chassis opened\n", 1),
        ("a end: answer 0, accepted 1\n", 1),
    ]
    .into_iter()
    .enumerate()
    {
        hold_status(REPLAY, n, lines, status);
    }
}

#[test]
fn the_status_of_a_report_is_that_of_its_last_line() {
    for (n, (lines, status)) in [
        ("42.5 0\nend 0 1\n", 0),
        ("42.5 0\nend 0 100000\n", 0),
        ("42.5 0\nend 5 0\n", 1),
        ("42.5 0\nend 12 100000\n", 1),
        ("42.5 0\n", 1),
        ("", 1),
        ("end 0 1\n42.5 0\n", 1),
        ("a end 0 1\n", 1),
        // No number, or more than one.
        ("end 0 \n", 1),
        ("end 0\n", 1),
        ("end 0 1 2\n", 1),
        ("end: answer 0, accepted 1\n", 1),
    ]
    .into_iter()
    .enumerate()
    {
        hold_status(REPORT, n, lines, status);
    }
}

/// The program has told why, and printed nothing.
#[test]
fn a_log_that_fails_while_it_is_read_is_told() {
    for job in JOBS {
        let told = format!("{}: standard input: Input/output error\n", job.program);
        let program = format!("{} >&2", prints(&told));
        let scratch = Scratch::new("fails", UNCHANGED, job, &program);
        let output = scratch.run(&[]);
        assert_eq!(output.status.code(), Some(1));
        assert_eq!(texts(&output), [String::new(), told]);
    }
}

#[test]
fn lines_that_cannot_be_written_are_told() {
    for job in JOBS {
        let scratch = Scratch::new("full", UNCHANGED, job, &prints(job.end));
        let full = format!("{} >/dev/full", scratch.words());
        let mut run = scratch.command("sh");
        let output = run.args(["-c", &full]).output();
        hold_refusal(&output.expect("./run runs"), 1, &["run: ", "written"]);
    }
}

/// The program would go on for ever.
#[test]
fn it_ends_without_a_word_when_its_reader_goes() {
    let scratch = Scratch::new("reader", UNCHANGED, REPLAY, "yes '0 chassis opened'");
    let mut run = scratch.command("timeout");
    run.args(["60", "./run"])
        .stdout(Stdio::piped())
        .stderr(Stdio::piped());
    let mut child = run.spawn().expect("./run runs");
    let mut line = String::new();
    let output = child.stdout.take().expect("its output is a pipe");
    BufReader::new(output).read_line(&mut line).expect("a line");
    assert_eq!(line, "0 chassis opened\n");
    let output = child.wait_with_output().expect("./run ends");
    assert_eq!(output.status.code(), Some(1), "124 is that it did not end");
    assert_eq!(texts(&output), ["", ""]);
}

#[test]
fn a_program_that_is_not_built_is_told() {
    let rt = "echo 'fn low::a: not proved'; echo 'rt: low did not build' >&2; exit 1";
    for job in JOBS {
        let scratch = Scratch::new("not-built", rt, job, NOTHING);
        scratch.edit();
        let output = scratch.run(&[]);
        let [out, error] = texts(&output);
        assert_eq!(output.status.code(), Some(1));
        assert_eq!(out, "");
        let lines =
            "fn low::a: not proved\nrt: low did not build\nrun: the program was not built\n";
        assert_eq!(error, lines);
        assert!(!scratch.has_started());
    }
}

// ---- Progress

/// What `rt` says where nothing is proved yet, in some seconds.
const PROVES: &str = "name=$(basename \"$PWD\")
echo 'rt: chose --jobs 2 for low'
echo 'fn low::a: proved'
sleep 2
echo 'rt: chose --jobs 2 for middle'
sleep 2
echo \"rt: chose --jobs 2 for $name\"
sleep 2
mv \"../../$name\" out/";

/// A scratch folder where the program is not there yet.
fn not_built(name: &str, job: Job) -> Scratch {
    let scratch = Scratch::new(name, PROVES, job, &prints(job.end));
    fs::rename(scratch.path(&job.built()), scratch.path(job.program)).expect("it is there");
    scratch
}

const ONCE: &str =
    "run: the program is proved and built first; this is done once, and takes some minutes";

/// How many of how many crates are proved, and the last of them.
fn hold_progress(job: Job, steps: [&str; 2]) {
    let Some(shown) = not_built("progress", job).run_on_terminal() else {
        return;
    };
    let mut lines = shown.split('\r').map(str::trim);
    assert_eq!(lines.next(), Some(ONCE));
    let lines: Vec<&str> = lines.collect();
    let (last, before) = lines.split_last().expect("lines");
    for step in steps {
        let step = format!("run: {step}, ");
        assert!(
            before.iter().any(|line| line.starts_with(&step)),
            "{step}: {shown:?}"
        );
    }
    let seconds = before.iter().filter_map(|line| line.strip_suffix(" s"));
    assert!(seconds.count() >= 3, "{shown:?}");
    // It is cleared, and the cursor is where it was.
    assert_eq!([*last, before[before.len() - 1]], ["", ""], "{shown:?}");
    assert!(shown.ends_with('\r'), "{shown:?}");
}

#[test]
fn progress_is_shown_on_a_terminal() {
    let steps = [
        "1 of 3 crates proved (last: low)",
        "2 of 3 crates proved (last: middle)",
    ];
    hold_progress(REPLAY, steps);
}

/// A crate below it is unchanged, and `rt` does not name that.
#[test]
fn progress_of_a_report_is_shown_on_a_terminal() {
    let steps = [
        "2 of 4 crates proved (last: other)",
        "3 of 4 crates proved (last: middle)",
    ];
    hold_progress(REPORT, steps);
}

/// `rt` looks at all crates for some seconds before it begins with one, which it names.
#[test]
fn progress_is_shown_where_something_has_changed() {
    let rt = format!("sleep 5\n{UNCHANGED}");
    let scratch = Scratch::new("changed", &rt, REPLAY, &prints(REPLAY.end));
    scratch.edit();
    let Some(shown) = scratch.run_on_terminal() else {
        return;
    };
    assert!(shown.starts_with(ONCE), "{shown:?}");
    assert!(shown.contains("run: 0 of 3 crates proved, "), "{shown:?}");
}

/// What would show progress has hardly begun when it is told to end: it has to.
#[test]
fn nothing_is_shown_where_all_is_proved() {
    for job in JOBS {
        let scratch = Scratch::new("unchanged", UNCHANGED, job, &prints(job.end));
        for n in 0..20 {
            // From then on rt is asked.
            if n == 10 {
                scratch.edit();
            }
            assert_eq!(scratch.run_on_terminal().unwrap_or_default(), "");
        }
    }
}

#[test]
fn nothing_is_shown_without_a_terminal() {
    for job in JOBS {
        let output = not_built("no-terminal", job).run(&[]);
        assert!(output.status.success(), "{output:?}");
        assert_eq!(texts(&output), [job.end, ""]);
    }
}

// ---- The whole test

/// The line of `rt ci` that tells of the edits.
const EDITS: &str =
    "echo 'rt: ok; handles allowed: none; must-fail edits: 7 refused; done in this run: all'";

const COUNT: &str = "echo '9 passed, 0 failed'";

/// `./test` where `rt` and host/check are these scripts, and whether the second was started.
fn tested(name: &str, rt: &str, check: &str) -> (Output, bool) {
    let scratch = Scratch::new(name, rt, REPLAY, NOTHING);
    scratch.install("test", &fs::read(top().join("test")).expect("./test"));
    let check = format!("#!/bin/sh\ntouch checked\n{check}\n");
    scratch.install("host/check", check.as_bytes());
    let output = scratch.command("./test").output().expect("./test runs");
    assert!(!scratch.has_started());
    let is_checked = scratch.path("checked").exists();
    (output, is_checked)
}

#[test]
fn the_whole_test_ends_with_the_count_of_rt() {
    for (n, count) in ["9 passed, 0 failed", "9 passed, 0 failed (and more)"]
        .into_iter()
        .enumerate()
    {
        let rt = format!("[ \"$*\" = ci ] || exit 1\n{EDITS}\necho '{count}'");
        let (output, is_checked) = tested(&format!("test-{n}"), &rt, "echo 'all is well'");
        let [out, error] = texts(&output);
        assert!(output.status.success() && is_checked, "{out}{error}");
        assert!(out.ends_with("all is well\n9 passed, 0 failed\n"), "{out}");
        assert_eq!(error, "");
    }
}

/// And the count is not its last line.
fn hold_failed_test(name: &str, rt: &str, check: &str, is_checked: bool) {
    let (output, found) = tested(name, rt, check);
    let [out, _] = texts(&output);
    assert_eq!(output.status.code(), Some(1), "{out}");
    assert_eq!(found, is_checked, "{out}");
    assert!(!out.ends_with(" passed, 0 failed\n"), "{out}");
}

#[test]
fn the_whole_test_fails_where_rt_does() {
    let rt = "echo '8 passed, 1 failed'; exit 1";
    hold_failed_test("test-rt", rt, "", false);
    let rt = "echo 'rt: the disk is full'; echo '0 passed, 1 failed'; exit 2";
    hold_failed_test("test-rt-2", rt, "", false);
}

/// `rt` passes it.
#[test]
fn the_whole_test_fails_where_an_edit_is_bad() {
    for bad in [1, 10] {
        let edits = EDITS.replace("refused", &format!("refused, {bad} bad"));
        let rt = format!("{edits}\n{COUNT}");
        hold_failed_test(&format!("test-bad-{bad}"), &rt, "", false);
    }
    hold_failed_test("test-no-edits", COUNT, "", false);
    let rt = format!("{}\n{COUNT}", EDITS.replace("refused", "refused, 0 bad"));
    assert!(tested("test-none-bad", &rt, "").0.status.success());
}

#[test]
fn the_whole_test_fails_where_the_checks_of_the_host_do() {
    let rt = format!("{EDITS}\n{COUNT}");
    hold_failed_test("test-host", &rt, "echo 'host/check: FAILED'; exit 1", true);
}
