//! The built programs beside the programs of host/programs, which print the same
//! lines by the second program: whole processes on the same input.

use crate::common::rng::Rng;
use crate::count;
use crate::folder::Folder;
use crate::inputs::{self, Record, Size};
use crate::process;
use crate::time::Times;
use std::fs::{self, File};
use std::path::{Path, PathBuf};
use std::process::{Command, Stdio};

/// Goals for the replay of a day and for its report.
const REPLAY: f64 = 1.5;
const REPORT: f64 = 1.25;

const SPEEDS: usize = 2_000;

/// Rounds of each program, by turns.
const ROUNDS: usize = 9;

/// Runs for its memory, of which the largest is told.
const MEMORY_RUNS: usize = 5;

/// A row of the table: a program and what it is given.
pub struct Job {
    pub name: &'static str,
    /// What the second program does for it.
    pub second: &'static str,
    /// Ratio to stay within, where there is one.
    pub goal: Option<f64>,
    program: &'static str,
    arguments: Vec<String>,
    input: Vec<u8>,
}

/// What a job took: the built program's, then the second program's.
pub struct Cost {
    /// Milliseconds.
    pub times: [Times; 2],
    /// Nothing where there is no valgrind.
    pub instructions: Option<[u64; 2]>,
    /// KiB.
    pub memory: [u64; 2],
}

pub fn jobs(size: Size) -> Vec<Job> {
    let days = inputs::days(size);
    let mut rng = Rng::new(3);
    vec![
        replay("replay, usual day", &days.usual),
        replay("replay, any day", &days.any),
        report("report, usual day", &days.usual),
        report("report, any day", &days.any),
        Job {
            goal: None,
            ..report("report, 1 record", &days.usual[..1])
        },
        Job {
            name: "plan, 2,000 speeds",
            second: "the same lines by host/programs, buffered: Plan::of",
            goal: None,
            program: "plan",
            arguments: (0..SPEEDS)
                .map(|_| inputs::usual_speed(&mut rng).to_string())
                .collect(),
            input: Vec::new(),
        },
    ]
}

fn replay(name: &'static str, day: &[Record]) -> Job {
    Job {
        name,
        second: "the same lines by host/programs, buffered: decode, Monitor::apply, outputs",
        goal: Some(REPLAY),
        program: "replay",
        arguments: Vec::new(),
        input: day.as_flattened().into(),
    }
}

fn report(name: &'static str, day: &[Record]) -> Job {
    Job {
        name,
        second: "the same lines by host/programs: Report",
        goal: Some(REPORT),
        program: "day_report",
        arguments: Vec::new(),
        input: day.as_flattened().into(),
    }
}

/// What each job takes, after both programs have printed the same.
pub fn costs(jobs: &[Job]) -> Vec<Cost> {
    let folder = Folder::new();
    jobs.iter().map(|job| job.cost(folder.path())).collect()
}

impl Job {
    fn cost(&self, folder: &Path) -> Cost {
        let [input, output] = ["input", "output"].map(|name| folder.join(name));
        fs::write(&input, &self.input).expect("the input is written");
        let programs = self.programs();
        let printed = programs.each_ref().map(|program| {
            let file = File::create(&output).expect("a file for the output");
            process::time(&mut self.command(program, &input, file.into()));
            fs::read(&output).expect("the output is read")
        });
        self.hold(printed);

        let silent = |program: &PathBuf| self.command(program, &input, Stdio::null());
        let mut rounds = [[0.0; ROUNDS]; 2];
        for n in 0..2 * ROUNDS {
            let (side, round) = (n % 2, n / 2);
            let took = process::time(&mut silent(&programs[side]));
            rounds[side][round] = took.as_secs_f64() * 1e3;
        }
        let memory = |program: &PathBuf| {
            let runs = (0..MEMORY_RUNS).map(|_| process::memory(&mut silent(program), &self.input));
            runs.max().expect("it was run")
        };
        let [built, second] = programs.each_ref().map(|program| {
            let mut command = count::under(program, folder);
            self.give(&mut command, &input, Stdio::null());
            count::of_a_program(&mut command, folder)
        });
        Cost {
            times: rounds.map(Times::of),
            instructions: built.zip(second).map(|(built, second)| [built, second]),
            memory: programs.each_ref().map(memory),
        }
    }

    /// The built program, then the second program's.
    fn programs(&self) -> [PathBuf; 2] {
        let top = Path::new(env!("CARGO_MANIFEST_DIR")).join("../..");
        let built = format!("crates/{}/out", self.program);
        [&*built, "host/programs/target/release"].map(|folder| top.join(folder).join(self.program))
    }

    fn command(&self, program: &Path, input: &Path, output: Stdio) -> Command {
        let mut command = Command::new(program);
        self.give(&mut command, input, output);
        command
    }

    fn give(&self, command: &mut Command, input: &Path, output: Stdio) {
        command
            .args(&self.arguments)
            .stdin(File::open(input).expect("the input was written"))
            .stdout(output);
    }

    /// The same bytes from both.
    fn hold(&self, [built, second]: [Vec<u8>; 2]) {
        if built == second && !built.is_empty() {
            return;
        }
        let [built, second] = [&built, &second].map(|text| String::from_utf8_lossy(text));
        let pairs = built.lines().zip(second.lines());
        let n = pairs.take_while(|(built, second)| built == second).count();
        let [built, second] = [built, second].map(|text| text.lines().nth(n).map(String::from));
        panic!(
            "{}: line {n}, counted from 0\n  built  {built:?}\n  second {second:?}",
            self.name
        );
    }
}
