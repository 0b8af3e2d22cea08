//! What is printed.

use crate::calls::{Measure, Row};
use crate::jobs::{Cost, Job};
use crate::time::Times;

/// A middle round of more than this over the fastest is called disturbed.
const DISTURBED: f64 = 1.10;

/// Rows, and what was measured of each.
pub struct Calls {
    pub rows: Vec<Row>,
    pub times: Vec<[Times; 2]>,
    pub instructions: Option<Vec<[u64; 2]>>,
}

impl Calls {
    /// Nanoseconds and instructions of a call, the library's and the second program's.
    fn of_a_call(&self, n: usize) -> ([f64; 2], Option<[f64; 2]>) {
        let [library, second] = &self.times[n];
        let calls = self.rows[n].calls;
        let counts = self
            .instructions
            .as_ref()
            .map(|all| all[n].map(|count| per(count, calls)));
        ([library.least, second.least], counts)
    }
}

pub fn print(calls: &Calls) {
    heading("a call", ["library", "second"], &["ns", "instr."]);
    for (n, row) in calls.rows.iter().enumerate() {
        let (ns, counts) = calls.of_a_call(n);
        println!(
            "{:<20} {} {} {}",
            row.name,
            pair(Some(ns), 1),
            pair(counts, 1),
            rated(ns, counts, row.goal),
        );
    }
    println!("(of a replay and a report: a record)\n");
    print_own(calls, Measure::Instructions, "a call", ["look", "read"]);
    println!("(both by the library, at the same indexes from the same states; the goal is for the\ninstructions: a look is a read without its effect)\n");
    print_own(calls, Measure::Time, "a record", ["report", "replay"]);
    println!("(both by the library, on the same log; the goal is for the time: a report does all that a\nreplay does, and keeps figures besides)\n");
    let names = calls.rows.iter().map(|row| row.name);
    disturbed(names.zip(&calls.times));
    parts(calls.rows.iter().map(|row| (row.name, row.second)));
}

pub fn print_programs(jobs: &[Job], costs: &[Cost]) {
    heading(
        "a program",
        ["proved", "second"],
        &["ms", "M instr.", "KiB"],
    );
    for (job, cost) in jobs.iter().zip(costs) {
        let ms = cost.times.each_ref().map(|times| times.least);
        let millions = cost
            .instructions
            .map(|counts| counts.map(|count| per(count, 1_000_000)));
        println!(
            "{:<20} {} {} {} {}",
            job.name,
            pair(Some(ms), 1),
            pair(millions, 1),
            pair(Some(cost.memory.map(|kib| kib as f64)), 0),
            rated(ms, millions, job.goal),
        );
    }
    println!("(whole processes, what they print thrown away: the time that each had a processor,");
    println!("its instructions without the system's, its largest resident set)\n");
    let names = jobs.iter().map(|job| job.name);
    disturbed(names.zip(costs.iter().map(|cost| &cost.times)));
    parts(jobs.iter().map(|job| (job.name, job.second)));
}

/// Library calls beside others of the library on the same input, whose goal is for
/// this measure.
fn print_own(calls: &Calls, measure: Measure, what: &str, names: [&str; 2]) {
    heading(what, names, &["ns", "instr."]);
    for (n, row) in calls.rows.iter().enumerate() {
        let Some(own) = row.own.filter(|own| own.measure == measure) else {
            continue;
        };
        let other = calls.rows.iter().position(|row| row.name == own.row);
        let other = other.expect("there is a row of that name");
        let [(ns, counts), (other_ns, other_counts)] = [n, other].map(|n| calls.of_a_call(n));
        let ns = [ns[0], other_ns[0]];
        let counts = counts.zip(other_counts).map(|(a, b)| [a[0], b[0]]);
        let rating = match measure {
            Measure::Time => rated(ns, None, Some(own.goal)),
            Measure::Instructions => counts.map_or_else(
                || rated(ns, None, None),
                |counts| rated(counts, None, Some(own.goal)),
            ),
        };
        println!(
            "{:<20} {} {} {rating}",
            row.name,
            pair(Some(ns), 1),
            pair(counts, 1),
        );
    }
}

/// What the rows are, whose numbers each pair has, and the units of the pairs.
fn heading(what: &str, [first, second]: [&str; 2], units: &[&str]) {
    let pair = |a, b, c| format!("{a:>9} {b:>9} {c:>6}");
    let all = |pairs: Vec<String>| pairs.join(" ");
    let names = pair(first, second, "ratio");
    println!(
        "{:<20} {}",
        "",
        all(units.iter().map(|unit| pair(unit, unit, "")).collect())
    );
    println!("{what:<20} {} {:>5}", all(vec![names; units.len()]), "goal");
}

fn parts<'a>(rows: impl Iterator<Item = (&'a str, &'a str)>) {
    println!("The second program's part in each row:");
    for (name, second) in rows {
        println!("  {name:<20} {second}");
    }
}

fn per(count: u64, parts: u64) -> f64 {
    count as f64 / parts as f64
}

/// What is held to a goal, what it is held to, their ratio; so many decimals.
fn pair(numbers: Option<[f64; 2]>, decimals: usize) -> String {
    match numbers {
        Some([first, second]) => {
            let ratio = first / second;
            format!("{first:>9.decimals$} {second:>9.decimals$} {ratio:>6.2}")
        }
        None => format!("{:>9} {:>9} {:>6}", "-", "-", "-"),
    }
}

/// The goal, and whether the row keeps it.
fn rated(times: [f64; 2], counts: Option<[f64; 2]>, goal: Option<f64>) -> String {
    let Some(goal) = goal else {
        return format!("{:>5}", "-");
    };
    let within = |[proved, second]: [f64; 2]| proved <= goal * second;
    let rating = match (within(times), counts.map(within)) {
        (true, None | Some(true)) => "within",
        (true, Some(false)) => "OUTSIDE in instructions",
        (false, Some(true)) => "OUTSIDE in time",
        (false, None | Some(false)) => "OUTSIDE",
    };
    format!("{goal:>5.2}  {rating}")
}

/// Which rows the machine was not quiet for.
fn disturbed<'a>(rows: impl Iterator<Item = (&'a str, &'a [Times; 2])>) {
    let shaken = |times: &[Times; 2]| times.iter().any(|one| one.median > DISTURBED * one.least);
    let names: Vec<&str> = rows
        .filter(|(_, times)| shaken(times))
        .map(|(name, _)| name)
        .collect();
    if names.is_empty() {
        println!("Each row's middle round is within a tenth of its fastest.");
    } else {
        println!(
            "The machine was not quiet; the middle round is more than a tenth over the fastest in: {}.",
            names.join("; ")
        );
    }
    println!();
}
