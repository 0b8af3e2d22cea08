//! What `day_report` should print, and logs for it alone.

use crate::common::rng::Rng;
use crate::logs::{refused_at, refused_log, Log, PART_RECORDS};
use crate::program::{hold_text, top, Feed};
use crate::readers::REPORT;
use programs::PART;
use reference::w83782d::{Monitor, DAY, RECORD_LENGTH};
use std::collections::BTreeSet;
use std::fs;
use std::sync::OnceLock;

const DAY_RECORDS: usize = DAY as usize;
const DAY_BYTES: usize = DAY_RECORDS * RECORD_LENGTH;

/// What `day_report` should print for a log. Its end is that of the second program's
/// own replay, of no more records than a day's.
pub fn lines(log: &[u8]) -> String {
    let mut lines = Vec::new();
    programs::report(log, &mut lines).expect("memory is written");
    let lines = String::from_utf8(lines).expect("text");
    let (answer, accepted) = end(log);
    let end = format!("end {answer} {accepted}");
    assert_eq!(lines.lines().last(), Some(&*end));
    assert_eq!(lines.lines().count(), 28);
    lines
}

/// The answer, and the whole records accepted.
fn end(log: &[u8]) -> (u8, u64) {
    let (day, more) = log.split_at(log.len().min(DAY_BYTES));
    match (Monitor::power_on().replay(day), more.len()) {
        ((0, DAY), 1..RECORD_LENGTH) => (5, DAY),
        ((0, DAY), RECORD_LENGTH..) => (12, DAY),
        (end, _) => end,
    }
}

// ---- A whole day

/// More records than a day's, all accepted.
fn long_log() -> &'static [u8] {
    static LOG: OnceLock<Vec<u8>> = OnceLock::new();
    let records = DAY_RECORDS + PART_RECORDS;
    LOG.get_or_init(|| Log::accepted(records, &mut Rng::new(5)).bytes)
}

#[test]
fn a_day_is_reported_alike() {
    for (more, answer) in [
        (0, 0),
        (1, 5),
        (31, 5),
        (32, 12),
        (33, 12),
        (64, 12),
        (PART, 12),
    ] {
        let log = &long_log()[..DAY_BYTES + more];
        assert_eq!(end(log), (answer, DAY));
        for feed in [
            Feed::File,
            Feed::PIPE,
            Feed::Pieces(&[97]),
            Feed::SlowPieces(&[PART - 1]),
            Feed::SlowPieces(&[PART + 1]),
        ] {
            REPORT.hold(log, feed, "seed 5, cut");
        }
    }
}

/// The day's last record has its own number, and the one after it is 12, whatever it
/// is.
#[test]
fn a_refused_record_at_the_end_of_a_day_ends_it_alike() {
    for (seed, place) in (0..).zip([DAY_RECORDS - 2, DAY_RECORDS - 1, DAY_RECORDS]) {
        for refusal in 1..=5 {
            let log = refused_at(place, refusal, &mut Rng::new(seed));
            let answer = if place < DAY_RECORDS { refusal } else { 12 };
            assert_eq!(end(&log), (answer, place as u64));
            let origin = format!("seed {seed}, answer {refusal} at record {place}");
            REPORT.hold(&log, Feed::by_turns(u64::from(refusal)), &origin);
        }
    }
}

// ---- What is expected

/// README's lines of the bundled day's report are the second program's, and so is all
/// that `day_report` prints for it.
#[test]
fn the_cabinets_day_is_reported_as_readme_shows_it() {
    let log = fs::read(top().join("examples/cabinet-day.log")).expect("the bundled log");
    let expected = lines(&log);
    let names: Vec<&str> = expected.lines().map(first_word).collect();
    let readme = fs::read_to_string(top().join("README.md")).expect("README");
    let shown: Vec<&str> = readme
        .lines()
        .filter_map(|line| line.strip_prefix("    "))
        .filter(|line| names.contains(&first_word(line)))
        .collect();
    assert!(shown.len() >= 6, "{shown:?}");
    for line in shown {
        assert!(expected.lines().any(|other| other == line), "{line}");
    }
    REPORT.hold(&log, Feed::File, "the cabinet's day");
}

fn first_word(line: &str) -> &str {
    line.split(' ').next().unwrap_or("")
}

/// The gate holds `day_report` to one log, with lines worked out from the paper.
#[test]
fn the_gates_own_lines_are_expected_here_too() {
    let folder = top().join("crates/day_report");
    let log = fs::read(folder.join("stdin")).expect("the gate's log");
    let expected = fs::read(folder.join("stdout")).expect("the gate's lines");
    hold_text(lines(&log).as_bytes(), &expected, "the gate's log");
}

/// Logs as those above reach each answer and each status bit, and temperatures of
/// either sign.
#[test]
fn logs_reach_every_answer_and_status_bit() {
    let report = lines(&Log::accepted(PART_RECORDS, &mut Rng::new(1)).bytes);
    for line in report.lines() {
        let figures: Vec<&str> = line.split(' ').collect();
        match *figures {
            ["27" | "1.50" | "2.50", _, least, greatest, _] => {
                assert!(
                    least.starts_with('-') && !greatest.starts_with('-'),
                    "{line}"
                );
            }
            [_, samples, least, greatest, _] => {
                assert!(samples != "0" && least != greatest, "{line}");
            }
            ["end", "0", _] => {}
            [_, latched] => assert_ne!(latched, "0", "{line}"),
            _ => panic!("{line}"),
        }
    }
    let answers: BTreeSet<u8> = (0..150).map(|seed| end(&refused_log(seed)).0).collect();
    assert_eq!(answers, BTreeSet::from([1, 2, 3, 4, 5]));
}
