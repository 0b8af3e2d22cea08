//! What `replay` should print, and logs for it alone.

use crate::common::record;
use crate::common::rng::Rng;
use crate::logs::{refused_log, Log, PART_RECORDS};
use crate::program::{hold_text, top, Feed};
use crate::readers::REPLAY;
use reference::w83782d::{Event, Monitor};
use std::fs;

/// What `replay` should print for a log. Its end is that of the second program's own
/// replay.
pub fn lines(log: &[u8]) -> String {
    let mut lines = Vec::new();
    programs::replay(log, &mut lines).expect("memory is written");
    let lines = String::from_utf8(lines).expect("text");
    let (answer, accepted) = Monitor::power_on().replay(log);
    let end = format!("end: answer {answer}, accepted {accepted}");
    assert_eq!(lines.lines().last(), Some(&*end));
    lines
}

/// An access to every index, the banked ones in every bank: the name of its
/// register, or that there is none.
#[test]
fn every_register_is_named_alike() {
    for bank in 0..8 {
        let select = record(&Event::Write {
            index: 0x4E,
            value: bank,
        });
        let indexes = match bank {
            0 => 0x00..=0xFF,
            _ => 0x50..=0x5F,
        };
        let mut accepted = Vec::new();
        for index in indexes {
            for event in [Event::Read { index }, Event::Write { index, value: 0 }] {
                let log = [select, record(&event)].concat();
                match Monitor::power_on().replay(&log).0 {
                    0 => accepted.extend(log),
                    _ => REPLAY.hold(&log, Feed::File, &format!("bank {bank}, {event:?}")),
                }
            }
        }
        REPLAY.hold(&accepted, Feed::File, &format!("bank {bank}, accepted"));
    }
}

#[test]
fn a_log_of_a_megabyte_is_told_alike() {
    let mut log = Log::accepted(16 * PART_RECORDS, &mut Rng::new(2)).bytes;
    REPLAY.hold(&log, Feed::File, "seed 2");
    log.push(1);
    REPLAY.hold(&log, Feed::PIPE, "seed 2, and a byte");
}

// ---- What is expected

/// README's lines of the bundled day are the second program's, and so is all that
/// `replay` prints for it.
#[test]
fn the_cabinets_day_is_told_as_readme_shows_it() {
    let log = fs::read(top().join("examples/cabinet-day.log")).expect("the bundled log");
    let expected = lines(&log);
    let readme = fs::read_to_string(top().join("README.md")).expect("README");
    let shown: Vec<&str> = readme
        .lines()
        .filter_map(|line| line.strip_prefix("    "))
        .filter(|line| line.contains(": answer "))
        .collect();
    assert!(shown.len() >= 6, "{shown:?}");
    for line in shown {
        assert!(expected.lines().any(|other| other == line), "{line}");
    }
    REPLAY.hold(&log, Feed::File, "the cabinet's day");
}

/// The gate holds `replay` to one log, with lines worked out from the paper.
#[test]
fn the_gates_own_lines_are_expected_here_too() {
    let folder = top().join("crates/replay");
    let log = fs::read(folder.join("stdin")).expect("the gate's log");
    let expected = fs::read(folder.join("stdout")).expect("the gate's lines");
    hold_text(lines(&log).as_bytes(), &expected, "the gate's log");
}

/// Logs as those above reach each answer, SMI, OVT and many alarms.
#[test]
fn logs_reach_every_answer_and_output() {
    let mut text = lines(&Log::accepted(PART_RECORDS, &mut Rng::new(1)).bytes);
    for seed in 0..150 {
        text += &lines(&refused_log(seed));
    }
    for part in [
        ": answer 1, SMI",
        ": answer 2, SMI",
        " no event: answer 3, SMI",
        ": answer 4, SMI",
        " no event: answer 5, SMI",
        "SMI 1, OVT 0 0, ",
        "SMI 0, OVT 1 0, ",
        "SMI 1, OVT 0 1, ",
        "SMI 1, OVT 1 1, ",
        "alarms 0\n",
        "alarms 7\n",
        "alarms 12\n",
    ] {
        assert!(text.contains(part), "{part:?}");
    }
}
