//! The programs that read a log, `replay` and `day_report`, on the same logs, as files
//! and through pipes.

use crate::common::rng::Rng;
use crate::common::{any_sample, log};
use crate::logs::{any_log, refused_at, refused_log, Log, ABOUT_A_PART, PART_RECORDS};
use crate::program::{fed, hold_text, Feed};
use crate::{replay, report};
use programs::PART;
use reference::w83782d::{Event, Monitor, RECORD_LENGTH};

/// A program that reads a log, and what it should print for one.
#[derive(Clone, Copy)]
pub struct Reader {
    pub name: &'static str,
    pub lines: fn(&[u8]) -> String,
}

pub const REPLAY: Reader = Reader {
    name: "replay",
    lines: replay::lines,
};

pub const REPORT: Reader = Reader {
    name: "day_report",
    lines: report::lines,
};

const READERS: [Reader; 2] = [REPLAY, REPORT];

impl Reader {
    /// Holds all that it prints for a log to the second program.
    pub fn hold(self, log: &[u8], feed: Feed, origin: &str) {
        let origin = format!("{}, {origin}, {} bytes by {feed:?}", self.name, log.len());
        let output = fed(self.name, log, feed);
        hold_text(&output.stdout, (self.lines)(log).as_bytes(), &origin);
        hold_text(&output.stderr, b"", &origin);
        assert!(output.status.success(), "{origin}: {}", output.status);
    }
}

/// Holds what both print.
fn hold(log: &[u8], feed: Feed, origin: &str) {
    for reader in READERS {
        reader.hold(log, feed, origin);
    }
}

#[test]
fn logs_of_accepted_records_are_told_alike() {
    for seed in 0..120 {
        let mut rng = Rng::new(seed);
        let records = rng.below(120) as usize;
        let log = Log::accepted(records, &mut rng).bytes;
        assert_eq!(Monitor::power_on().replay(&log), (0, records as u64));
        hold(&log, Feed::by_turns(seed), &format!("seed {seed}"));
    }
}

/// The records after the refused one are not told, though each is a good one.
#[test]
fn a_refused_record_of_each_kind_ends_it_alike() {
    for seed in 0..150 {
        let (log, origin) = (refused_log(seed), format!("seed {seed}"));
        hold(&log, Feed::by_turns(seed), &origin);
    }
}

/// Most end early, by an answer of any kind.
#[test]
fn logs_of_any_records_are_told_alike() {
    for seed in 0..200 {
        let mut rng = Rng::new(seed);
        let log = any_log(rng.below(40), &mut rng);
        hold(&log, Feed::by_turns(seed), &format!("seed {seed}"));
    }
}

#[test]
fn a_log_with_a_changed_byte_is_told_alike() {
    for seed in 0..150 {
        let mut rng = Rng::new(seed);
        let mut log = Log::accepted(1 + rng.below(12) as usize, &mut rng).bytes;
        let at = rng.below(log.len() as u64) as usize;
        log[at] = rng.byte();
        let origin = format!("seed {seed}, byte {at} changed");
        hold(&log, Feed::by_turns(seed), &origin);
    }
}

/// Samples are started; then a sample, and the chassis is opened: each record changes
/// what is printed.
fn three_records() -> Vec<u8> {
    let start = Event::Write {
        index: 0x40,
        value: 0x01,
    };
    let sample = Event::Sample(any_sample(&mut Rng::new(0)));
    log(&[start, sample, Event::Chassis])
}

/// Every length, the empty log too.
#[test]
fn a_log_cut_anywhere_is_told_alike() {
    let log = three_records();
    for length in 0..=log.len() {
        let feed = Feed::by_turns(length as u64);
        hold(&log[..length], feed, "three records, cut");
    }
    for feed in [Feed::File, Feed::PIPE] {
        hold(&[], feed, "the empty log");
    }
}

// ---- However it is read

#[test]
fn a_log_in_two_pieces_is_told_alike() {
    let log = three_records();
    for first in 0..=log.len() {
        let pieces = [first, usize::MAX];
        hold(&log, Feed::SlowPieces(&pieces), "three records");
    }
}

#[test]
fn input_in_small_pieces_is_told_alike() {
    for seed in 0..3 {
        let mut rng = Rng::new(seed);
        let mut log = Log::accepted(40, &mut rng).bytes;
        log.truncate(log.len() - rng.below(2 * RECORD_LENGTH as u64) as usize);
        for log in [log, refused_log(seed)] {
            let origin = format!("seed {seed}");
            for length in [1, 5, 7, 31, 32, 33, 97] {
                hold(&log, Feed::SlowPieces(&[length]), &origin);
            }
            for lengths in [&[31, 33, 1][..], &[1, 64, 3, 95]] {
                hold(&log, Feed::SlowPieces(lengths), &origin);
            }
        }
    }
}

/// Reads come back short, and no part is filled by one of them.
#[test]
fn a_long_log_in_pieces_is_told_alike() {
    let log = Log::accepted(PART_RECORDS + 700, &mut Rng::new(3)).bytes;
    for length in [PART - 5, PART, log.len() - 3, log.len()] {
        let log = &log[..length];
        for length in [1, 5, 31, 32, 33, 97, PART - 1, PART + 1] {
            hold(log, Feed::Pieces(&[length]), "seed 3, cut");
        }
        for lengths in [&[4_095, 1, 4_097][..], &[8_191, 513], &[50_001]] {
            hold(log, Feed::SlowPieces(lengths), "seed 3, cut");
        }
        for length in [PART - 1, PART + 1] {
            hold(log, Feed::SlowPieces(&[length]), "seed 3, cut");
        }
    }
}

// ---- More than is read at a time

#[test]
fn logs_about_as_long_as_a_part_are_told_alike() {
    let log = Log::accepted(2 * PART_RECORDS + 1, &mut Rng::new(1)).bytes;
    for length in ABOUT_A_PART {
        for feed in [Feed::File, Feed::PIPE] {
            hold(&log[..length], feed, "seed 1, cut");
        }
    }
}

/// The last record of a part, the first of the next, and those beside them.
#[test]
fn a_refused_record_at_the_end_of_a_part_ends_it_alike() {
    for (seed, place) in (0..).zip(PART_RECORDS - 2..PART_RECORDS + 2) {
        for answer in 1..=5 {
            let log = refused_at(place, answer, &mut Rng::new(seed));
            let origin = format!("seed {seed}, answer {answer} at record {place}");
            hold(&log, Feed::by_turns(seed), &origin);
        }
    }
}

/// What comes after is not read, whatever writes it.
#[test]
fn a_log_that_ends_early_is_told_alike() {
    let log = refused_at(100, 5, &mut Rng::new(4));
    hold(&log, Feed::SlowPieces(&[999]), "seed 4");
    let log = [&log[..], &log.repeat(20)].concat();
    hold(&log, Feed::File, "seed 4, and more");
    hold(&log, Feed::PIPE, "seed 4, and more");
}
