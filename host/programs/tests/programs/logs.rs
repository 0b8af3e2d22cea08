//! Random logs, each from its seed.

use crate::common::rng::Rng;
use crate::common::{any_event, any_sample, record};
use programs::PART;
use reference::w83782d::{Event, Monitor, Sample, RECORD_LENGTH};

/// Registers with a rule of their own, and those that say what a sample does.
const RULED: [u8; 10] = [0x40, 0x41, 0x42, 0x3A, 0x43, 0x46, 0x47, 0x4B, 0x4C, 0x5D];

fn index(rng: &mut Rng) -> u8 {
    match rng.below(8) {
        0 => 0x4E,
        1..=2 => rng.pick(&RULED),
        3..=5 => 0x50 + rng.below(0x10) as u8,
        6 => 0x60 + rng.below(0x20) as u8,
        _ => 0x20 + rng.below(0x30) as u8,
    }
}

fn value(index: u8, rng: &mut Rng) -> u8 {
    match index {
        // SMI enabled most of the time; a stop and a reset now and then.
        0x40 => rng.pick(&[0x03, 0x03, 0x03, 0x03, 0x01, 0x0B, 0x02, 0x83]),
        // Mostly banks that there are.
        0x4E => rng.pick(&[0, 0, 1, 1, 2, 2, 3, 4, 4, 5, 6, 7]) | rng.pick(&[0x00, 0x80]),
        _ => match rng.below(4) {
            0 => rng.pick(&[0x00, 0x4B, 0x50, 0x7F, 0x80, 0xFF]),
            _ => rng.byte(),
        },
    }
}

/// An event, accepted or not.
fn event(rng: &mut Rng) -> Event {
    match rng.below(16) {
        0 => any_event(rng),
        1 => Event::Chassis,
        2..=6 => Event::Sample(any_sample(rng)),
        7..=10 => Event::Read { index: index(rng) },
        _ => {
            let index = index(rng);
            let value = value(index, rng);
            Event::Write { index, value }
        }
    }
}

/// A log that grows by records that are accepted, and the monitor after it.
pub struct Log {
    pub bytes: Vec<u8>,
    monitor: Monitor,
}

impl Log {
    pub fn new() -> Log {
        Log {
            bytes: Vec::new(),
            monitor: Monitor::power_on(),
        }
    }

    /// A log of so many accepted records.
    pub fn accepted(records: usize, rng: &mut Rng) -> Log {
        let mut log = Log::new();
        log.grow(records, rng);
        log
    }

    /// So many more records, any that the monitor accepts.
    pub fn grow(&mut self, records: usize, rng: &mut Rng) {
        let end = self.bytes.len() + records * RECORD_LENGTH;
        while self.bytes.len() < end {
            let event = event(rng);
            self.add(&event);
        }
    }

    /// The event's record, if the monitor accepts it.
    fn add(&mut self, event: &Event) {
        if self.monitor.apply(event).0 == 0 {
            self.bytes.extend(record(event));
        }
    }

    /// A record that the monitor refuses with this answer, 1 to 5. Samples are
    /// stopped first where that is 4.
    pub fn add_refused(&mut self, answer: u8, rng: &mut Rng) {
        if answer == 4 {
            let value = rng.pick(&[0x00, 0x02, 0x08, 0x09, 0x0B]);
            self.add(&Event::Write { index: 0x40, value });
        }
        loop {
            let candidate = any_record(rng);
            let mut monitor = self.monitor;
            if monitor.replay(&candidate).0 == answer {
                self.bytes.extend(candidate);
                return;
            }
        }
    }
}

/// Any record: as it was written, with a bad temperature, or with a changed bit.
pub fn any_record(rng: &mut Rng) -> [u8; RECORD_LENGTH] {
    let event = event(rng);
    let mut record = record(&event);
    match (rng.below(8), event) {
        (0, _) => record[rng.below(RECORD_LENGTH as u64) as usize] ^= 1 << rng.below(8),
        (1, Event::Sample(sample)) => record = out_of_range(&sample, rng),
        _ => {}
    }
    record
}

/// The record of a sample with sensor 2 or 3 outside -256 to 255 half degrees: the
/// record writer makes none.
fn out_of_range(sample: &Sample, rng: &mut Rng) -> [u8; RECORD_LENGTH] {
    let mut record = record(&Event::Sample(*sample));
    let half_degrees: i16 = rng.pick(&[i16::MIN, -257, 256, 257, i16::MAX]);
    let at = rng.pick(&[9, 11]);
    record[at..at + 2].copy_from_slice(&half_degrees.to_be_bytes());
    record
}

/// Any records at all; most logs end early.
pub fn any_log(records: u64, rng: &mut Rng) -> Vec<u8> {
    (0..records).flat_map(|_| any_record(rng)).collect()
}

/// A log with a record that is refused, with each answer by turns, and good records
/// after it.
pub fn refused_log(seed: u64) -> Vec<u8> {
    let mut rng = Rng::new(seed);
    let answer = 1 + (seed % 5) as u8;
    let mut log = Log::accepted(rng.below(30) as usize, &mut rng);
    log.add_refused(answer, &mut rng);
    log.grow(rng.below(3) as usize, &mut rng);
    assert_eq!(Monitor::power_on().replay(&log.bytes).0, answer);
    log.bytes
}

/// The records in what is read at a time.
pub const PART_RECORDS: usize = PART / RECORD_LENGTH;

/// Lengths about that of a part, and of two.
pub const ABOUT_A_PART: [usize; 12] = [
    PART - 33,
    PART - RECORD_LENGTH,
    PART - 1,
    PART,
    PART + 1,
    PART + 31,
    PART + RECORD_LENGTH,
    PART + 33,
    2 * PART - 1,
    2 * PART,
    2 * PART + 1,
    2 * PART + RECORD_LENGTH,
];

/// A log in which the record of this number, from 0, is the first to be refused, with
/// this answer, 1 to 5; good ones come after it, as many as a part has.
pub fn refused_at(place: usize, answer: u8, rng: &mut Rng) -> Vec<u8> {
    // Answer 4 takes two records, of which the second is refused.
    let before = place - usize::from(answer == 4);
    let mut log = Log::accepted(before, rng);
    log.add_refused(answer, rng);
    log.grow(PART_RECORDS, rng);
    let found = Monitor::power_on().replay(&log.bytes);
    assert_eq!(found, (answer, place as u64));
    log.bytes
}
