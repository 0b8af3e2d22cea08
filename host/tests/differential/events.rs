//! Events out of records, and logs of them.

use crate::boundary;
use crate::calls::{Call, LIBRARY, WRAPPER};
use crate::common::report;
use crate::common::rng::Rng;
use crate::image::{in_bank, power_on, Image, CHASSIS, LENGTH};
use crate::records::bytes;
use crate::samples::{near_sample, HALF_DEGREES};
use crate::sequences::{start, AIMS};
use reference::w83782d::{cell, write_record, Event, Sample, RECORD_LENGTH};

pub type Record = [u8; RECORD_LENGTH];

/// The record of an event, also of a sample with a bad temperature, which the
/// record writer refuses.
pub fn record_of(event: &Event) -> Record {
    let mut record = [0; RECORD_LENGTH];
    match event {
        Event::Sample(sample) => {
            let calm = Sample {
                t2: 0,
                t3: 0,
                ..*sample
            };
            write_record(&Event::Sample(calm), &mut record);
            record[9..11].copy_from_slice(&sample.t2.to_be_bytes());
            record[11..13].copy_from_slice(&sample.t3.to_be_bytes());
        }
        _ => {
            write_record(event, &mut record);
        }
    }
    record
}

/// The record with one bit changed, anywhere, byte 0 and the zeros among it.
pub fn damaged(mut record: Record, rng: &mut Rng) -> Record {
    record[rng.below(RECORD_LENGTH as u64) as usize] ^= 1 << rng.below(8);
    record
}

/// An event of each kind in turn, over registers that mostly are there.
fn any_event(kind: u64, rng: &mut Rng) -> Event {
    let aim = rng.pick(&AIMS);
    let index = aim.index(rng);
    match kind % 4 {
        0 => Event::Write {
            index,
            value: aim.value(index, rng),
        },
        1 => Event::Read { index },
        2 => Event::Sample(near_sample(rng)),
        _ => Event::Chassis,
    }
}

/// An event that every monitor accepts, whatever its state. Samples stay on:
/// the writes reach no register with a rule but reset.
fn accepted_event(rng: &mut Rng) -> Event {
    match rng.below(8) {
        0..=1 => Event::Write {
            index: 0x2B + rng.below(0x13) as u8,
            value: rng.byte(),
        },
        2 => Event::Write {
            index: rng.pick(&[0x43, 0x44, 0x46, 0x47, 0x4B, 0x4C, 0x4E]),
            value: rng.byte(),
        },
        3 => Event::Write {
            index: 0x40,
            value: rng.pick(&[0x01, 0x03, 0x83]),
        },
        4 => Event::Read {
            index: rng.pick(&[0x20, 0x41, 0x42, 0x4F]),
        },
        5..=6 => {
            let sample = near_sample(rng);
            Event::Sample(Sample {
                t3: sample.t3.clamp(-256, 255),
                ..sample
            })
        }
        _ => Event::Chassis,
    }
}

fn hold_event(start: &Image, record: &[u8], origin: &str) {
    let record = record.to_vec();
    report::hold(LIBRARY, start, &[Call::Event { record }], origin);
}

fn hold_replay(start: &Image, log: &[u8], origin: &str) {
    let calls = [Call::Replay { log: log.to_vec() }];
    report::hold(LIBRARY, start, &calls, origin);
    report::hold(WRAPPER, start, &calls, origin);
}

// ---- One record

#[test]
fn every_kind_of_record_is_carried_out_alike() {
    for seed in 0..200_000 {
        let mut rng = Rng::new(seed);
        let start = start(seed);
        let record = record_of(&any_event(seed, &mut rng));
        let origin = format!("seed {seed}");
        hold_event(&start, &record, &origin);
        hold_event(&start, &damaged(record, &mut rng), &origin);
    }
}

/// Every index that a record can name, in every bank.
#[test]
fn every_recorded_access_is_carried_out_alike() {
    let mut rng = Rng::new(0);
    for bank in 0..8 {
        for seed in 0..20 {
            let start = in_bank(&start(seed), bank);
            for index in 0..=255 {
                let value = rng.byte();
                hold_event(&start, &record_of(&Event::Write { index, value }), "write");
                hold_event(&start, &record_of(&Event::Read { index }), "read");
            }
        }
    }
}

/// Each byte of a record of each kind, to every value.
#[test]
fn a_record_with_a_changed_byte_is_carried_out_or_refused_alike() {
    for seed in 0..16 {
        let mut rng = Rng::new(seed);
        let record = record_of(&any_event(seed, &mut rng));
        for at in 0..RECORD_LENGTH {
            for value in 0..=255 {
                let mut record = record;
                record[at] = value;
                let origin = format!("seed {seed}, byte {at}");
                hold_event(&start(seed / 4), &record, &origin);
            }
        }
    }
}

#[test]
fn a_record_of_another_length_is_refused_alike() {
    for seed in 0..400 {
        let mut rng = Rng::new(seed);
        let mut record = record_of(&any_event(seed, &mut rng)).to_vec();
        record.extend(record.clone());
        record.extend([0; RECORD_LENGTH]);
        for length in 0..=record.len() {
            let origin = format!("seed {seed}, length {length}");
            hold_event(&start(seed), &record[..length], &origin);
        }
    }
}

/// All 65,536 values: the decoder's 3 comes before the monitor's 4.
#[test]
fn every_recorded_temperature_is_taken_or_refused_alike() {
    let mut rng = Rng::new(0);
    let sample = near_sample(&mut rng);
    let mut stopped = power_on();
    stopped[cell(0, 0x40)] = 0x09;
    for t in i16::MIN..=i16::MAX {
        for (t2, t3) in [(t, 0), (0, t)] {
            let record = record_of(&Event::Sample(Sample { t2, t3, ..sample }));
            hold_event(&power_on(), &record, "running");
            hold_event(&stopped, &record, "stopped");
        }
    }
}

// ---- Logs

fn log_of(records: impl IntoIterator<Item = Record>) -> Vec<u8> {
    records.into_iter().flatten().collect()
}

/// A log that is accepted whole from a monitor that isn't stopped.
fn good_log(records: usize, rng: &mut Rng) -> Vec<u8> {
    log_of((0..records).map(|_| record_of(&accepted_event(rng))))
}

/// The image of a seed, but not stopped.
fn running(seed: u64) -> Image {
    let mut image = start(seed);
    image[cell(0, 0x40)] = 0x03;
    image
}

#[test]
fn good_logs_are_replayed_alike() {
    for seed in 0..20_000 {
        let mut rng = Rng::new(seed);
        let records = rng.below(24) as usize;
        let log = good_log(records, &mut rng);
        let start = running(seed);
        assert_eq!(
            boundary::replay(&mut start.clone(), &log),
            (0, records as u64),
            "seed {seed}"
        );
        hold_replay(&start, &log, &format!("seed {seed}"));
    }
}

/// Most end early.
#[test]
fn logs_of_any_records_are_replayed_alike() {
    for seed in 0..50_000 {
        let mut rng = Rng::new(seed);
        let log = log_of((0..rng.below(16)).map(|_| {
            let record = record_of(&any_event(rng.below(16), &mut rng));
            match rng.below(24) {
                0 => damaged(record, &mut rng),
                _ => record,
            }
        }));
        hold_replay(&start(seed), &log, &format!("seed {seed}"));
    }
}

/// Refused by the decoder (5 and 3) and by the monitor (1, 2, 3 and 4); the one
/// with 4 comes after a record that stops monitoring.
fn refused_records(rng: &mut Rng) -> Vec<(u8, Vec<u8>)> {
    let sample = near_sample(rng);
    let fits = Sample {
        t3: sample.t3.clamp(-256, 255),
        ..sample
    };
    let bad = |t2| record_of(&Event::Sample(Sample { t2, ..fits }));
    let mut tail = record_of(&Event::Chassis);
    tail[31] = 1;
    let stop = record_of(&Event::Write {
        index: 0x40,
        value: rng.pick(&[0x00, 0x09]),
    });
    let write = |index| record_of(&Event::Write { index, value: 0xFF });
    vec![
        (5, [0; RECORD_LENGTH].to_vec()),
        (5, [0xFF; RECORD_LENGTH].to_vec()),
        (5, tail.to_vec()),
        (3, bad(rng.pick(&[i16::MIN, -257, 256])).to_vec()),
        (1, write(0x45).to_vec()),
        (1, record_of(&Event::Read { index: 0x1F }).to_vec()),
        (2, write(0x41).to_vec()),
        (4, [stop, record_of(&Event::Sample(fits))].concat()),
    ]
}

#[test]
fn a_refused_record_at_each_place_ends_a_replay_alike() {
    const RECORDS: usize = 16;
    for seed in 0..60 {
        let mut rng = Rng::new(seed);
        let log = good_log(RECORDS, &mut rng);
        for place in 0..=RECORDS {
            for (answer, refused) in refused_records(&mut rng) {
                let at = place * RECORD_LENGTH;
                let log = [&log[..at], &refused, &log[at..]].concat();
                let found = boundary::replay(&mut running(seed), &log);
                let accepted = place + refused.len() / RECORD_LENGTH - 1;
                let origin = format!("seed {seed}, place {place}, answer {answer}");
                assert_eq!(found, (answer, accepted as u64), "{origin}");
                hold_replay(&running(seed), &log, &origin);
            }
        }
    }
}

/// Every length, so every part of a record at the end; the empty log too.
#[test]
fn a_log_cut_anywhere_is_replayed_alike() {
    for seed in 0..200 {
        let mut rng = Rng::new(seed);
        let log = good_log(5, &mut rng);
        for length in 0..=log.len() {
            let (whole, part) = (length / RECORD_LENGTH, length % RECORD_LENGTH);
            let answer = if part == 0 { 0 } else { 5 };
            let origin = format!("seed {seed}, length {length}");
            let found = boundary::replay(&mut running(seed), &log[..length]);
            assert_eq!(found, (answer, whole as u64), "{origin}");
            hold_replay(&running(seed), &log[..length], &origin);
        }
    }
}

/// With flag bytes that no call writes: kept while no record is accepted.
#[test]
fn a_replay_tidies_flags_from_its_first_accepted_record_on() {
    let mut start = power_on();
    start[CHASSIS..].fill(0xA5);
    let good = record_of(&Event::Read { index: 0x20 });
    let refused = [0; RECORD_LENGTH];
    for (log, answer, accepted) in [
        (vec![], 0, 0),
        (good[..31].to_vec(), 5, 0),
        (refused.to_vec(), 5, 0),
        ([refused, good].concat(), 5, 0),
        (good.to_vec(), 0, 1),
        ([good, refused].concat(), 5, 1),
        ([&good[..], &good[..7]].concat(), 5, 1),
    ] {
        let mut image = start;
        assert_eq!(boundary::replay(&mut image, &log), (answer, accepted));
        let flag = if accepted == 0 { 0xA5 } else { 0x01 };
        assert_eq!(image[CHASSIS..CHASSIS + 8], [flag; 8]);
        assert_eq!(image[CHASSIS + 8..], start[CHASSIS + 8..]);
        assert_eq!(image[..CHASSIS], start[..CHASSIS]);
        hold_replay(&start, &log, "odd flags");
    }
}

#[test]
fn a_long_log_is_replayed_alike() {
    let mut rng = Rng::new(0);
    let mut log = good_log(300_000, &mut rng);
    hold_replay(&power_on(), &log, "300,000 records");
    log.extend([0xFF]);
    hold_replay(&power_on(), &log, "300,000 records and a part");
}

// ---- Lengths

/// 8 for the image, before what record or log would be refused with.
#[test]
fn an_image_of_another_length_takes_no_record_and_no_log() {
    for seed in 0..500 {
        let mut rng = Rng::new(seed);
        let good = record_of(&accepted_event(&mut rng));
        let bad = Event::Sample(Sample {
            t2: rng.pick(&HALF_DEGREES),
            ..near_sample(&mut rng)
        });
        for log in [
            vec![],
            good[..31].to_vec(),
            good.to_vec(),
            record_of(&bad).to_vec(),
            bytes(&mut rng, 96),
            good_log(3, &mut rng),
        ] {
            for n in [0, 1, 112, 127, LENGTH + 1, 256] {
                let mut image = bytes(&mut rng, n);
                let before = (image.clone(), log.clone());
                assert_eq!(boundary::event(&mut image, &log), (8, 0), "length {n}");
                assert_eq!(boundary::replay(&mut image, &log), (8, 0), "length {n}");
                assert_eq!((&image, &log), (&before.0, &before.1));
            }
        }
    }
}
