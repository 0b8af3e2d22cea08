//! Event records, through the boundary and through the wrapper.

use crate::boundary::records as boundary;
use crate::common::rng::Rng;
use crate::samples::{any_sample, wrapped, HALF_DEGREES};
use reference::w83782d::{Event, Sample, RECORD_LENGTH};
use w83782d::Record;

/// Lengths that a buffer of 32 bytes must not have.
const OTHER_LENGTHS: [usize; 8] = [0, 1, 7, 31, 33, 63, 64, 128];

pub fn bytes(rng: &mut Rng, length: usize) -> Vec<u8> {
    (0..length).map(|_| rng.byte()).collect()
}

// ---- Decoding

fn hold_decode(record: &[u8]) {
    let lent = record.to_vec();
    let expected = reference::w83782d::decode(record).err().unwrap_or(0);
    assert_eq!(boundary::decode(&lent), expected, "{record:02X?}");
    assert_eq!(lent, record);
    match Record::decode(record) {
        Ok(decoded) => assert!(expected == 0 && decoded.bytes() == record),
        Err(refusal) => assert_eq!(refusal.number(), expected, "{record:02X?}"),
    }
}

#[test]
fn every_kind_and_every_length_decodes_alike() {
    let mut rng = Rng::new(1);
    for kind in 0..=255 {
        for length in 0..=80 {
            let mut record = vec![0; length];
            if let Some(first) = record.first_mut() {
                *first = kind;
            }
            hold_decode(&record);
            record
                .iter_mut()
                .skip(1)
                .for_each(|byte| *byte = rng.byte());
            hold_decode(&record);
        }
    }
}

/// One byte of an empty record of each kind, to every value: where it may be
/// other than zero, and where not.
#[test]
fn every_byte_of_a_record_is_decoded_alike() {
    for kind in 0..=5 {
        for at in 1..RECORD_LENGTH {
            for value in 0..=255 {
                let mut record = [0; RECORD_LENGTH];
                record[0] = kind;
                record[at] = value;
                hold_decode(&record);
            }
        }
    }
}

/// Each of sensors 2 and 3 through all 65,536 values, the other at each end.
#[test]
fn every_temperature_of_a_sample_is_decoded_alike() {
    for t in i16::MIN..=i16::MAX {
        for other in HALF_DEGREES {
            for [two, three] in [[t, other], [other, t]] {
                let mut record = [0; RECORD_LENGTH];
                record[0] = 3;
                record[9..11].copy_from_slice(&two.to_be_bytes());
                record[11..13].copy_from_slice(&three.to_be_bytes());
                hold_decode(&record);
            }
        }
    }
}

/// 5 comes before 3.
#[test]
fn random_records_decode_alike() {
    for seed in 0..300_000 {
        let mut rng = Rng::new(seed);
        let mut record = [0; RECORD_LENGTH];
        record.fill_with(|| rng.byte());
        record[0] = rng.below(6) as u8;
        let used = rng.pick(&[1, 2, 3, 25, 25, 25, 32]);
        record[used..].fill(0);
        if rng.one_in(2) {
            record[9] = rng.pick(&[0x00, 0xFF, 0x01]);
            record[11] = rng.pick(&[0x00, 0xFF, 0xFE]);
        }
        hold_decode(&record);
    }
}

// ---- Record k of a log

fn hold_record_at(log: &[u8], k: u64) {
    let expected = reference::w83782d::record_at(log, k);
    let start = expected.map_or(u64::MAX, |_| 32 * k);
    assert_eq!(boundary::record_at(log, k), start, "{}: {k}", log.len());
    match w83782d::record_at(log, k) {
        // The caller's own bytes, and not a copy.
        Ok(part) => assert_eq!(part.as_ptr_range(), expected.unwrap().as_ptr_range()),
        Err(refusal) => assert_eq!(Err(refusal.number()), expected.map(|_| ())),
    }
}

#[test]
fn every_record_of_a_log_lies_at_the_same_place() {
    let mut rng = Rng::new(2);
    let log = bytes(&mut rng, 4_096);
    for length in (0..200).chain([1_023, 1_024, 4_095, 4_096]) {
        for k in 0..140 {
            hold_record_at(&log[..length], k);
        }
    }
    assert_eq!(log, bytes(&mut Rng::new(2), 4_096));
}

/// 32 k beyond any length, also where it overflows 64 bits.
#[test]
fn a_record_beyond_any_length_is_in_no_log() {
    let log = [0; 96];
    for bit in 0..64 {
        for k in [(1 << bit) - 1, 1 << bit, (1 << bit) + 1] {
            hold_record_at(&log, k);
            hold_record_at(&log[..0], k);
        }
    }
    for k in [u64::MAX / 32, u64::MAX / 32 + 1, u64::MAX - 1, u64::MAX] {
        hold_record_at(&log, k);
    }
}

// ---- Writing records

/// Holds a record writer to `reference` over buffers of each length, filled with
/// bytes that a refusal must leave, and between bytes that no call may touch.
/// Gives the whole record, if there is one.
fn hold_writer(event: &Event, write: impl Fn(&mut [u8]) -> u8) -> Option<[u8; RECORD_LENGTH]> {
    for length in OTHER_LENGTHS.into_iter().chain([RECORD_LENGTH]) {
        let lent = 16..16 + length;
        let mut expected = bytes(&mut Rng::new(length as u64), 16 + length + 16);
        let mut found = expected.clone();
        let answer = reference::w83782d::write_record(event, &mut expected[lent.clone()]);
        assert_eq!(
            write(&mut found[lent.clone()]),
            answer,
            "{event:?}, length {length}"
        );
        assert_eq!(found, expected, "{event:?}, length {length}");
        if answer == 0 {
            return found[lent].try_into().ok();
        }
    }
    None
}

#[test]
fn every_bus_access_is_recorded_alike() {
    for index in 0..=255 {
        for value in 0..=255 {
            let event = Event::Write { index, value };
            let record = hold_writer(&event, |out| boundary::record_write(index, value, out));
            assert_eq!(record.as_ref(), Some(Record::write(index, value).bytes()));
        }
        let event = Event::Read { index };
        let record = hold_writer(&event, |out| boundary::record_read(index, out));
        assert_eq!(record.as_ref(), Some(Record::read(index).bytes()));
    }
}

#[test]
fn a_chassis_event_is_recorded_alike() {
    let record = hold_writer(&Event::Chassis, boundary::record_chassis);
    assert_eq!(record.as_ref(), Some(Record::chassis_opened().bytes()));
}

fn hold_sample(sample: &Sample) {
    let event = Event::Sample(*sample);
    let record = hold_writer(&event, |out| {
        boundary::record_sample(&sample.codes, sample, out)
    });
    match Record::sample(&wrapped(sample)) {
        Ok(made) => assert_eq!(Some(made.bytes()), record.as_ref()),
        Err(refusal) => assert!(refusal.number() == 3 && record.is_none()),
    }
    // What is written decodes to what was recorded.
    if let Some(record) = record {
        assert_eq!(reference::w83782d::decode(&record), Ok(event));
        assert_eq!(boundary::decode(&record), 0);
    }
}

#[test]
fn random_samples_are_recorded_alike() {
    for seed in 0..100_000 {
        hold_sample(&any_sample(&mut Rng::new(seed)));
    }
}

#[test]
fn every_temperature_is_recorded_or_refused_alike() {
    let calm = any_sample(&mut Rng::new(3));
    for t in i16::MIN..=i16::MAX {
        for (t2, t3) in [(t, 0), (0, t), (t, t)] {
            hold_sample(&Sample { t2, t3, ..calm });
        }
    }
}

/// Codes of another number than seven are 8, also before a bad temperature, and
/// leave a buffer of any length.
#[test]
fn codes_of_another_length_are_answered_8() {
    for seed in 0..1_000 {
        let mut rng = Rng::new(seed);
        let sample = any_sample(&mut rng);
        for v in [0, 1, 6, 8, 9, 32, 256] {
            let volts = bytes(&mut rng, v);
            for m in OTHER_LENGTHS.into_iter().chain([RECORD_LENGTH]) {
                let before = bytes(&mut rng, m);
                let mut out = before.clone();
                assert_eq!(boundary::record_sample(&volts, &sample, &mut out), 8);
                assert_eq!(out, before, "{v} codes, length {m}");
            }
        }
    }
}

/// "Record of writing 50h to 47h: 01 47 50, then 29 zeros."
#[test]
fn the_record_of_the_paper_comes_out() {
    let mut expected = [0; RECORD_LENGTH];
    expected[..3].copy_from_slice(&[0x01, 0x47, 0x50]);
    let mut out = [0xA5; RECORD_LENGTH];
    assert_eq!(boundary::record_write(0x47, 0x50, &mut out), 0);
    assert_eq!(out, expected);
}
