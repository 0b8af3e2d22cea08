//! Event records: layout, decoder, writer, record n of a log, apply, replay.

mod common;

use common::{any_sample, any_state, Rng, CALM};
use reference::w83782d::{decode, record_at, write_record, Event, Monitor, Sample};

fn record_of(event: &Event) -> [u8; 32] {
    let mut buffer = [0xEE; 32];
    assert_eq!(write_record(event, &mut buffer), 0);
    buffer
}

fn any_event(rng: &mut Rng) -> Event {
    match rng.below(4) {
        0 => Event::Write {
            index: rng.byte(),
            value: rng.byte(),
        },
        1 => Event::Read { index: rng.byte() },
        2 => Event::Sample(any_sample(rng)),
        _ => Event::Chassis,
    }
}

#[test]
fn a_sample_record_byte_by_byte() {
    let event = Event::Sample(Sample {
        codes: [0x11, 0x22, 0x33, 0x44, 0x55, 0x66, 0x77],
        t1: -2,
        t2: -256,
        t3: 255,
        u: [0x0102_0304, 0xFFFF_FFFF, 306],
    });
    let expected = [
        0x03, 0x11, 0x22, 0x33, 0x44, 0x55, 0x66, 0x77, // kind, voltages
        0xFE, 0xFF, 0x00, 0x00, 0xFF, // sensors 1, 2, 3
        0x01, 0x02, 0x03, 0x04, // u of fan 1
        0xFF, 0xFF, 0xFF, 0xFF, // u of fan 2
        0x00, 0x00, 0x01, 0x32, // u of fan 3
        0, 0, 0, 0, 0, 0, 0,
    ];
    assert_eq!(record_of(&event), expected);
    assert_eq!(decode(&expected), Ok(event));
}

#[test]
fn the_other_kinds_byte_by_byte() {
    let mut expected = [0; 32];
    expected[..3].copy_from_slice(&[1, 0xFF, 0xAB]);
    let event = Event::Write {
        index: 0xFF,
        value: 0xAB,
    };
    assert_eq!(record_of(&event), expected);
    assert_eq!(decode(&expected), Ok(event));

    let mut expected = [0; 32];
    expected[..2].copy_from_slice(&[2, 0x41]);
    let event = Event::Read { index: 0x41 };
    assert_eq!(record_of(&event), expected);
    assert_eq!(decode(&expected), Ok(event));

    let mut expected = [0; 32];
    expected[0] = 4;
    assert_eq!(record_of(&Event::Chassis), expected);
    assert_eq!(decode(&expected), Ok(Event::Chassis));
}

#[test]
fn records_go_round_from_event_to_event() {
    let mut rng = Rng::new(20);
    for _ in 0..50_000 {
        let event = any_event(&mut rng);
        assert_eq!(decode(&record_of(&event)), Ok(event));
    }
}

#[test]
fn records_go_round_from_bytes_to_bytes() {
    let mut rng = Rng::new(21);
    let mut decoded = 0;
    for _ in 0..50_000 {
        let mut record = [0; 32];
        record[0] = rng.below(6) as u8;
        for byte in record[1..25].iter_mut() {
            *byte = if rng.below(4) == 0 { rng.byte() } else { 0 };
        }
        if let Ok(event) = decode(&record) {
            decoded += 1;
            assert_eq!(record_of(&event), record);
        }
    }
    assert!(decoded > 1_000);
}

#[test]
fn unknown_kinds_are_5() {
    for kind in 0..=255 {
        let mut record = [0; 32];
        record[0] = kind;
        let known = (1..=4).contains(&kind);
        assert_eq!(decode(&record).is_ok(), known, "kind {kind}");
        if !known {
            assert_eq!(decode(&record), Err(5));
        }
    }
}

#[test]
fn each_unused_byte_must_be_zero() {
    // First byte of "the rest", by kind.
    for (kind, rest) in [(1, 3), (2, 2), (3, 25), (4, 1)] {
        for at in 1..32 {
            for value in [1, 0x80, 0xFF] {
                let mut record = [0; 32];
                record[0] = kind;
                record[at] = value;
                if at >= rest {
                    assert_eq!(decode(&record), Err(5), "kind {kind} byte {at}");
                } else {
                    assert_ne!(decode(&record), Err(5), "kind {kind} byte {at}");
                }
            }
        }
    }
}

#[test]
fn records_not_of_32_bytes_are_5() {
    let mut bytes = [0; 70];
    bytes[0] = 4;
    for length in (0..=70).filter(|length| *length != 32) {
        assert_eq!(decode(&bytes[..length]), Err(5));
    }
    assert_eq!(decode(&bytes[..32]), Ok(Event::Chassis));
}

#[test]
fn a_bad_temperature_is_3_at_exactly_the_edges() {
    for at in [9, 11] {
        for half_degrees in i16::MIN..=i16::MAX {
            let mut record = [0; 32];
            record[0] = 3;
            record[at..at + 2].copy_from_slice(&half_degrees.to_be_bytes());
            match decode(&record) {
                Ok(Event::Sample(s)) => {
                    assert!((-256..=255).contains(&half_degrees));
                    assert_eq!(if at == 9 { s.t2 } else { s.t3 }, half_degrees);
                }
                other => {
                    assert!(!(-256..=255).contains(&half_degrees));
                    assert_eq!(other, Err(3));
                }
            }
        }
    }
}

#[test]
fn the_decoder_looks_at_neither_index_nor_standby() {
    let event = Event::Read { index: 0x00 };
    assert_eq!(decode(&record_of(&event)), Ok(event));
    let event = Event::Sample(CALM);
    assert_eq!(decode(&record_of(&event)), Ok(event));
}

#[test]
fn record_n_is_the_callers_own_bytes() {
    let mut rng = Rng::new(22);
    let log: Vec<u8> = (0..32 * 5 + 7).map(|_| rng.byte()).collect();
    for n in 0..5 {
        let part = record_at(&log, n).unwrap();
        let start = 32 * n as usize;
        assert_eq!(part, &log[start..start + 32]);
        assert!(std::ptr::eq(part.as_ptr(), &log[start]));
    }
    assert_eq!(record_at(&log, 5), Err(5));
    assert_eq!(record_at(&log, 6), Err(5));
    assert_eq!(record_at(&[], 0), Err(5));
    assert_eq!(record_at(&log[..31], 0), Err(5));
    assert_eq!(record_at(&log[..32], 0), Ok(&log[..32]));
}

#[test]
fn record_n_is_5_for_any_n_beyond_the_log() {
    let log = [0; 64];
    for n in [
        2,
        1 << 27,
        1 << 31,
        1 << 32,
        // 32n wraps to 0 or a little more in 64 bits.
        1 << 59,
        (1 << 59) + 1,
        1 << 60,
        1 << 63,
        u64::MAX / 32,
        u64::MAX / 32 + 1,
        u64::MAX - 1,
        u64::MAX,
    ] {
        assert_eq!(record_at(&log, n), Err(5), "{n}");
    }
}

#[test]
fn apply_does_what_the_call_does() {
    let mut rng = Rng::new(23);
    for _ in 0..20_000 {
        let before = any_state(&mut rng);
        let event = any_event(&mut rng);
        let mut called = before;
        let result = match &event {
            Event::Write { index, value } => (called.write(*index, *value), 0),
            Event::Read { index } => called.read(*index),
            Event::Sample(s) => (called.sample(s), 0),
            Event::Chassis => (called.chassis_opened(), 0),
        };
        let mut applied = before;
        assert_eq!(applied.apply(&event), result);
        assert_eq!(applied, called);
    }
}

#[test]
fn applying_a_bad_sample_is_3() {
    let mut m = Monitor::power_on();
    let before = m;
    let event = Event::Sample(common::at_temperature(3, -257));
    assert_eq!(m.apply(&event), (3, 0));
    assert_eq!(m, before);
}

/// Writes 47h, reads 41h, takes a sample, opens the chassis.
fn good_log() -> Vec<u8> {
    let events = [
        Event::Write {
            index: 0x47,
            value: 0xF0,
        },
        Event::Read { index: 0x41 },
        Event::Sample(CALM),
        Event::Chassis,
    ];
    events.iter().flat_map(record_of).collect()
}

#[test]
fn replay_of_a_good_log_accepts_every_record() {
    let mut m = Monitor::power_on();
    assert_eq!(m.replay(&good_log()), (0, 4));
    assert_eq!(m.look(0x47), (0, 0xF0));
    assert_eq!(m.look(0x42), (0, 0x10));
    let before = m;
    assert_eq!(m.replay(&[]), (0, 0));
    assert_eq!(m, before);
}

#[test]
fn replay_stops_at_the_first_refused_record() {
    let mut refused = [[0; 32]; 5];
    // A read of 00h, a write to 41h, a bad temperature, kind 5, kind 4 with 1.
    refused[0][..2].copy_from_slice(&[2, 0x00]);
    refused[1][..3].copy_from_slice(&[1, 0x41, 0xFF]);
    refused[2][0] = 3;
    refused[2][11] = 0x7F;
    refused[3][0] = 5;
    refused[4][..2].copy_from_slice(&[4, 1]);
    for (record, answer) in refused.iter().zip([1, 2, 3, 5, 5]) {
        let mut log = good_log();
        log.extend_from_slice(record);
        log.extend_from_slice(&record_of(&Event::Write {
            index: 0x46,
            value: 0x80,
        }));
        let mut m = Monitor::power_on();
        assert_eq!(m.replay(&log), (answer, 4));
        // The state is that after the four records before it.
        let mut expected = Monitor::power_on();
        assert_eq!(expected.replay(&good_log()), (0, 4));
        assert_eq!(m, expected);
    }
}

#[test]
fn replay_answers_4_for_a_sample_in_standby() {
    let mut log = Vec::new();
    log.extend_from_slice(&record_of(&Event::Write {
        index: 0x40,
        value: 0x00,
    }));
    log.extend_from_slice(&record_of(&Event::Sample(CALM)));
    let mut m = Monitor::power_on();
    assert_eq!(m.replay(&log), (4, 1));
}

#[test]
fn a_part_of_a_record_at_the_end_is_5() {
    for length in 1..32 {
        let mut log = good_log();
        log.extend_from_slice(&record_of(&Event::Chassis)[..length]);
        let mut m = Monitor::power_on();
        assert_eq!(m.replay(&log), (5, 4));
        assert_eq!(m.look(0x47), (0, 0xF0));
        let mut m = Monitor::power_on();
        let before = m;
        assert_eq!(m.replay(&log[..length]), (5, 0));
        assert_eq!(m, before);
    }
}

#[test]
fn replay_is_the_events_one_after_another() {
    let mut rng = Rng::new(24);
    for _ in 0..2_000 {
        let mut replayed = any_state(&mut rng);
        let mut stepped = replayed;
        let events: Vec<Event> = (0..rng.below(40)).map(|_| any_event(&mut rng)).collect();
        let log: Vec<u8> = events.iter().flat_map(record_of).collect();
        let mut expected = (0, 0);
        for event in &events {
            let before = stepped;
            let (answer, _) = stepped.apply(event);
            if answer != 0 {
                assert_eq!(stepped, before);
                expected.0 = answer;
                break;
            }
            expected.1 += 1;
        }
        assert_eq!(replayed.replay(&log), expected);
        assert_eq!(replayed, stepped);
    }
}
