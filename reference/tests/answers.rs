//! Every refusal: its number, its place before other refusals, and the state
//! that it leaves.

mod common;

use common::{any_sample, any_state, at, select, Rng, CALM};
use reference::w83782d::{decode, millivolts, write_record, Event, Monitor};
use reference::{answer, plan, Speed};

#[test]
fn the_named_answers_are_the_papers_numbers() {
    assert_eq!(answer::ACCEPTED, 0);
    assert_eq!(answer::NO_REGISTER, 1);
    assert_eq!(answer::READ_ONLY, 2);
    assert_eq!(answer::BAD_TEMPERATURE, 3);
    assert_eq!(answer::NOT_MONITORING, 4);
    assert_eq!(answer::BAD_RECORD, 5);
    assert_eq!(answer::BAD_SPEED, 6);
    assert_eq!(answer::NO_CHANNEL, 7);
    assert_eq!(answer::BAD_BUFFER, 8);
}

#[test]
fn answer_1_comes_before_2() {
    // 50h of bank 1 is read-only and answers 2; in an absent bank it answers 1.
    let mut m = Monitor::power_on();
    select(&mut m, 1);
    assert_eq!(m.write(0x50, 0), 2);
    select(&mut m, 3);
    assert_eq!(m.write(0x50, 0), 1);
    select(&mut m, 0);
    assert_eq!(m.write(0x50, 0), 1);
    assert_eq!(m.write(0x58, 0), 2);
}

#[test]
fn every_read_only_register_answers_2_to_a_write() {
    let mut m = Monitor::power_on();
    let readings = (0x20..=0x2A).chain(0x60..=0x6A);
    for index in readings.chain([0x41, 0x42, 0x49, 0x4F, 0x58]) {
        assert_eq!(m.write(index, 0xFF), 2, "{index:02X}h");
    }
    for (bank, first) in [(1, 0x50), (2, 0x50), (4, 0x59)] {
        select(&mut m, bank);
        assert_eq!(m.write(first, 0xFF), 2);
        assert_eq!(m.write(first + 1, 0xFF), 2);
    }
}

#[test]
fn a_temperature_outside_nine_bits_is_3_also_in_standby() {
    for configuration in [0x01, 0x00, 0x08, 0x09] {
        let mut m = Monitor::power_on();
        assert_eq!(m.write(0x40, configuration), 0);
        let before = m;
        for bad in [-257, 256, i16::MIN, i16::MAX] {
            for sensor in [2, 3] {
                let s = common::at_temperature(sensor, bad);
                assert_eq!(m.sample(&s), 3);
                assert_eq!(m, before);
            }
        }
    }
}

#[test]
fn samples_are_taken_only_while_40h_bit_0_is_1_and_bit_3_is_0() {
    let mut rng = Rng::new(8);
    for configuration in 0..=255_u8 {
        let mut m = any_state(&mut rng);
        m.registers[at(0, 0x40)] = configuration;
        let before = m;
        let runs = configuration & 1 == 1 && configuration & 8 == 0;
        assert_eq!(m.sample(&CALM), if runs { 0 } else { 4 });
        if !runs {
            assert_eq!(m, before);
        }
    }
}

#[test]
fn the_edges_of_nine_bits_are_accepted() {
    let mut m = Monitor::power_on();
    for (t2, t3) in [(-256, 255), (255, -256)] {
        let mut s = CALM;
        (s.t2, s.t3) = (t2, t3);
        assert_eq!(m.sample(&s), 0);
        assert_eq!(m.temperature(2), (0, i32::from(t2)));
        assert_eq!(m.temperature(3), (0, i32::from(t3)));
    }
}

#[test]
fn a_bad_fan_is_7_before_a_bad_speed_is_6() {
    let mut rng = Rng::new(9);
    let mut m = any_state(&mut rng);
    let before = m;
    for fan in [0, 4, 255] {
        for rpm in [0, 1_350_001, u32::MAX, 4_400] {
            assert_eq!(m.set_plan(fan, rpm), 7);
        }
    }
    for fan in 1..=3 {
        for rpm in [0, 1_350_001, u32::MAX] {
            assert_eq!(m.set_plan(fan, rpm), 6);
            assert_eq!(plan(rpm).0, 6);
        }
    }
    assert_eq!(m, before);
}

#[test]
fn a_fan_or_sensor_not_1_to_3_is_refused() {
    let m = Monitor::power_on();
    for number in (0..=0).chain(4..=255) {
        assert_eq!(m.speed(number), Speed::Refused);
        assert_eq!(m.speed(number).answer(), 7);
        assert_eq!(m.temperature(number), (7, 0));
    }
    for number in 1..=3 {
        assert_eq!(m.speed(number), Speed::TooFast);
        assert_eq!(m.speed(number).answer(), 0);
        assert_eq!(m.temperature(number), (0, 0));
    }
}

#[test]
fn a_number_too_fast_and_too_slow_are_answered_0() {
    for speed in [Speed::Tenths(1), Speed::TooFast, Speed::TooSlow] {
        assert_eq!(speed.answer(), 0);
    }
}

#[test]
fn a_channel_not_0_to_6_is_7_with_reading_0() {
    for channel in 7..=255 {
        assert_eq!(millivolts(channel, 200, 232, 56), (7, 0));
    }
}

#[test]
fn resistors_are_looked_at_for_channels_5_and_6_only() {
    let bad = [
        (0, 56),
        (232, 0),
        (1001, 56),
        (232, 1001),
        (u32::MAX, u32::MAX),
    ];
    for (r5, r6) in bad {
        for channel in 0..=4 {
            assert_eq!(millivolts(channel, 0, r5, r6), (0, 0));
        }
        for channel in 5..=6 {
            assert_eq!(millivolts(channel, 100, r5, r6), (7, 0));
        }
    }
    for (r5, r6) in [(1, 1), (1, 1000), (1000, 1), (1000, 1000)] {
        for channel in 5..=6 {
            assert_eq!(millivolts(channel, 100, r5, r6).0, 0);
        }
    }
}

#[test]
fn a_bad_buffer_is_8_before_a_bad_temperature_is_3() {
    let bad = Event::Sample(common::at_temperature(2, 256));
    for length in [0, 1, 31, 33, 64] {
        let mut buffer = vec![0xEE; length];
        assert_eq!(write_record(&bad, &mut buffer), 8);
        assert_eq!(write_record(&Event::Chassis, &mut buffer), 8);
        assert_eq!(buffer, vec![0xEE; length]);
    }
    let mut buffer = [0xEE; 32];
    assert_eq!(write_record(&bad, &mut buffer), 3);
    assert_eq!(buffer, [0xEE; 32]);
}

#[test]
fn a_malformed_record_is_5_before_a_bad_temperature_is_3() {
    let mut record = [0; 32];
    record[0] = 3;
    // Sensor 2 at 256 half degrees.
    record[9] = 0x01;
    assert_eq!(decode(&record), Err(3));
    record[31] = 1;
    assert_eq!(decode(&record), Err(5));
    record[31] = 0;
    assert_eq!(decode(&record[..31]), Err(5));
}

#[test]
fn refused_calls_leave_every_state_unchanged() {
    let mut rng = Rng::new(10);
    let mut refused = 0;
    for _ in 0..100_000 {
        let before = any_state(&mut rng);
        let mut m = before;
        let answer = match rng.below(4) {
            0 => m.write(rng.byte(), rng.byte()),
            1 => {
                let (answer, byte) = m.read(rng.byte());
                assert!(answer == 0 || byte == 0);
                answer
            }
            2 => {
                let mut s = any_sample(&mut rng);
                if rng.coin() {
                    s.t3 = rng.next() as i16;
                }
                m.sample(&s)
            }
            _ => m.set_plan(rng.below(6) as u8, rng.below(2_000_000) as u32),
        };
        if answer != 0 {
            refused += 1;
            assert_eq!(m, before);
        }
    }
    assert!(refused > 10_000);
}
