//! Commissioning: the only operation that sets an offset of the W83L784R.

mod common;

use common::w83l784r::{any_state, at, sample_at, stored};
use common::Rng;
use reference::w83l784r::Monitor;

#[test]
fn commissioning_changes_one_byte_alone() {
    let mut rng = Rng::new(181);
    for sensor in 1..=3 {
        for offset in -128..=127_i8 {
            let before = any_state(&mut rng);
            let mut expected = before;
            expected.registers[at(0x8F + sensor)] = offset.to_be_bytes()[0];
            let mut m = before;
            assert_eq!(m.commission(sensor, offset), 0);
            assert_eq!(m, expected);
            assert_eq!(m.look(0x8F + sensor).1, offset as u8);
        }
    }
}

#[test]
fn another_sensor_answers_7_and_changes_nothing() {
    let mut rng = Rng::new(182);
    for sensor in (0..=0).chain(4..=255) {
        let before = any_state(&mut rng);
        let mut m = before;
        assert_eq!(m.commission(sensor, rng.byte() as i8), 7);
        assert_eq!(m, before);
    }
}

#[test]
fn commissioning_works_in_standby_and_waits_for_a_sample() {
    for configuration in [0x00, 0x02, 0x03, 0x01] {
        for sensor in 1..=3 {
            let mut m = Monitor::power_on();
            sample_at(&mut m, sensor, 20);
            assert_eq!(m.write(0x40, configuration), 0);
            assert_eq!(m.commission(sensor, -7), 0);
            assert_eq!(stored(&m, sensor), 20);
            assert_eq!(m.write(0x40, 0x01), 0);
            assert_eq!(stored(&m, sensor), 20);
            sample_at(&mut m, sensor, 20);
            assert_eq!(stored(&m, sensor), 13);
        }
    }
}

#[test]
fn no_bus_write_and_no_reset_changes_an_offset() {
    let mut m = Monitor::power_on();
    for (sensor, offset) in [(1, 5), (2, -6), (3, 127)] {
        assert_eq!(m.commission(sensor, offset), 0);
    }
    let offsets = [(0, 0x05), (0, 0xFA), (0, 0x7F)];
    for index in 0..=255 {
        for value in [0x00, 0x55, 0xAA, 0xFF] {
            m.write(index, value);
            for sensor in 0..=5 {
                m.write_sensor(sensor, index, u16::from_be_bytes([value, value]));
            }
            assert_eq!([0x90, 0x91, 0x92].map(|index| m.look(index)), offsets);
        }
    }
    assert_eq!(m.write(0x40, 0x80), 0);
    assert_eq!([0x90, 0x91, 0x92].map(|index| m.look(index)), offsets);
}
