//! What a read changes and what a look doesn't (request C-15; the C-16 table,
//! section 5).

mod common;

use common::w83l784r::{any_state, at, read_of, read_sensor_of, sample_at, CALM};
use common::Rng;
use reference::w83l784r::Monitor;

/// 50h bits 5-4 are 01.
fn interrupt_mode(m: &Monitor) -> bool {
    m.registers[at(0x50)] & 0b0011_0000 == 0b0001_0000
}

#[test]
fn a_read_of_the_main_device_changes_status_and_ovt_1_only() {
    let mut rng = Rng::new(121);
    for _ in 0..1_000 {
        let before = any_state(&mut rng);
        for index in 0..=255 {
            let mut expected = before;
            match index {
                0x41 | 0x42 => expected.registers[at(index)] = 0x00,
                0x27 | 0x67 if interrupt_mode(&before) => expected.ovt_asserted[0] = false,
                _ => {}
            }
            let mut m = before;
            m.read(index);
            assert_eq!(m, expected, "{index:02X}h");
        }
    }
}

#[test]
fn a_read_of_a_set_changes_that_sensors_ovt_only() {
    let mut rng = Rng::new(122);
    for _ in 0..1_000 {
        let before = any_state(&mut rng);
        for sensor in 0..=5 {
            for index in 0..=255 {
                let mut expected = before;
                if (sensor == 2 || sensor == 3) && index == 0x00 && interrupt_mode(&before) {
                    expected.ovt_asserted[usize::from(sensor) - 1] = false;
                }
                let mut m = before;
                m.read_sensor(sensor, index);
                assert_eq!(m, expected, "sensor {sensor} {index:02X}h");
            }
        }
    }
}

#[test]
fn a_look_gives_what_a_read_gives_and_changes_nothing() {
    let mut rng = Rng::new(123);
    for _ in 0..1_000 {
        let before = any_state(&mut rng);
        let m = before;
        for index in 0..=255 {
            assert_eq!(m.look(index), read_of(&before, index), "{index:02X}h");
            for sensor in 0..=5 {
                let read = read_sensor_of(&before, sensor, index);
                assert_eq!(m.look_sensor(sensor, index), read, "{sensor} {index:02X}h");
            }
        }
        assert_eq!(m, before);
    }
}

#[test]
fn looks_swallow_no_alarm() {
    let mut m = Monitor::power_on();
    assert_eq!(m.write(0x51, 0x06), 0);
    assert_eq!(m.write(0x50, 0x1E), 0);
    let mut s = CALM;
    s.degrees = [90; 3];
    s.u = [500; 2];
    assert_eq!(m.sample(&s), 0);
    for _ in 0..2 {
        assert_eq!(m.look(0x41), (0, 0xE0));
        assert_eq!(m.look(0x42), (0, 0x03));
        assert_eq!(m.look(0x27), (0, 90));
        assert_eq!(m.look_sensor(2, 0x00), (0, 0x5A00));
        assert_eq!(m.look_sensor(3, 0x00), (0, 0x5A00));
        assert_eq!(m.standing_alarms(), 5);
        assert!(m.smi() && m.ovt_pin());
        assert!(m.ovt(1) && m.ovt(2) && m.ovt(3));
    }
    assert_eq!(m.read(0x41), (0, 0xE0));
    assert_eq!(m.look(0x41), (0, 0x00));
}

#[test]
fn reading_41h_or_42h_clears_that_register_alone_in_standby_too() {
    for configuration in [0x01, 0x00, 0x03, 0x02] {
        let mut m = Monitor::power_on();
        m.registers[at(0x41)] = 0xFF;
        m.registers[at(0x42)] = 0xFF;
        assert_eq!(m.write(0x40, configuration), 0);
        assert_eq!(m.read(0x41), (0, 0xEF));
        assert_eq!(m.registers[at(0x41)], 0x00);
        assert_eq!(m.read(0x41), (0, 0x00));
        assert_eq!(m.registers[at(0x42)], 0xFF);
        assert_eq!(m.read(0x42), (0, 0x03));
        assert_eq!(m.registers[at(0x42)], 0x00);
    }
}

#[test]
fn real_time_bits_are_not_cleared_by_a_read() {
    let mut m = Monitor::power_on();
    sample_at(&mut m, 1, 1);
    for _ in 0..3 {
        assert_eq!(m.read(0x45), (0, 0x20));
    }
}
