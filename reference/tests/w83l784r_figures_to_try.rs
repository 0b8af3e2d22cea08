//! The thirteen figures of the C-16 table, section 10, each from power-on.

mod common;

use common::w83l784r::{at_degrees, sample_at, CALM};
use reference::w83l784r::{Monitor, Sample};

/// Gives three temperatures in a sample, all else zero.
fn three(m: &mut Monitor, degrees: [i8; 3]) {
    assert_eq!(m.sample(&Sample { degrees, ..CALM }), 0);
}

fn write(m: &mut Monitor, index: u8, value: u8) {
    assert_eq!(m.write(index, value), 0, "{index:02X}h");
}

fn shows(m: &Monitor, index: u8, byte: u8) {
    assert_eq!(m.look(index), (0, byte), "{index:02X}h");
}

fn set_shows(m: &Monitor, sensor: u8, index: u8, word: u16) {
    assert_eq!(m.look_sensor(sensor, index), (0, word), "{index:02X}h");
}

#[test]
fn figure_1_every_bit_written() {
    let mut m = Monitor::power_on();
    for index in (0x00..=0x3F).chain(0x41..=0xFF) {
        m.write(index, 0xFF);
    }
    m.write(0x40, 0x7F);
    for sensor in [2, 3] {
        for index in 0x00..=0xFF {
            m.write_sensor(sensor, index, 0xFFFF);
        }
    }
    for (index, byte) in [
        (0x40, 0x0B),
        (0x43, 0xEF),
        (0x44, 0x0F),
        (0x49, 0x77),
        (0x4A, 0x7F),
        (0x4B, 0xFF),
        (0x4F, 0x7F),
        (0x50, 0x3F),
        (0x51, 0x0F),
        (0x53, 0x0F),
        (0x54, 0x35),
        (0x55, 0x07),
        (0x84, 0x3F),
        (0x85, 0xFF),
        (0x90, 0x00),
    ] {
        shows(&m, index, byte);
    }
    for sensor in [2, 3] {
        set_shows(&m, sensor, 0x01, 0x0019);
        set_shows(&m, sensor, 0x02, 0xFF80);
        set_shows(&m, sensor, 0x03, 0xFF80);
    }
    // "this stops it: bit 1"
    assert_eq!(m.sample(&CALM), 4);
}

#[test]
fn figure_2_offsets() {
    let mut m = Monitor::power_on();
    assert_eq!(m.commission(2, 0xFB_u8 as i8), 0);
    three(&mut m, [10, 10, 10]);
    shows(&m, 0x27, 0x0A);
    set_shows(&m, 2, 0x00, 0x0500);
    set_shows(&m, 3, 0x00, 0x0A00);
    assert_eq!(m.commission(1, 0x80_u8 as i8), 0);
    assert_eq!(m.commission(3, 0x7F), 0);
    three(&mut m, [-1, -128, 1]);
    shows(&m, 0x27, 0x80);
    set_shows(&m, 2, 0x00, 0x8000);
    set_shows(&m, 3, 0x00, 0x7F00);
    assert_eq!(m.commission(1, 0x3F), 0);
    three(&mut m, [-1, 0, 0]);
    shows(&m, 0x27, 0x3E);
}

#[test]
fn figure_3_acpi_mode() {
    let mut m = Monitor::power_on();
    write(&mut m, 0x50, 0x2E);
    for (degrees, asserted, quotient) in [
        (4, false, 0),
        (5, true, 1),
        (9, false, 1),
        (10, true, 2),
        (4, true, 0),
        (-1, true, -1),
        (-5, false, -1),
        (-6, true, -2),
        (0, true, 0),
    ] {
        sample_at(&mut m, 1, degrees);
        assert_eq!(m.ovt(1), asserted, "{degrees} degrees");
        assert_eq!(m.quotient[0], quotient, "{degrees} degrees");
        // Sensors 2 and 3 stay at 0, and all three are enabled.
        assert_eq!(m.ovt_pin(), asserted, "{degrees} degrees");
    }
}

#[test]
fn figure_4_from_comparator_mode_to_acpi_mode() {
    let mut m = Monitor::power_on();
    write(&mut m, 0x39, 10);
    write(&mut m, 0x3A, 5);
    sample_at(&mut m, 1, 12);
    assert!(m.ovt(1));
    assert_eq!(m.quotient[0], 2);
    write(&mut m, 0x50, 0x22);
    assert!(m.ovt(1));
    sample_at(&mut m, 1, 13);
    assert!(!m.ovt(1));
    sample_at(&mut m, 1, 15);
    assert!(m.ovt(1));
    assert_eq!(m.read(0x27), (0, 15));
    assert!(m.ovt(1));
    sample_at(&mut m, 1, 16);
    assert!(!m.ovt(1));
}

#[test]
fn figure_5_the_step_changes() {
    let mut m = Monitor::power_on();
    write(&mut m, 0x50, 0x22);
    sample_at(&mut m, 1, 12);
    sample_at(&mut m, 1, 12);
    assert!(!m.ovt(1));
    assert_eq!(m.quotient[0], 2);
    write(&mut m, 0x4F, 4);
    sample_at(&mut m, 1, 12);
    assert!(m.ovt(1));
    assert_eq!(m.quotient[0], 3);
    write(&mut m, 0x4F, 0);
    sample_at(&mut m, 1, 50);
    assert!(!m.ovt(1));
    assert_eq!(m.quotient[0], 0);
    write(&mut m, 0x4F, 5);
    sample_at(&mut m, 1, 3);
    assert!(!m.ovt(1));
    sample_at(&mut m, 1, 5);
    assert!(m.ovt(1));
}

#[test]
fn figure_6_a_half_degree_in_the_limit() {
    let mut m = Monitor::power_on();
    assert_eq!(m.write_sensor(2, 0x03, 0x50FF), 0);
    set_shows(&m, 2, 0x03, 0x5080);
    sample_at(&mut m, 2, 80);
    shows(&m, 0x45, 0x00);
    sample_at(&mut m, 2, 81);
    shows(&m, 0x45, 0x40);
}

#[test]
fn figure_7_the_four_status_modes() {
    let two_times = [true, false, false, true, false, true];
    for (mode, latched) in [
        (0b00, [true, true, false, false, false, true]),
        (0b01, two_times),
        (0b10, [true, false, false, false, false, true]),
        (0b11, two_times),
    ] {
        let mut m = Monitor::power_on();
        write(&mut m, 0x51, mode << 2);
        for (degrees, latched) in [81, 81, 76, 70, 70, 81].into_iter().zip(latched) {
            sample_at(&mut m, 2, degrees);
            let expected = if latched { 0x40 } else { 0x00 };
            assert_eq!(m.read(0x41).1 & 0x40, expected, "mode {mode:02b}");
        }
    }
}

#[test]
fn figure_8_a_hysteresis_of_127_is_a_limit_like_any_other() {
    let mut m = Monitor::power_on();
    write(&mut m, 0x39, 50);
    write(&mut m, 0x3A, 127);
    sample_at(&mut m, 1, 60);
    assert_eq!(m.read(0x41), (0, 0x20));
    sample_at(&mut m, 1, 40);
    assert_eq!(m.read(0x41), (0, 0x20));
}

#[test]
fn figure_9_the_releasing_read() {
    let mut m = Monitor::power_on();
    write(&mut m, 0x50, 0x1E);
    sample_at(&mut m, 2, 90);
    assert!(m.ovt(2));
    assert_eq!(m.read_sensor(2, 0x02), (0, 0x4B00));
    assert!(m.ovt(2));
    assert_eq!(m.read_sensor(3, 0x00), (0, 0x0000));
    assert!(m.ovt(2));
    assert_eq!(m.read_sensor(2, 0x00), (0, 0x5A00));
    assert!(!m.ovt(2));
    sample_at(&mut m, 2, 90);
    assert!(!m.ovt(2));
    sample_at(&mut m, 2, 74);
    assert!(m.ovt(2));
}

#[test]
fn figure_10_plans_and_crossings() {
    let mut m = Monitor::power_on();
    write(&mut m, 0x49, 0x77);
    assert_eq!(m.set_plan(1, 4_400), 0);
    shows(&m, 0x49, 0x71);
    shows(&m, 0x3B, 0x98);
    assert_eq!(m.set_plan(2, 4_400), 0);
    shows(&m, 0x49, 0x11);
    shows(&m, 0x3C, 0x98);
    for (u, real_time, status) in [
        (305, 0x00, 0x00),
        (306, 0x02, 0x02),
        (306, 0x02, 0x00),
        (305, 0x00, 0x02),
        (305, 0x00, 0x00),
    ] {
        assert_eq!(m.sample(&Sample { u: [0, u], ..CALM }), 0);
        shows(&m, 0x46, real_time);
        assert_eq!(m.read(0x42), (0, status), "u {u}");
    }
}

#[test]
fn figure_11_smi() {
    let mut m = Monitor::power_on();
    let one_degree = at_degrees(1, 1);
    assert_eq!(m.sample(&one_degree), 0);
    assert!(!m.smi());
    write(&mut m, 0x51, 0x06);
    assert!(m.smi());
    write(&mut m, 0x40, 0x03);
    assert!(!m.smi());
    assert_eq!(m.sample(&one_degree), 4);
    write(&mut m, 0x40, 0x00);
    assert!(m.smi());
    assert_eq!(m.sample(&one_degree), 4);
    write(&mut m, 0x40, 0x09);
    assert_eq!(m.sample(&one_degree), 0);
    assert!(m.smi());
    write(&mut m, 0x43, 0x20);
    assert!(!m.smi());
}

#[test]
fn figure_12_nothing_is_disabled() {
    let mut m = Monitor::power_on();
    write(&mut m, 0x52, 0xFF);
    write(&mut m, 0x4B, 0xFF);
    write(&mut m, 0x54, 0x00);
    assert_eq!(m.write_sensor(2, 0x01, 0x19), 0);
    let s = Sample {
        codes: [9; 4],
        degrees: [0, 90, 90],
        u: [300; 2],
    };
    assert_eq!(m.sample(&s), 0);
    shows(&m, 0x45, 0xCF);
    shows(&m, 0x46, 0x03);
    shows(&m, 0x28, 0x96);
    set_shows(&m, 2, 0x00, 0x5A00);
}

#[test]
fn figure_13_reset() {
    let mut m = Monitor::power_on();
    write(&mut m, 0x4A, 0x11);
    write(&mut m, 0x4B, 0x55);
    assert_eq!(m.commission(1, 5), 0);
    let s = Sample {
        degrees: [1, 2, 3],
        u: [10; 2],
        ..CALM
    };
    assert_eq!(m.sample(&s), 0);
    write(&mut m, 0x40, 0xFF);
    for (index, byte) in [
        (0x4A, 0x11),
        (0x4B, 0x01),
        (0x90, 0x05),
        (0x27, 0x06),
        (0x28, 0x05),
        (0x45, 0x00),
        (0x41, 0x00),
        (0x40, 0x01),
    ] {
        shows(&m, index, byte);
    }
    set_shows(&m, 3, 0x00, 0x0300);
}
