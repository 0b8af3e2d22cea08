//! OVT of sensors 2 and 3: comparator and interrupt mode, the releasing read.

mod common;

use common::{at_temperature, poke, quiet, select, set_limits, CALM};
use reference::w83782d::Monitor;
use reference::Mark::{Armed, Hot};

/// Over limit 80, hysteresis 75 degrees, OVT mode by bank's 52h bit 1.
fn set_up(sensor: u8, interrupt: bool) -> Monitor {
    let mut m = quiet();
    set_limits(&mut m, sensor, 160, 150);
    set_mode(&mut m, sensor, interrupt);
    m
}

fn set_mode(m: &mut Monitor, sensor: u8, interrupt: bool) {
    poke(m, sensor - 1, 0x52, if interrupt { 0x02 } else { 0x00 });
}

fn sample(m: &mut Monitor, sensor: u8, half_degrees: i16) {
    assert_eq!(m.sample(&at_temperature(sensor, half_degrees)), 0);
}

/// Reads an index of a bank.
fn read(m: &mut Monitor, bank: u8, index: u8) -> u8 {
    select(m, bank);
    let (answer, byte) = m.read(index);
    assert_eq!(answer, 0);
    select(m, 0);
    byte
}

fn mark(m: &Monitor, sensor: u8) -> reference::Mark {
    m.ovt_mark[usize::from(sensor) - 2]
}

#[test]
fn comparator_mode_asserts_above_releases_below_and_stays_between() {
    for sensor in [2, 3] {
        let mut m = set_up(sensor, false);
        for (half_degrees, asserted, hot) in [
            (149, false, Armed),
            (155, false, Armed),
            (160, false, Armed),
            (161, true, Hot),
            (170, true, Hot),
            (160, true, Armed),
            (155, true, Armed),
            (150, true, Armed),
            (149, false, Armed),
            (155, false, Armed),
            (161, true, Hot),
        ] {
            sample(&mut m, sensor, half_degrees);
            assert_eq!(m.ovt(sensor), asserted, "sensor {sensor} {half_degrees}");
            assert_eq!(mark(&m, sensor), hot, "sensor {sensor} {half_degrees}");
            assert!(!m.ovt(5 - sensor));
        }
    }
}

#[test]
fn comparator_mode_above_wins_over_below() {
    for sensor in [2, 3] {
        let mut m = quiet();
        set_limits(&mut m, sensor, 100, 120);
        for _ in 0..3 {
            sample(&mut m, sensor, 110);
            assert!(m.ovt(sensor));
        }
        sample(&mut m, sensor, 100);
        assert!(!m.ovt(sensor));
    }
}

#[test]
fn a_read_in_comparator_mode_releases_nothing() {
    for sensor in [2, 3] {
        let mut m = set_up(sensor, false);
        sample(&mut m, sensor, 161);
        assert_eq!(read(&mut m, sensor - 1, 0x50), 80);
        assert!(m.ovt(sensor));
    }
}

#[test]
fn interrupt_mode_asserts_at_over_and_then_at_hysteresis_until_read() {
    for sensor in [2, 3] {
        let bank = sensor - 1;
        let mut m = set_up(sensor, true);
        // (half degrees, asserted by the sample, mark after it); then a read.
        for (half_degrees, asserts, hot) in [
            (149, false, Armed),
            (160, false, Armed),
            (161, true, Hot),
            (170, false, Hot),
            (155, false, Hot),
            (150, false, Hot),
            (149, true, Armed),
            (140, false, Armed),
            (161, true, Hot),
        ] {
            sample(&mut m, sensor, half_degrees);
            assert_eq!(m.ovt(sensor), asserts, "sensor {sensor} {half_degrees}");
            assert_eq!(mark(&m, sensor), hot);
            read(&mut m, bank, 0x50);
            assert!(!m.ovt(sensor));
            assert_eq!(mark(&m, sensor), hot);
        }
    }
}

#[test]
fn interrupt_mode_stays_asserted_without_a_read() {
    for sensor in [2, 3] {
        let mut m = set_up(sensor, true);
        for half_degrees in [161, 170, 155, 149, 100, 0] {
            sample(&mut m, sensor, half_degrees);
            assert!(m.ovt(sensor));
        }
        assert_eq!(mark(&m, sensor), Armed);
    }
}

#[test]
fn interrupt_mode_makes_one_step_a_sample() {
    for sensor in [2, 3] {
        let mut m = quiet();
        set_limits(&mut m, sensor, 100, 120);
        set_mode(&mut m, sensor, true);
        for hot in [Hot, Armed, Hot] {
            sample(&mut m, sensor, 110);
            assert!(m.ovt(sensor));
            assert_eq!(mark(&m, sensor), hot);
            read(&mut m, sensor - 1, 0x50);
        }
    }
}

#[test]
fn only_a_bus_read_of_that_banks_50h_releases() {
    for sensor in [2, 3] {
        let (bank, other) = (sensor - 1, 4 - sensor);
        let mut m = set_up(sensor, true);
        set_mode(&mut m, 5 - sensor, true);
        sample(&mut m, sensor, 161);
        for index in 0x51..=0x56 {
            read(&mut m, bank, index);
            assert!(m.ovt(sensor), "{index:02X}h");
        }
        read(&mut m, other, 0x50);
        assert!(m.ovt(sensor));
        select(&mut m, bank);
        assert_eq!(m.look(0x50), (0, 80));
        assert!(m.ovt(sensor));
        for refused in [0, 3, 4, 5, 6, 7] {
            select(&mut m, refused);
            assert_eq!(m.read(0x50), (1, 0));
            assert!(m.ovt(sensor));
        }
        assert_eq!(read(&mut m, bank, 0x50), 80);
        assert!(!m.ovt(sensor));
        assert_eq!(read(&mut m, bank, 0x51), 0x80);
    }
}

#[test]
fn the_releasing_read_works_in_standby() {
    for sensor in [2, 3] {
        let mut m = set_up(sensor, true);
        sample(&mut m, sensor, 161);
        assert_eq!(m.write(0x40, 0x00), 0);
        assert!(m.ovt(sensor));
        read(&mut m, sensor - 1, 0x50);
        assert!(!m.ovt(sensor));
    }
}

#[test]
fn a_mode_write_changes_no_output_and_no_mark() {
    for sensor in [2, 3] {
        let mut m = set_up(sensor, false);
        sample(&mut m, sensor, 161);
        set_mode(&mut m, sensor, true);
        assert!(m.ovt(sensor));
        assert_eq!(mark(&m, sensor), Hot);
        // The interrupt mode now set releases what comparator mode asserted.
        read(&mut m, sensor - 1, 0x50);
        assert!(!m.ovt(sensor));
        assert_eq!(mark(&m, sensor), Hot);
        // Hot from comparator mode: above is no news, below hysteresis is.
        sample(&mut m, sensor, 170);
        assert!(!m.ovt(sensor));
        sample(&mut m, sensor, 149);
        assert!(m.ovt(sensor));
        // Back to comparator mode: between the limits it stays asserted, and a
        // read releases nothing.
        set_mode(&mut m, sensor, false);
        read(&mut m, sensor - 1, 0x50);
        sample(&mut m, sensor, 155);
        assert!(m.ovt(sensor));
        sample(&mut m, sensor, 149);
        assert!(!m.ovt(sensor));
    }
}

#[test]
fn ovt_and_status_keep_marks_of_their_own() {
    let mut m = set_up(2, false);
    // Status two-times, OVT comparator.
    sample(&mut m, 2, 161);
    assert_eq!((m.status_mark[1], m.ovt_mark[0]), (Hot, Hot));
    sample(&mut m, 2, 155);
    assert_eq!((m.status_mark[1], m.ovt_mark[0]), (Hot, Armed));
    // Status comparator, OVT interrupt.
    let mut m = set_up(3, true);
    assert_eq!(m.write(0x4C, 0x40), 0);
    sample(&mut m, 3, 161);
    assert_eq!((m.status_mark[2], m.ovt_mark[1]), (Hot, Hot));
    sample(&mut m, 3, 155);
    assert_eq!((m.status_mark[2], m.ovt_mark[1]), (Armed, Hot));
}

#[test]
fn each_sensor_follows_its_own_mode_bit() {
    let mut m = quiet();
    for sensor in [2, 3] {
        set_limits(&mut m, sensor, 160, 150);
    }
    set_mode(&mut m, 3, true);
    let mut s = CALM;
    (s.t2, s.t3) = (161, 161);
    assert_eq!(m.sample(&s), 0);
    assert!(m.ovt(2) && m.ovt(3));
    (s.t2, s.t3) = (149, 149);
    read(&mut m, 2, 0x50);
    read(&mut m, 1, 0x50);
    assert!(m.ovt(2) && !m.ovt(3));
    assert_eq!(m.sample(&s), 0);
    assert!(!m.ovt(2) && m.ovt(3));
}

#[test]
fn power_on_and_reset_release_and_arm() {
    let m = Monitor::power_on();
    assert!(!m.ovt(2) && !m.ovt(3));
    assert_eq!(m.ovt_mark, [Armed; 2]);
    for sensor in [2, 3] {
        for interrupt in [false, true] {
            let mut m = set_up(sensor, interrupt);
            sample(&mut m, sensor, 161);
            assert!(m.ovt(sensor));
            assert_eq!(m.write(0x40, 0x81), 0);
            assert!(!m.ovt(sensor));
            assert_eq!(m.ovt_mark, [Armed; 2]);
        }
    }
}

#[test]
fn no_other_sensor_has_an_ovt_output() {
    let mut m = Monitor::power_on();
    m.ovt_asserted = [true; 2];
    for sensor in (0..=1).chain(4..=255) {
        assert!(!m.ovt(sensor));
    }
}
