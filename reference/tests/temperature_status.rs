//! Temperature status: comparator and two-times mode of each sensor.

mod common;

use common::{at_temperature, peek, poke, quiet, select, set_limits, take_status, CALM};
use reference::w83782d::Monitor;
use reference::Mark;

/// Sets the status mode of a sensor and limits over 80, hysteresis 75 degrees
/// (sensor 1 in comparator mode has hysteresis 127).
fn set_up(sensor: u8, comparator: bool) -> Monitor {
    let mut m = quiet();
    set_limits(&mut m, sensor, 160, 150);
    set_mode(&mut m, sensor, comparator);
    m
}

fn set_mode(m: &mut Monitor, sensor: u8, comparator: bool) {
    let answer = match (sensor, comparator) {
        (1, true) => m.write(0x3A, 127),
        (1, false) => m.write(0x3A, 75),
        (_, true) => m.write(0x4C, 0x40),
        (_, false) => m.write(0x4C, 0x00),
    };
    assert_eq!(answer, 0);
}

/// Runs samples; each latches or not, and leaves the sensor hot or armed.
fn run(m: &mut Monitor, sensor: u8, steps: &[(i16, bool, Mark)]) {
    for (n, (half_degrees, latches, mark)) in steps.iter().enumerate() {
        assert_eq!(m.sample(&at_temperature(sensor, *half_degrees)), 0);
        assert_eq!(take_status(m, sensor), *latches, "sensor {sensor} step {n}");
        let place = usize::from(sensor) - 1;
        assert_eq!(m.status_mark[place], *mark, "sensor {sensor} step {n}");
    }
}

use Mark::{Armed, Hot};

#[test]
fn comparator_mode_latches_at_each_sample_above_and_ignores_hysteresis() {
    for sensor in 1..=3 {
        let mut m = set_up(sensor, true);
        run(
            &mut m,
            sensor,
            &[
                (158, false, Armed),
                (160, false, Armed),
                (162, true, Hot),
                (170, true, Hot),
                (162, true, Hot),
                (160, false, Armed),
                (156, false, Armed),
                (140, false, Armed),
                (162, true, Hot),
            ],
        );
    }
}

#[test]
fn two_times_mode_latches_above_over_and_then_below_hysteresis() {
    for sensor in 1..=3 {
        let mut m = set_up(sensor, false);
        run(
            &mut m,
            sensor,
            &[
                (140, false, Armed),
                (160, false, Armed),
                (162, true, Hot),
                (170, false, Hot),
                (156, false, Hot),
                (150, false, Hot),
                (148, true, Armed),
                (140, false, Armed),
                (156, false, Armed),
                (162, true, Hot),
                (100, true, Armed),
            ],
        );
    }
}

#[test]
fn two_times_mode_makes_one_step_a_sample() {
    // Hysteresis above the over limit: one value is above and below at once.
    for sensor in 1..=3 {
        let mut m = quiet();
        set_limits(&mut m, sensor, 100, 120);
        run(
            &mut m,
            sensor,
            &[(110, true, Hot), (110, true, Armed), (110, true, Hot)],
        );
    }
}

#[test]
fn a_status_bit_not_yet_read_stays_and_the_mark_moves_all_the_same() {
    for sensor in 1..=3 {
        let mut m = set_up(sensor, false);
        for half_degrees in [162, 148] {
            assert_eq!(m.sample(&at_temperature(sensor, half_degrees)), 0);
        }
        assert_eq!(m.status_mark[usize::from(sensor) - 1], Armed);
        assert!(take_status(&mut m, sensor));
        assert!(!take_status(&mut m, sensor));
    }
}

#[test]
fn a_mode_write_moves_no_mark() {
    for sensor in 1..=3 {
        // Hot in comparator mode, then two-times: above is no news, below is.
        let mut m = set_up(sensor, true);
        run(&mut m, sensor, &[(162, true, Hot)]);
        set_mode(&mut m, sensor, false);
        assert_eq!(m.status_mark[usize::from(sensor) - 1], Hot);
        run(&mut m, sensor, &[(162, false, Hot), (148, true, Armed)]);
        // Armed by the last sample in comparator mode, then two-times.
        set_mode(&mut m, sensor, true);
        run(&mut m, sensor, &[(162, true, Hot), (156, false, Armed)]);
        set_mode(&mut m, sensor, false);
        run(&mut m, sensor, &[(148, false, Armed), (162, true, Hot)]);
        // Hot in two-times mode, then comparator between the limits: armed.
        set_mode(&mut m, sensor, true);
        assert_eq!(m.status_mark[usize::from(sensor) - 1], Hot);
        run(&mut m, sensor, &[(156, false, Armed)]);
    }
}

#[test]
fn sensor_1_is_in_comparator_mode_only_when_3ah_is_exactly_127() {
    for (hysteresis, comparator) in [(126_u8, false), (127, true), (128, false), (255, false)] {
        let mut m = quiet();
        assert_eq!(m.write(0x39, 80), 0);
        // 7Ah is the same register.
        assert_eq!(m.write(0x7A, hysteresis), 0);
        let hot = at_temperature(1, 2 * 127);
        assert_eq!(m.sample(&hot), 0);
        assert!(take_status(&mut m, 1));
        assert_eq!(m.sample(&hot), 0);
        assert_eq!(take_status(&mut m, 1), comparator, "3Ah {hysteresis}");
    }
}

#[test]
fn the_mode_of_sensor_1_is_not_4ch_and_that_of_2_and_3_not_3ah() {
    let mut m = quiet();
    set_limits(&mut m, 1, 160, 150);
    assert_eq!(m.write(0x4C, 0x40), 0);
    run(&mut m, 1, &[(162, true, Hot), (162, false, Hot)]);
    for sensor in [2, 3] {
        let mut m = quiet();
        set_limits(&mut m, sensor, 160, 150);
        assert_eq!(m.write(0x3A, 127), 0);
        run(&mut m, sensor, &[(162, true, Hot), (162, false, Hot)]);
        // Nor is it the OVT mode.
        let mut m = quiet();
        set_limits(&mut m, sensor, 160, 150);
        poke(&mut m, sensor - 1, 0x52, 0x02);
        run(&mut m, sensor, &[(162, true, Hot), (162, false, Hot)]);
    }
}

#[test]
fn bit_6_of_4ch_sets_both_sensors_and_each_keeps_its_own_mark() {
    let mut m = quiet();
    for sensor in [2, 3] {
        set_limits(&mut m, sensor, 160, 150);
    }
    let mut s = CALM;
    s.t2 = 161;
    assert_eq!(m.sample(&s), 0);
    assert_eq!(m.status_mark, [Armed, Hot, Armed]);
    assert_eq!(m.read(0x41), (0, 0x20));
    s.t3 = 161;
    assert_eq!(m.sample(&s), 0);
    assert_eq!(m.status_mark, [Armed, Hot, Hot]);
    assert_eq!(m.read(0x41), (0, 0x00));
    assert_eq!(m.read(0x42), (0, 0x20));
    assert_eq!(m.write(0x4C, 0x40), 0);
    assert_eq!(m.sample(&s), 0);
    assert_eq!(m.read(0x41), (0, 0x20));
    assert_eq!(m.read(0x42), (0, 0x20));
}

#[test]
fn a_temperature_below_hysteresis_latches_status_and_not_real_time() {
    let mut m = set_up(2, false);
    run(&mut m, 2, &[(162, true, Hot)]);
    assert_eq!(m.sample(&at_temperature(2, 100)), 0);
    assert_eq!(peek(&m, 4, 0x59), 0x00);
    assert_eq!(m.read(0x41), (0, 0x20));
}

#[test]
fn refused_samples_move_no_mark() {
    for sensor in 1..=3 {
        let mut m = set_up(sensor, false);
        assert_eq!(m.write(0x40, 0x00), 0);
        assert_eq!(m.sample(&at_temperature(sensor, 162)), 4);
        assert_eq!(m.status_mark, [Armed; 3]);
        assert_eq!(m.write(0x40, 0x01), 0);
        select(&mut m, 3);
        run(&mut m, sensor, &[(162, true, Hot)]);
    }
}
