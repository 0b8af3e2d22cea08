//! Temperature status of the W83L784R: comparator, two-times and one-time mode by
//! 51h bits 3-2, one mode for all three sensors.

mod common;

use common::w83l784r::{any_running_state, at, quiet, sample_at, set_limits, take_status, CALM};
use common::Rng;
use reference::w83l784r::Monitor;
use reference::Mark::{self, Armed, Hot};

fn set_mode(m: &mut Monitor, mode: u8) {
    assert_eq!(m.write(0x51, mode << 2), 0);
}

/// Over limit 80, hysteresis 75 degrees.
fn set_up(sensor: u8, mode: u8) -> Monitor {
    let mut m = quiet();
    set_limits(&mut m, sensor, 160, 150);
    set_mode(&mut m, mode);
    m
}

/// Runs samples; each latches or not, and leaves the sensor hot or armed.
fn run(m: &mut Monitor, sensor: u8, steps: &[(i8, bool, Mark)]) {
    for (n, (degrees, latches, mark)) in steps.iter().enumerate() {
        sample_at(m, sensor, *degrees);
        assert_eq!(take_status(m, sensor), *latches, "sensor {sensor} step {n}");
        let place = usize::from(sensor) - 1;
        assert_eq!(m.status_mark[place], *mark, "sensor {sensor} step {n}");
    }
}

#[test]
fn comparator_mode_latches_at_each_sample_above_and_ignores_hysteresis() {
    for sensor in 1..=3 {
        let mut m = set_up(sensor, 0b00);
        run(
            &mut m,
            sensor,
            &[
                (79, false, Armed),
                (80, false, Armed),
                (81, true, Hot),
                (90, true, Hot),
                (81, true, Hot),
                (80, false, Armed),
                (78, false, Armed),
                (70, false, Armed),
                (81, true, Hot),
            ],
        );
    }
}

#[test]
fn two_times_mode_latches_above_over_and_then_below_hysteresis() {
    for sensor in 1..=3 {
        for mode in [0b01, 0b11] {
            let mut m = set_up(sensor, mode);
            run(
                &mut m,
                sensor,
                &[
                    (70, false, Armed),
                    (80, false, Armed),
                    (81, true, Hot),
                    (85, false, Hot),
                    (78, false, Hot),
                    (75, false, Hot),
                    (74, true, Armed),
                    (70, false, Armed),
                    (78, false, Armed),
                    (81, true, Hot),
                    (50, true, Armed),
                ],
            );
        }
    }
}

#[test]
fn one_time_mode_latches_above_over_and_the_fall_re_arms_in_silence() {
    for sensor in 1..=3 {
        let mut m = set_up(sensor, 0b10);
        run(
            &mut m,
            sensor,
            &[
                (70, false, Armed),
                (81, true, Hot),
                (85, false, Hot),
                (78, false, Hot),
                (81, false, Hot),
                (75, false, Hot),
                (74, false, Armed),
                (78, false, Armed),
                (81, true, Hot),
                (50, false, Armed),
            ],
        );
    }
}

/// What a sample does to the mark and the status bit, written out: the mark, above
/// and below before; then whether it latches and the mark after, in comparator,
/// two-times and one-time mode.
type Step = (bool, Mark);
#[rustfmt::skip]
const STEPS: [(Mark, bool, bool, Step, Step, Step); 8] = [
    (Armed, false, false, (false, Armed), (false, Armed), (false, Armed)),
    (Armed, false, true,  (false, Armed), (false, Armed), (false, Armed)),
    (Armed, true,  false, (true,  Hot),   (true,  Hot),   (true,  Hot)),
    (Armed, true,  true,  (true,  Hot),   (true,  Hot),   (true,  Hot)),
    (Hot,   false, false, (false, Armed), (false, Hot),   (false, Hot)),
    (Hot,   false, true,  (false, Armed), (true,  Armed), (false, Armed)),
    (Hot,   true,  false, (true,  Hot),   (false, Hot),   (false, Hot)),
    (Hot,   true,  true,  (true,  Hot),   (true,  Armed), (false, Armed)),
];

#[test]
fn every_mode_with_every_mark_and_every_side() {
    for sensor in 1..=3_u8 {
        let place = usize::from(sensor) - 1;
        let bit = 1 << (5 + place);
        for mode in 0b00..=0b11 {
            for (mark, above, below, comparator, two_times, one_time) in STEPS {
                for latched_already in [false, true] {
                    let (latches, after) = match mode {
                        0b00 => comparator,
                        0b10 => one_time,
                        _ => two_times,
                    };
                    let mut m = quiet();
                    set_mode(&mut m, mode);
                    let over = if above { 98 } else { 100 };
                    let hysteresis = if below { 102 } else { 100 };
                    set_limits(&mut m, sensor, over, hysteresis);
                    m.status_mark[place] = mark;
                    m.registers[at(0x41)] = if latched_already { bit } else { 0x00 };
                    sample_at(&mut m, sensor, 50);
                    let expected = if latches || latched_already {
                        bit
                    } else {
                        0x00
                    };
                    assert_eq!(
                        m.look(0x41),
                        (0, expected),
                        "{mode:02b} {mark:?} {above} {below}"
                    );
                    let mut marks = [Armed; 3];
                    marks[place] = after;
                    assert_eq!(m.status_mark, marks, "{mode:02b} {mark:?} {above} {below}");
                }
            }
        }
    }
}

#[test]
fn one_step_a_sample() {
    // Hysteresis above the over limit: one value is above and below at once.
    for sensor in 1..=3 {
        let mut m = quiet();
        set_limits(&mut m, sensor, 100, 120);
        run(
            &mut m,
            sensor,
            &[(55, true, Hot), (55, true, Armed), (55, true, Hot)],
        );
        let mut m = quiet();
        set_mode(&mut m, 0b10);
        set_limits(&mut m, sensor, 100, 120);
        run(
            &mut m,
            sensor,
            &[(55, true, Hot), (55, false, Armed), (55, true, Hot)],
        );
    }
}

/// Half degrees in the limits of sensors 2 and 3: 75 is below 75.5 and 80 is not
/// above 80.5 or 80.0, but is above 79.5.
#[test]
fn the_half_degree_of_a_limit_counts() {
    for sensor in [2, 3] {
        let mut m = quiet();
        set_limits(&mut m, sensor, 161, 151);
        run(
            &mut m,
            sensor,
            &[
                (80, false, Armed),
                (81, true, Hot),
                (76, false, Hot),
                (75, true, Armed),
            ],
        );
        let mut m = quiet();
        set_limits(&mut m, sensor, 159, 149);
        run(
            &mut m,
            sensor,
            &[
                (79, false, Armed),
                (80, true, Hot),
                (75, false, Hot),
                (74, true, Armed),
            ],
        );
        // Below zero: -10 is above -10.5 and below -9.5.
        let mut m = quiet();
        set_limits(&mut m, sensor, -21, -19);
        run(
            &mut m,
            sensor,
            &[
                (-11, false, Armed),
                (-10, true, Hot),
                (-9, false, Hot),
                (-10, true, Armed),
            ],
        );
    }
}

#[test]
fn a_mode_write_moves_no_mark_and_no_status() {
    for sensor in 1..=3 {
        let mut m = set_up(sensor, 0b00);
        sample_at(&mut m, sensor, 81);
        for value in (0..=255).chain([0x04]) {
            let mut expected = m;
            expected.registers[at(0x51)] = value & 0x0F;
            assert_eq!(m.write(0x51, value), 0);
            assert_eq!(m, expected);
        }
        // Hot from comparator mode: in two-times mode above is no news, below is.
        assert!(take_status(&mut m, sensor));
        run(&mut m, sensor, &[(81, false, Hot), (74, true, Armed)]);
    }
}

#[test]
fn the_three_sensors_share_the_mode_and_keep_their_own_marks() {
    let mut m = quiet();
    for sensor in 1..=3 {
        set_limits(&mut m, sensor, 160, 150);
    }
    let mut s = CALM;
    s.degrees = [81, 0, 0];
    assert_eq!(m.sample(&s), 0);
    assert_eq!(m.status_mark, [Hot, Armed, Armed]);
    assert_eq!(m.read(0x41), (0, 0x20));
    s.degrees = [81, 81, 0];
    assert_eq!(m.sample(&s), 0);
    assert_eq!(m.status_mark, [Hot, Hot, Armed]);
    assert_eq!(m.read(0x41), (0, 0x40));
    s.degrees = [81, 81, 81];
    assert_eq!(m.sample(&s), 0);
    assert_eq!(m.status_mark, [Hot; 3]);
    assert_eq!(m.read(0x41), (0, 0x80));
    set_mode(&mut m, 0b00);
    assert_eq!(m.sample(&s), 0);
    assert_eq!(m.read(0x41), (0, 0xE0));
}

/// 3Ah at 127 is no mode, for any sensor.
#[test]
fn the_mode_is_51h_alone() {
    for hysteresis in [126, 127, 128, 255] {
        let mut m = quiet();
        assert_eq!(m.write(0x39, 80), 0);
        assert_eq!(m.write(0x7A, hysteresis), 0);
        // Armed and above latches, then it is hot; 127 is not below 127.
        run(&mut m, 1, &[(127, true, Hot), (127, false, Hot)]);
    }
    // Nor is it the OVT mode, 50h.
    for ovt in [0x00, 0x10, 0x20, 0x30] {
        let mut m = set_up(3, 0b10);
        assert_eq!(m.write(0x50, ovt), 0);
        run(&mut m, 3, &[(81, true, Hot), (74, false, Armed)]);
    }
}

#[test]
fn a_fall_below_hysteresis_latches_status_and_no_real_time_bit() {
    let mut m = set_up(2, 0b01);
    run(&mut m, 2, &[(81, true, Hot)]);
    sample_at(&mut m, 2, 50);
    assert_eq!(m.look(0x45), (0, 0x00));
    assert_eq!(m.read(0x41), (0, 0x40));
}

/// Bits 1-0 and 7-4 of 51h's cell have no part in the mode.
#[test]
fn only_bits_3_and_2_of_51h_choose_the_mode() {
    let mut rng = Rng::new(131);
    for _ in 0..500 {
        let mut one = any_running_state(&mut rng);
        let mut other = one;
        let s = common::w83l784r::any_sample(&mut rng);
        other.registers[at(0x51)] ^= rng.byte() & 0b1111_0011;
        assert_eq!(one.sample(&s), 0);
        assert_eq!(other.sample(&s), 0);
        other.registers[at(0x51)] = one.registers[at(0x51)];
        assert_eq!(one, other);
    }
}
