//! OVT of the W83L784R's three sensors: comparator, interrupt and ACPI mode by 50h
//! bits 5-4, the kept quotient, the releasing read, the pin.

mod common;

use common::w83l784r::{
    any_running_state, any_sample, any_state, at, quiet, read_value, sample_at, set_limits, CALM,
};
use common::Rng;
use reference::w83l784r::Monitor;
use reference::Mark::{self, Armed, Hot};

const COMPARATOR: u8 = 0b00;
const INTERRUPT: u8 = 0b01;
const ACPI: [u8; 2] = [0b10, 0b11];

fn set_mode(m: &mut Monitor, mode: u8) {
    assert_eq!(m.write(0x50, mode << 4), 0);
}

/// Over limit 80, hysteresis 75 degrees.
fn set_up(sensor: u8, mode: u8) -> Monitor {
    let mut m = quiet();
    set_limits(&mut m, sensor, 160, 150);
    set_mode(&mut m, mode);
    m
}

fn mark(m: &Monitor, sensor: u8) -> Mark {
    m.ovt_mark[usize::from(sensor) - 1]
}

/// The quotient by search: the q with q * step <= T < (q + 1) * step; 0 where the
/// step is 0.
fn quotient(t: i8, step: u8) -> i8 {
    if step == 0 {
        return 0;
    }
    let (t, step) = (i32::from(t), i32::from(step));
    let found: Vec<i32> = (-128..=127)
        .filter(|q| q * step <= t && t < (q + 1) * step)
        .collect();
    assert_eq!(found.len(), 1);
    found[0] as i8
}

#[test]
fn comparator_mode_asserts_above_releases_below_and_stays_between() {
    for sensor in 1..=3 {
        let mut m = set_up(sensor, COMPARATOR);
        for (degrees, asserted, hot) in [
            (74, false, Armed),
            (78, false, Armed),
            (80, false, Armed),
            (81, true, Hot),
            (90, true, Hot),
            (80, true, Armed),
            (78, true, Armed),
            (75, true, Armed),
            (74, false, Armed),
            (78, false, Armed),
            (81, true, Hot),
        ] {
            sample_at(&mut m, sensor, degrees);
            assert_eq!(m.ovt(sensor), asserted, "sensor {sensor} {degrees}");
            assert_eq!(mark(&m, sensor), hot, "sensor {sensor} {degrees}");
            for other in (1..=3).filter(|other| *other != sensor) {
                assert!(!m.ovt(other));
            }
        }
    }
}

#[test]
fn interrupt_mode_asserts_at_over_and_then_at_hysteresis_until_read() {
    for sensor in 1..=3 {
        let mut m = set_up(sensor, INTERRUPT);
        for (degrees, asserts, hot) in [
            (74, false, Armed),
            (80, false, Armed),
            (81, true, Hot),
            (90, false, Hot),
            (78, false, Hot),
            (75, false, Hot),
            (74, true, Armed),
            (70, false, Armed),
            (81, true, Hot),
        ] {
            sample_at(&mut m, sensor, degrees);
            assert_eq!(m.ovt(sensor), asserts, "sensor {sensor} {degrees}");
            assert_eq!(mark(&m, sensor), hot);
            read_value(&mut m, sensor);
            assert!(!m.ovt(sensor));
            assert_eq!(mark(&m, sensor), hot);
        }
    }
}

#[test]
fn interrupt_mode_stays_asserted_without_a_read() {
    for sensor in 1..=3 {
        let mut m = set_up(sensor, INTERRUPT);
        for degrees in [81, 90, 78, 74, 50, 0] {
            sample_at(&mut m, sensor, degrees);
            assert!(m.ovt(sensor));
        }
        assert_eq!(mark(&m, sensor), Armed);
    }
}

/// Mark, asserted, above and below before; then asserted and the mark after, in
/// comparator and in interrupt mode.
type Step = (bool, Mark);
#[rustfmt::skip]
const STEPS: [(Mark, bool, bool, bool, Step, Step); 16] = [
    (Armed, false, false, false, (false, Armed), (false, Armed)),
    (Armed, false, false, true,  (false, Armed), (false, Armed)),
    (Armed, false, true,  false, (true,  Hot),   (true,  Hot)),
    (Armed, false, true,  true,  (true,  Hot),   (true,  Hot)),
    (Armed, true,  false, false, (true,  Armed), (true,  Armed)),
    (Armed, true,  false, true,  (false, Armed), (true,  Armed)),
    (Armed, true,  true,  false, (true,  Hot),   (true,  Hot)),
    (Armed, true,  true,  true,  (true,  Hot),   (true,  Hot)),
    (Hot,   false, false, false, (false, Armed), (false, Hot)),
    (Hot,   false, false, true,  (false, Armed), (true,  Armed)),
    (Hot,   false, true,  false, (true,  Hot),   (false, Hot)),
    (Hot,   false, true,  true,  (true,  Hot),   (true,  Armed)),
    (Hot,   true,  false, false, (true,  Armed), (true,  Hot)),
    (Hot,   true,  false, true,  (false, Armed), (true,  Armed)),
    (Hot,   true,  true,  false, (true,  Hot),   (true,  Hot)),
    (Hot,   true,  true,  true,  (true,  Hot),   (true,  Armed)),
];

/// Every mode, mark, output and side, and the kept quotient moved or not. At 50
/// degrees by a step of 7 the quotient is 7.
#[test]
fn every_mode_with_every_mark_output_side_and_quotient() {
    for sensor in 1..=3_u8 {
        let place = usize::from(sensor) - 1;
        for mode in 0b00..=0b11 {
            for (hot, asserted, above, below, comparator, interrupt) in STEPS {
                for (kept, step) in [(7, 7), (6, 7), (0, 7), (-128, 7), (0, 0), (7, 0)] {
                    let (asserted_after, hot_after) = match mode {
                        COMPARATOR => comparator,
                        INTERRUPT => interrupt,
                        // The mark as in comparator mode.
                        _ => (step != 0 && kept != 7, comparator.1),
                    };
                    let mut m = quiet();
                    set_mode(&mut m, mode);
                    assert_eq!(m.write(0x4F, step), 0);
                    let over = if above { 98 } else { 100 };
                    let hysteresis = if below { 102 } else { 100 };
                    set_limits(&mut m, sensor, over, hysteresis);
                    m.ovt_mark[place] = hot;
                    m.ovt_asserted[place] = asserted;
                    m.quotient[place] = kept;
                    sample_at(&mut m, sensor, 50);
                    let case = format!("sensor {sensor} {mode:02b} {hot:?} {asserted} {above}");
                    assert_eq!(
                        m.ovt(sensor),
                        asserted_after,
                        "{case} {below} {kept} {step}"
                    );
                    assert_eq!(mark(&m, sensor), hot_after, "{case} {below} {kept} {step}");
                    assert_eq!(m.quotient[place], if step == 0 { 0 } else { 7 }, "{case}");
                }
            }
        }
    }
}

/// Every temperature and every step, each sensor: the quotient is rounded down, it
/// is kept in every mode, and ACPI mode asserts where it moved.
#[test]
fn the_quotient_is_rounded_down_for_every_temperature_and_step() {
    let mut rng = Rng::new(141);
    for step in 0..=127_u8 {
        for t in -128..=127_i8 {
            let q = quotient(t, step);
            for sensor in 1..=3_u8 {
                let place = usize::from(sensor) - 1;
                let mut m = quiet();
                assert_eq!(m.write(0x4F, step), 0);
                let mode = rng.below(4) as u8;
                set_mode(&mut m, mode);
                // Half of the time the quotient that is coming is there already.
                let kept = if rng.coin() { q } else { rng.byte() as i8 };
                m.quotient[place] = kept;
                sample_at(&mut m, sensor, t);
                assert_eq!(m.quotient[place], q, "{t} by {step} in mode {mode:02b}");
                if ACPI.contains(&mode) {
                    let moved = step != 0 && kept != q;
                    assert_eq!(m.ovt(sensor), moved, "{t} by {step}, kept {kept}");
                }
            }
        }
    }
}

#[test]
fn quotients_worked_out_by_hand() {
    for (t, step, q) in [
        (0, 5, 0),
        (4, 5, 0),
        (5, 5, 1),
        (-1, 5, -1),
        (-5, 5, -1),
        (-6, 5, -2),
        (127, 1, 127),
        (-128, 1, -128),
        (127, 127, 1),
        (126, 127, 0),
        (-127, 127, -1),
        (-128, 127, -2),
        (-128, 0, 0),
        (127, 0, 0),
    ] {
        let mut m = quiet();
        assert_eq!(m.write(0x4F, step), 0);
        sample_at(&mut m, 3, t);
        assert_eq!(m.quotient, [0, 0, q], "{t} by {step}");
    }
}

/// "It is the number that was kept, not worked out again when the step changes
/// later."
#[test]
fn a_step_write_changes_no_quotient_and_no_output() {
    let mut rng = Rng::new(142);
    for value in 0..=255 {
        let before = any_state(&mut rng);
        let mut expected = before;
        expected.registers[at(0x4F)] = before.registers[at(0x4F)] & 0x80 | value & 0x7F;
        let mut m = before;
        assert_eq!(m.write(0x4F, value), 0);
        assert_eq!(m, expected);
    }
    let mut m = quiet();
    set_mode(&mut m, 0b10);
    sample_at(&mut m, 2, 20);
    assert_eq!(m.quotient[1], 4);
    sample_at(&mut m, 2, 20);
    assert!(!m.ovt(2));
    // 20 by 4 is 5, and 4 was kept.
    assert_eq!(m.write(0x4F, 4), 0);
    sample_at(&mut m, 2, 20);
    assert!(m.ovt(2));
    // 19 by 4 is 4, and 5 was kept.
    sample_at(&mut m, 2, 19);
    assert!(m.ovt(2));
}

/// The step is 4Fh bits 6-0, also where the cell holds bit 7.
#[test]
fn bit_7_of_4fh_is_no_part_of_the_step() {
    let mut m = quiet();
    m.registers[at(0x4F)] = 0x85;
    sample_at(&mut m, 1, 50);
    assert_eq!(m.quotient[0], 10);
    m.registers[at(0x4F)] = 0x80;
    sample_at(&mut m, 1, 50);
    assert_eq!(m.quotient[0], 0);
}

/// The quotient is of the stored temperature, offset and all.
#[test]
fn the_quotient_is_of_the_stored_temperature() {
    for sensor in 1..=3 {
        let mut m = quiet();
        set_mode(&mut m, 0b10);
        assert_eq!(m.commission(sensor, -3), 0);
        for (degrees, asserted) in [(7, false), (8, true), (12, false), (13, true), (2, true)] {
            sample_at(&mut m, sensor, degrees);
            assert_eq!(m.ovt(sensor), asserted, "sensor {sensor} {degrees}");
        }
        assert_eq!(m.quotient[usize::from(sensor) - 1], -1);
    }
}

#[test]
fn a_read_in_comparator_or_acpi_mode_releases_nothing() {
    for sensor in 1..=3 {
        for mode in [COMPARATOR, 0b10, 0b11] {
            let mut m = set_up(sensor, mode);
            sample_at(&mut m, sensor, 81);
            assert!(m.ovt(sensor));
            let before = m;
            read_value(&mut m, sensor);
            assert_eq!(m, before);
        }
    }
}

/// "it also releases what was asserted in another mode before"
#[test]
fn a_read_in_the_interrupt_mode_now_set_releases_what_another_mode_asserted() {
    for sensor in 1..=3 {
        for mode in [COMPARATOR, 0b10, 0b11] {
            let mut m = set_up(sensor, mode);
            sample_at(&mut m, sensor, 81);
            set_mode(&mut m, INTERRUPT);
            assert!(m.ovt(sensor));
            let mut expected = m;
            expected.ovt_asserted[usize::from(sensor) - 1] = false;
            read_value(&mut m, sensor);
            assert_eq!(m, expected);
            // Hot in that mode: above is no news, below hysteresis is.
            sample_at(&mut m, sensor, 90);
            assert!(!m.ovt(sensor));
            sample_at(&mut m, sensor, 74);
            assert!(m.ovt(sensor));
        }
    }
}

#[test]
fn only_a_bus_read_of_its_own_value_releases_a_sensor() {
    let mut m = quiet();
    set_mode(&mut m, INTERRUPT);
    m.ovt_asserted = [true; 3];
    for index in (0..=255).filter(|index| ![0x27, 0x67].contains(index)) {
        m.read(index);
        m.look(index);
    }
    assert_eq!((m.look(0x27).0, m.look(0x67).0), (0, 0));
    for sensor in [2, 3] {
        for index in 0x01..=0xFF {
            m.read_sensor(sensor, index);
        }
        assert_eq!(m.look_sensor(sensor, 0x00).0, 0);
    }
    assert_eq!(m.read_sensor(1, 0x00), (7, 0));
    assert_eq!(m.ovt_asserted, [true; 3]);
    let release = |read: fn(&mut Monitor)| {
        let mut copy = m;
        read(&mut copy);
        copy.ovt_asserted
    };
    assert_eq!(release(|m| read_value(m, 1)), [false, true, true]);
    assert_eq!(
        release(|m| assert_eq!(m.read(0x67).0, 0)),
        [false, true, true]
    );
    assert_eq!(release(|m| read_value(m, 2)), [true, false, true]);
    assert_eq!(release(|m| read_value(m, 3)), [true, true, false]);
}

#[test]
fn the_releasing_read_works_in_standby() {
    for sensor in 1..=3 {
        let mut m = set_up(sensor, INTERRUPT);
        sample_at(&mut m, sensor, 81);
        assert_eq!(m.write(0x40, 0x00), 0);
        assert!(m.ovt(sensor));
        read_value(&mut m, sensor);
        assert!(!m.ovt(sensor));
    }
}

#[test]
fn a_mode_write_changes_50h_alone() {
    let mut rng = Rng::new(143);
    for value in 0..=255 {
        let before = any_state(&mut rng);
        let mut expected = before;
        expected.registers[at(0x50)] = before.registers[at(0x50)] & 0xC0 | value & 0x3F;
        let mut m = before;
        assert_eq!(m.write(0x50, value), 0);
        assert_eq!(m, expected);
    }
}

#[test]
fn ovt_and_status_keep_marks_of_their_own() {
    for sensor in 1..=3 {
        let place = usize::from(sensor) - 1;
        // Status two-times, OVT comparator.
        let mut m = set_up(sensor, COMPARATOR);
        sample_at(&mut m, sensor, 81);
        assert_eq!((m.status_mark[place], m.ovt_mark[place]), (Hot, Hot));
        sample_at(&mut m, sensor, 78);
        assert_eq!((m.status_mark[place], m.ovt_mark[place]), (Hot, Armed));
        // Status comparator, OVT interrupt.
        let mut m = set_up(sensor, INTERRUPT);
        assert_eq!(m.write(0x51, 0x00), 0);
        sample_at(&mut m, sensor, 81);
        assert_eq!((m.status_mark[place], m.ovt_mark[place]), (Hot, Hot));
        sample_at(&mut m, sensor, 78);
        assert_eq!((m.status_mark[place], m.ovt_mark[place]), (Armed, Hot));
    }
}

/// Fault queue and stop bit are only stored: no byte of 01h moves anything else.
#[test]
fn fault_queue_and_stop_bit_have_no_effect() {
    let mut rng = Rng::new(144);
    for _ in 0..500 {
        let mut one = any_running_state(&mut rng);
        let mut other = one;
        for sensor in [2, 3] {
            assert_eq!(other.write_sensor(sensor, 0x01, rng.next() as u16), 0);
        }
        for _ in 0..4 {
            let s = any_sample(&mut rng);
            assert_eq!(one.sample(&s), 0);
            assert_eq!(other.sample(&s), 0);
        }
        for sensor in [2, 3] {
            let cell = common::w83l784r::configuration_at(sensor);
            other.registers[cell] = one.registers[cell];
        }
        assert_eq!(one, other);
    }
}

#[test]
fn power_on_and_reset_release_arm_and_keep_0() {
    let m = Monitor::power_on();
    assert_eq!(m.ovt_asserted, [false; 3]);
    assert_eq!((m.status_mark, m.ovt_mark), ([Armed; 3], [Armed; 3]));
    assert_eq!(m.quotient, [0; 3]);
    for mode in 0b00..=0b11 {
        let mut m = quiet();
        for sensor in 1..=3 {
            set_limits(&mut m, sensor, 160, 150);
        }
        set_mode(&mut m, mode);
        let mut s = CALM;
        s.degrees = [81; 3];
        assert_eq!(m.sample(&s), 0);
        assert_eq!(m.ovt_asserted, [true; 3]);
        assert_eq!(m.quotient, [16; 3]);
        assert_eq!(m.write(0x40, 0x80), 0);
        assert_eq!(m.ovt_asserted, [false; 3]);
        assert_eq!((m.status_mark, m.ovt_mark), ([Armed; 3], [Armed; 3]));
        assert_eq!(m.quotient, [0; 3]);
    }
}

/// "whatever 50h bits 3-1 say"; the pin is their wire OR.
#[test]
fn the_pin_needs_the_enable_bit_of_an_asserted_sensor() {
    for enabled in 0b000..=0b111_u8 {
        for asserted in 0b000..=0b111_u8 {
            for others in [0x00, 0x01, 0x10, 0x21, 0x30, 0xC0] {
                let mut m = Monitor::power_on();
                m.registers[at(0x50)] = enabled << 1 | others;
                m.ovt_asserted = [0, 1, 2].map(|place| asserted >> place & 1 == 1);
                for sensor in 1..=3 {
                    assert_eq!(m.ovt(sensor), asserted >> (sensor - 1) & 1 == 1);
                }
                assert_eq!(m.ovt_pin(), enabled & asserted != 0);
            }
        }
    }
    assert!(!Monitor::power_on().ovt_pin());
}

#[test]
fn no_other_sensor_has_an_ovt_output() {
    let mut m = Monitor::power_on();
    m.ovt_asserted = [true; 3];
    for sensor in (0..=0).chain(4..=255) {
        assert!(!m.ovt(sensor));
    }
}
