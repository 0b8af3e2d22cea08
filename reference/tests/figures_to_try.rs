//! "Figures to try" of document 01.

mod common;

use common::{fan_rings, CALM};
use reference::w83782d::{decode, millivolts, write_record, Event, Monitor};
use reference::{plan, Speed};

#[test]
fn planned_speeds_give_the_printed_plans() {
    for (w, d, limit) in [
        (4_400, 2, 152),
        (1_350_000, 1, 0),
        (1, 128, 254),
        (42, 128, 250),
        (5_295, 1, 253),
        (2_641, 2, 254),
    ] {
        assert_eq!(plan(w), (0, d, limit), "{w} rpm");
    }
}

#[test]
fn speed_0_and_1_350_001_are_answered_6() {
    assert_eq!(plan(0).0, 6);
    assert_eq!(plan(1_350_001).0, 6);
}

#[test]
fn count_153_with_divisor_2_is_44118_tenths() {
    let mut m = Monitor::power_on();
    // Power-on sets divisor 2 for every fan (6.4.1 of the data sheet).
    for fan in 1..=3 {
        m.registers[0x28 - 0x20 + usize::from(fan) - 1] = 153;
        assert_eq!(m.speed(fan), Speed::Tenths(44_118));
    }
}

#[test]
fn codes_give_the_printed_millivolts() {
    assert_eq!(millivolts(3, 186, 0, 0), (0, 5_000));
    assert_eq!(millivolts(4, 197, 0, 0), (0, 11_978));
    assert_eq!(millivolts(5, 35, 232, 56), (0, -12_034));
    assert_eq!(millivolts(5, 182, 232, 56), (0, 62));
}

#[test]
fn divisor_2_limit_152_rings_at_306_and_not_at_305() {
    for fan in 1..=3_u8 {
        for (u, rings) in [(305, false), (306, true)] {
            let mut m = Monitor::power_on();
            assert_eq!(m.write(0x3A + fan, 152), 0);
            let mut s = CALM;
            s.u[usize::from(fan) - 1] = u;
            assert_eq!(m.sample(&s), 0);
            assert_eq!(fan_rings(&m, fan), rings, "fan {fan}, u {u}");
        }
    }
}

#[test]
fn the_record_of_writing_50h_to_47h() {
    let event = Event::Write {
        index: 0x47,
        value: 0x50,
    };
    let mut expected = [0; 32];
    expected[..3].copy_from_slice(&[0x01, 0x47, 0x50]);
    let mut buffer = [0xEE; 32];
    assert_eq!(write_record(&event, &mut buffer), 0);
    assert_eq!(buffer, expected);
    assert_eq!(decode(&buffer), Ok(event));
}
