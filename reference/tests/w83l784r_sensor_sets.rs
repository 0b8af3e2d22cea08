//! The small register sets of sensors 2 and 3: every index and every sensor
//! number. The table is written out here from the C-16 table, section 2.

mod common;

use common::w83l784r::{
    any_state, at, configuration_at, hysteresis_at, over_at, read_sensor_of, value_at,
};
use common::Rng;
use reference::w83l784r::Monitor;

/// Power-on word, writable bits, shown bits, by index; `None` is answered 1.
/// Writable bits 0 are answered 2.
fn row(index: u8) -> Option<(u16, u16, u16)> {
    match index {
        0x00 => Some((0, 0, 0b1111_1111_1000_0000)),
        0x01 => Some((0, 0b0001_1001, 0b0001_1001)),
        0x02 => Some((75 * 256, 0b1111_1111_1000_0000, 0b1111_1111_1000_0000)),
        0x03 => Some((80 * 256, 0b1111_1111_1000_0000, 0b1111_1111_1000_0000)),
        _ => None,
    }
}

/// Cells of bits 15-8 and 7-0 of a register; 01h is a byte.
fn cells(sensor: u8, index: u8) -> (Option<usize>, usize) {
    let whole = |(high, low)| (Some(high), low);
    match index {
        0x00 => whole(value_at(sensor)),
        0x01 => (None, configuration_at(sensor)),
        0x02 => whole(hysteresis_at(sensor)),
        _ => whole(over_at(sensor)),
    }
}

/// The word in the cells of a register, unmasked.
fn raw(m: &Monitor, sensor: u8, index: u8) -> u16 {
    let (high, low) = cells(sensor, index);
    let high = high.map_or(0, |high| u16::from(m.registers[high]));
    256 * high + u16::from(m.registers[low])
}

/// Some words: all of one byte with edges of the other, and random ones.
fn words(rng: &mut Rng) -> Vec<u16> {
    let mut words = vec![
        0x0000, 0xFFFF, 0x0080, 0x007F, 0xFF00, 0xFF7F, 0x50FF, 0x8000,
    ];
    words.extend((0..16).map(|bit| 1 << bit));
    words.extend((0..16).map(|bit| !(1 << bit)));
    words.extend((0..40).map(|_| rng.next() as u16));
    words
}

#[test]
fn every_index_shows_its_power_on_word() {
    for sensor in [2, 3] {
        for index in 0..=255 {
            let expected = match row(index) {
                Some((power_on, _, _)) => (0, power_on),
                None => (1, 0),
            };
            let mut m = Monitor::power_on();
            assert_eq!(m.look_sensor(sensor, index), expected, "{index:02X}h");
            assert_eq!(m.read_sensor(sensor, index), expected, "{index:02X}h");
        }
    }
}

#[test]
fn a_write_gives_writable_bits_the_words_bits_and_changes_nothing_else() {
    let mut rng = Rng::new(111);
    for sensor in [2, 3] {
        for index in 0..=255 {
            for word in words(&mut rng) {
                let before = any_state(&mut rng);
                let mut expected = before;
                let answer = match row(index) {
                    None => 1,
                    Some((_, 0, _)) => 2,
                    Some((_, writable, _)) => {
                        let after = raw(&before, sensor, index) & !writable | word & writable;
                        let (high, low) = cells(sensor, index);
                        expected.registers[low] = (after % 256) as u8;
                        if let Some(high) = high {
                            expected.registers[high] = (after / 256) as u8;
                        }
                        0
                    }
                };
                let mut m = before;
                let answered = m.write_sensor(sensor, index, word);
                assert_eq!(answered, answer, "sensor {sensor} {index:02X}h");
                assert_eq!(m, expected, "sensor {sensor} {index:02X}h {word:04X}h");
            }
        }
    }
}

#[test]
fn every_register_shows_its_bits_alone_from_every_state() {
    let mut rng = Rng::new(112);
    for _ in 0..1_000 {
        let m = any_state(&mut rng);
        for sensor in [2, 3] {
            for index in 0..=255 {
                let expected = match row(index) {
                    Some((_, _, shows)) => (0, raw(&m, sensor, index) & shows),
                    None => (1, 0),
                };
                assert_eq!(m.look_sensor(sensor, index), expected, "{index:02X}h");
                let read = read_sensor_of(&m, sensor, index);
                assert_eq!(read, expected, "{index:02X}h");
            }
        }
    }
}

/// "A sensor other than 2 or 3 in such an access answers 7, before 1."
#[test]
fn another_sensor_answers_7_before_1_and_2() {
    let mut rng = Rng::new(113);
    for sensor in (0..=1).chain(4..=255) {
        let before = any_state(&mut rng);
        let mut m = before;
        for index in 0..=255 {
            assert_eq!(m.look_sensor(sensor, index), (7, 0));
            assert_eq!(m.read_sensor(sensor, index), (7, 0));
            assert_eq!(m.write_sensor(sensor, index, 0xFFFF), 7);
        }
        assert_eq!(m, before);
    }
}

#[test]
fn a_write_of_unwritable_bits_only_is_accepted_and_changes_nothing() {
    for sensor in [2, 3] {
        for (index, word) in [(0x01, 0xFFE6), (0x02, 0x4B7F), (0x03, 0x507F)] {
            let mut m = Monitor::power_on();
            assert_eq!(m.write_sensor(sensor, index, word), 0);
            assert_eq!(m, Monitor::power_on(), "{index:02X}h");
        }
    }
}

#[test]
fn each_sensor_has_its_own_set_and_the_main_device_reaches_neither() {
    let mut m = Monitor::power_on();
    assert_eq!(m.write_sensor(2, 0x02, 0x1180), 0);
    assert_eq!(m.write_sensor(3, 0x02, 0x2200), 0);
    assert_eq!(m.write_sensor(2, 0x03, 0x3300), 0);
    assert_eq!(m.write_sensor(3, 0x03, 0x4480), 0);
    assert_eq!(m.write_sensor(3, 0x01, 0x0008), 0);
    assert_eq!(m.look_sensor(2, 0x01), (0, 0x0000));
    assert_eq!(m.look_sensor(3, 0x01), (0, 0x0008));
    assert_eq!(m.look_sensor(2, 0x02), (0, 0x1180));
    assert_eq!(m.look_sensor(3, 0x02), (0, 0x2200));
    assert_eq!(m.look_sensor(2, 0x03), (0, 0x3300));
    assert_eq!(m.look_sensor(3, 0x03), (0, 0x4480));
    for index in 0x00..=0x1F {
        assert_eq!(m.look(index), (1, 0));
    }
}

/// "The sets answer whatever 4Bh says."
#[test]
fn the_disable_bits_of_4bh_disable_no_set() {
    let mut rng = Rng::new(114);
    for byte in 0..=255 {
        let mut m = any_state(&mut rng);
        m.registers[at(0x4B)] = byte;
        for sensor in [2, 3] {
            assert_eq!(m.write_sensor(sensor, 0x03, 0x1280), 0);
            assert_eq!(m.read_sensor(sensor, 0x03), (0, 0x1280));
            assert_eq!(m.read_sensor(sensor, 0x00).0, 0);
        }
    }
}
