//! Reset by 40h bit 7, what a read shows from every state, and the chassis
//! latch.

mod common;

use common::{any_sample, any_state, at, peek, poke, quiet, select, Rng, CALM};
use reference::w83782d::Monitor;
use reference::Mark;

#[test]
fn reset_restores_power_on_but_for_48h_readings_and_chassis() {
    let mut rng = Rng::new(2);
    for _ in 0..2_000 {
        let before = any_state(&mut rng);
        let mut expected = Monitor::power_on();
        expected.chassis = before.chassis;
        for index in 0x20..=0x2A {
            expected.registers[at(0, index)] = before.registers[at(0, index)];
        }
        expected.registers[at(0, 0x48)] = before.registers[at(0, 0x48)];
        for bank in [1, 2] {
            for index in [0x50, 0x51] {
                expected.registers[at(bank, index)] = before.registers[at(bank, index)];
            }
        }
        let mut m = before;
        assert_eq!(m.write(0x40, rng.byte() | 0x80), 0);
        assert_eq!(m, expected);
    }
}

#[test]
fn writing_ffh_to_40h_leaves_01h_there() {
    let mut m = Monitor::power_on();
    assert_eq!(m.write(0x40, 0x4A), 0);
    assert_eq!(m.read(0x40), (0, 0x4A));
    assert_eq!(m.write(0x40, 0xFF), 0);
    assert_eq!(m.read(0x40), (0, 0x01));
}

#[test]
fn reset_keeps_readings_bus_address_and_chassis_and_drops_the_rest() {
    let mut m = Monitor::power_on();
    assert_eq!(m.write(0x48, 0x2E), 0);
    assert_eq!(m.write(0x4D, 0xAA), 0);
    assert_eq!(m.chassis_opened(), 0);
    let mut s = CALM;
    s.codes = [1, 2, 3, 4, 5, 6, 7];
    s.t1 = 90;
    s.t2 = 161;
    s.t3 = 171;
    s.u = [100, 200, 300];
    assert_eq!(m.sample(&s), 0);
    assert!(m.ovt(2) && m.ovt(3));
    assert_eq!(m.status_mark, [Mark::Hot; 3]);
    select(&mut m, 5);
    assert_eq!(m.write(0x40, 0x80), 0);
    assert_eq!(m.read(0x4E), (0, 0x80));
    assert_eq!(m.read(0x48), (0, 0x2E));
    assert_eq!(m.read(0x4D), (0, 0x15));
    for channel in 0..7 {
        assert_eq!(m.read(0x20 + channel), (0, channel + 1));
    }
    assert_eq!(m.read(0x27), (0, 90));
    assert_eq!(m.read(0x28), (0, 50));
    assert_eq!(m.read(0x29), (0, 100));
    assert_eq!(m.read(0x2A), (0, 150));
    assert_eq!(peek(&m, 1, 0x50), 80);
    assert_eq!(peek(&m, 1, 0x51), 0x80);
    assert_eq!(peek(&m, 2, 0x50), 85);
    assert_eq!(peek(&m, 2, 0x51), 0x80);
    assert_eq!(peek(&m, 4, 0x59), 0x00);
    // Only the chassis bit is on in 42h and 5Ah.
    assert_eq!(peek(&m, 4, 0x5A), 0x10);
    assert_eq!(m.read(0x41), (0, 0x00));
    assert_eq!(m.read(0x42), (0, 0x10));
    assert!(!m.ovt(2) && !m.ovt(3));
    assert_eq!(m.status_mark, [Mark::Armed; 3]);
    assert_eq!(m.ovt_mark, [Mark::Armed; 2]);
}

/// The byte shown from every state, worked out from the cells.
fn shown(m: &Monitor, bank: u8, index: u8) -> Option<u8> {
    let index = match index {
        0x60..=0x7F => index - 0x40,
        _ => index,
    };
    let bank = if index < 0x50 { 0 } else { bank };
    match (bank, index) {
        (0, 0x20..=0x3D | 0x40..=0x44 | 0x46..=0x4F | 0x56..=0x5F) => {}
        (1 | 2, 0x50..=0x56) => {}
        (4, 0x59 | 0x5A) => {}
        _ => return None,
    }
    let byte = m.registers[at(bank, index)];
    let chassis = if m.chassis { 0x10 } else { 0x00 };
    Some(match (bank, index) {
        (0, 0x40) => byte & 0x7F,
        (0, 0x42) | (4, 0x5A) => byte & 0b0010_1111 | chassis,
        (0, 0x46) => 0x00,
        (0, 0x47) => byte & 0xF0,
        (0, 0x49) => 0x02,
        (0, 0x4F) if m.registers[at(0, 0x4E)] >= 0x80 => 0x5C,
        (0, 0x4F) => 0xA3,
        (0, 0x58) => 0x30,
        _ => byte,
    })
}

#[test]
fn a_read_shows_the_papers_byte_from_every_state() {
    let mut rng = Rng::new(3);
    for _ in 0..400 {
        let mut before = any_state(&mut rng);
        for bank in 0..8 {
            let cell = &mut before.registers[at(0, 0x4E)];
            *cell = *cell & 0xF8 | bank;
            for index in 0..=255 {
                let expected = match shown(&before, bank, index) {
                    Some(byte) => (0, byte),
                    None => (1, 0),
                };
                let mut after = before;
                if index == 0x41 || index == 0x42 {
                    after.registers[at(0, index)] = 0x00;
                }
                if (bank == 1 || bank == 2)
                    && index == 0x50
                    && before.registers[at(bank, 0x52)] & 2 == 2
                {
                    after.ovt_asserted[usize::from(bank) - 1] = false;
                }
                assert_eq!(before.look(index), expected, "bank {bank} {index:02X}h");
                let mut m = before;
                assert_eq!(m.read(index), expected, "bank {bank} {index:02X}h");
                assert_eq!(m, after, "bank {bank} {index:02X}h");
            }
        }
    }
}

#[test]
fn odd_cells_of_fixed_bits_are_not_shown() {
    let mut m = Monitor::power_on();
    m.registers = [0xFF; 112];
    m.registers[at(0, 0x4E)] = 0x00;
    assert_eq!(m.look(0x40), (0, 0x7F));
    assert_eq!(m.look(0x41), (0, 0xFF));
    assert_eq!(m.look(0x42), (0, 0x2F));
    assert_eq!(m.look(0x46), (0, 0x00));
    assert_eq!(m.look(0x47), (0, 0xF0));
    assert_eq!(m.look(0x49), (0, 0x02));
    assert_eq!(m.look(0x4F), (0, 0xA3));
    assert_eq!(m.look(0x58), (0, 0x30));
    assert_eq!(m.look(0x59), (0, 0xFF));
    assert_eq!(peek(&m, 4, 0x5A), 0x2F);
    m.chassis = true;
    assert_eq!(m.look(0x42), (0, 0x3F));
    assert_eq!(peek(&m, 4, 0x5A), 0x3F);
}

#[test]
fn reading_41h_or_42h_clears_that_register_only() {
    let mut m = Monitor::power_on();
    m.registers[at(0, 0x41)] = 0xA5;
    m.registers[at(0, 0x42)] = 0x2A;
    assert_eq!(m.read(0x41), (0, 0xA5));
    assert_eq!(m.read(0x41), (0, 0x00));
    assert_eq!(m.read(0x42), (0, 0x2A));
    assert_eq!(m.read(0x42), (0, 0x00));
}

#[test]
fn status_is_cleared_by_a_read_in_standby_too() {
    let mut m = Monitor::power_on();
    m.registers[at(0, 0x41)] = 0x01;
    assert_eq!(m.write(0x40, 0x00), 0);
    assert_eq!(m.read(0x41), (0, 0x01));
    assert_eq!(m.read(0x41), (0, 0x00));
}

#[test]
fn the_chassis_latch_shows_at_once_and_stays_until_46h_bit_7() {
    for configuration in [0x01, 0x00, 0x08, 0x09] {
        let mut m = quiet();
        assert_eq!(m.write(0x40, configuration), 0);
        assert_eq!(m.chassis_opened(), 0);
        assert_eq!(m.read(0x42), (0, 0x10));
        assert_eq!(m.read(0x42), (0, 0x10));
        assert_eq!(peek(&m, 4, 0x5A), 0x10);
        assert_eq!(m.write(0x46, 0x7F), 0);
        assert_eq!(m.read(0x42), (0, 0x10));
        assert_eq!(m.write(0x46, 0x80), 0);
        assert_eq!(m.read(0x42), (0, 0x00));
        assert_eq!(peek(&m, 4, 0x5A), 0x00);
        assert_eq!(m.read(0x46), (0, 0x00));
    }
}

#[test]
fn a_chassis_event_sets_the_latch_and_nothing_else() {
    let mut rng = Rng::new(4);
    for _ in 0..500 {
        let before = any_state(&mut rng);
        let mut expected = before;
        expected.chassis = true;
        let mut m = before;
        assert_eq!(m.chassis_opened(), 0);
        assert_eq!(m, expected);
    }
}

#[test]
fn a_sample_keeps_the_chassis_latch() {
    let mut rng = Rng::new(5);
    for open in [false, true] {
        let mut m = quiet();
        m.chassis = open;
        assert_eq!(m.sample(&any_sample(&mut rng)), 0);
        assert_eq!(m.chassis, open);
        assert_eq!(peek(&m, 4, 0x5A) & 0x10 != 0, open);
        assert_eq!(m.read(0x42).1 & 0x10 != 0, open);
    }
}

#[test]
fn power_on_clears_the_chassis_latch() {
    assert!(!Monitor::power_on().chassis);
}

#[test]
fn bank_registers_are_restored_by_reset() {
    let mut m = Monitor::power_on();
    for bank in [1, 2] {
        for (index, value) in [(0x52, 0x1B), (0x53, 1), (0x54, 0x80), (0x55, 2)] {
            poke(&mut m, bank, index, value);
        }
        poke(&mut m, bank, 0x56, 0x80);
    }
    assert_eq!(m.write(0x40, 0x80), 0);
    for bank in [1, 2] {
        for (index, value) in [(0x52, 0), (0x53, 0x4B), (0x54, 0), (0x55, 0x50), (0x56, 0)] {
            assert_eq!(peek(&m, bank, index), value);
        }
    }
}

/// C-15.
#[test]
fn looks_swallow_no_alarm() {
    let mut m = quiet();
    assert_eq!(m.write(0x3B, 20), 0);
    for bank in [1, 2] {
        // Over limit 50 degrees; OVT in interrupt mode.
        common::set_limits(&mut m, bank + 1, 100, 80);
        poke(&mut m, bank, 0x52, 0x02);
    }
    let mut s = CALM;
    s.u[0] = 42;
    (s.t2, s.t3) = (180, 180);
    assert_eq!(m.sample(&s), 0);
    assert_eq!(m.chassis_opened(), 0);
    let before = m;
    for _ in 0..2 {
        assert_eq!(m.look(0x41), (0, 0x60));
        assert_eq!(m.look(0x42), (0, 0x30));
        for bank in [1, 2] {
            select(&mut m, bank);
            assert_eq!(m.look(0x50), (0, 90));
        }
        select(&mut m, 0);
    }
    assert_eq!(m, before);
    assert!(m.ovt(2) && m.ovt(3));
    assert_eq!(m.read(0x41), (0, 0x60));
    assert_eq!(m.look(0x41), (0, 0x00));
    assert_eq!(m.read(0x42), (0, 0x30));
    assert_eq!(m.look(0x42), (0, 0x10));
}
