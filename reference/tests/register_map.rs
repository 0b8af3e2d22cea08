//! Every register: power-on value, writable bits, reserved indexes, banks and
//! the second place of 20h to 3Fh at 60h to 7Fh.

mod common;

use common::{any_state, at, poke, select, Rng};
use reference::w83782d::Monitor;

/// What a read shows at power-on and the writable bits, by bank and index;
/// `None` is answered 1. Bank 4Eh is left to the tests.
fn row(bank: u8, index: u8) -> Option<(u8, u8)> {
    let row = match (bank, index) {
        (_, 0x20..=0x2A) => (0x00, 0x00),
        (_, 0x2B..=0x3D) => (0x00, 0xFF),
        (_, 0x40) => (0x01, 0b1100_1011),
        (_, 0x41 | 0x42) => (0x00, 0x00),
        (_, 0x43) => (0x00, 0xFF),
        (_, 0x44) => (0x00, 0b0011_1111),
        (_, 0x46) => (0x00, 0b1000_0000),
        (_, 0x47) => (0x50, 0b1111_0000),
        (_, 0x48) => (0x2D, 0b0111_1111),
        (_, 0x49) => (0x02, 0x00),
        (_, 0x4A) => (0x01, 0xFF),
        (_, 0x4B) => (0x44, 0b1111_1100),
        (_, 0x4C) => (0x01, 0b0101_1100),
        (_, 0x4D) => (0x15, 0xFF),
        (_, 0x4E) => (0x80, 0b1000_0111),
        (_, 0x4F) => (0x5C, 0x00),
        (_, 0x60..=0x6A) => (0x00, 0x00),
        (_, 0x6B..=0x7D) => (0x00, 0xFF),
        (0, 0x56) => (0x00, 0xFF),
        (0, 0x57) => (0x80, 0b1011_1111),
        (0, 0x58) => (0x30, 0x00),
        (0, 0x59) => (0x70, 0b0111_0000),
        (0, 0x5A | 0x5B) => (0xFF, 0xFF),
        (0, 0x5C) => (0x11, 0b0111_1111),
        (0, 0x5D) => (0x00, 0b1110_1111),
        (0, 0x5E | 0x5F) => (0xFF, 0xFF),
        (1 | 2, 0x50 | 0x51) => (0x00, 0x00),
        (1 | 2, 0x52) => (0x00, 0b0001_1011),
        (1 | 2, 0x53) => (0x4B, 0xFF),
        (1 | 2, 0x54) => (0x00, 0b1000_0000),
        (1 | 2, 0x55) => (0x50, 0xFF),
        (1 | 2, 0x56) => (0x00, 0b1000_0000),
        (4, 0x59 | 0x5A) => (0x00, 0x00),
        _ => return None,
    };
    Some(row)
}

/// The cell of a register that `row` lists.
fn place(bank: u8, index: u8) -> usize {
    match index {
        0x20..=0x4F => at(0, index),
        0x60..=0x7F => at(0, index - 0x40),
        _ => at(bank, index),
    }
}

#[test]
fn every_register_shows_its_power_on_value() {
    for bank in 0..8 {
        for index in 0..=255 {
            let mut m = Monitor::power_on();
            select(&mut m, bank);
            let expected = match row(bank, index) {
                None => (1, 0),
                Some(_) if index == 0x4E => (0, 0x80 | bank),
                Some((power_on, _)) => (0, power_on),
            };
            assert_eq!(m.look(index), expected, "bank {bank} index {index:02X}h");
            assert_eq!(m.read(index), expected, "bank {bank} index {index:02X}h");
        }
    }
}

#[test]
fn power_on_fills_every_cell_and_reserved_cells_are_00h() {
    let mut expected = [0; 112];
    for bank in [0, 1, 2, 4] {
        let first = if bank == 0 { 0x20 } else { 0x50 };
        for index in first..=0x5F {
            if let Some((power_on, _)) = row(bank, index) {
                expected[at(bank, index)] = power_on;
            }
        }
    }
    // 4Fh shows a constant and its cell is 00h.
    expected[at(0, 0x4F)] = 0x00;
    assert_eq!(Monitor::power_on().registers, expected);
}

#[test]
fn the_bank_after_power_on_is_0() {
    let m = Monitor::power_on();
    assert_eq!(m.look(0x4E), (0, 0x80));
    assert_eq!(m.look(0x58), (0, 0x30));
}

/// Writes every byte to every index in every bank, from odd states, and looks at
/// the whole state afterwards.
#[test]
fn a_write_gives_writable_bits_the_bytes_bits_and_changes_nothing_else() {
    let mut rng = Rng::new(1);
    for bank in 0..8 {
        for index in 0..=255_u8 {
            let mut before = any_state(&mut rng);
            before.registers[at(0, 0x4E)] = rng.byte() & 0xF8 | bank;
            for value in 0..=255_u8 {
                let mut expected = before;
                let answer = match row(bank, index) {
                    None => 1,
                    Some((_, 0)) => 2,
                    Some(_) if index == 0x40 && value >= 0x80 => continue,
                    Some(_) if index == 0x46 => {
                        if value >= 0x80 {
                            expected.chassis = false;
                        }
                        0
                    }
                    Some((_, writable)) => {
                        for bit in 0..8 {
                            let mask = 1 << bit;
                            // Bit 7 of 40h "is never stored".
                            let stored = !(index == 0x40 && bit == 7);
                            if stored && writable & mask != 0 {
                                let cell = &mut expected.registers[place(bank, index)];
                                *cell = *cell & !mask | value & mask;
                            }
                        }
                        0
                    }
                };
                let mut m = before;
                assert_eq!(m.write(index, value), answer, "bank {bank} {index:02X}h");
                assert_eq!(m, expected, "bank {bank} {index:02X}h value {value:02X}h");
            }
        }
    }
}

#[test]
fn a_write_of_unwritable_bits_only_is_accepted_and_changes_nothing() {
    for (bank, index, value) in [
        (0, 0x44, 0xC0),
        (0, 0x46, 0x7F),
        (0, 0x59, 0x8F | 0x70),
        (0, 0x5D, 0x10),
        (1, 0x52, 0xE4),
        (2, 0x54, 0x7F),
        (2, 0x56, 0x7F),
    ] {
        let mut m = Monitor::power_on();
        select(&mut m, bank);
        let before = m;
        assert_eq!(m.write(index, value), 0, "bank {bank} {index:02X}h");
        assert_eq!(m, before, "bank {bank} {index:02X}h");
    }
}

#[test]
fn bit_0_of_4ch_stays_1_and_bits_1_0_of_4bh_stay_0() {
    let mut m = Monitor::power_on();
    assert_eq!(m.write(0x4C, 0x00), 0);
    assert_eq!(m.look(0x4C), (0, 0x01));
    assert_eq!(m.write(0x4C, 0xFF), 0);
    assert_eq!(m.look(0x4C), (0, 0x5D));
    assert_eq!(m.write(0x4B, 0xFF), 0);
    assert_eq!(m.look(0x4B), (0, 0xFC));
    assert_eq!(m.write(0x4B, 0x00), 0);
    assert_eq!(m.look(0x4B), (0, 0x00));
}

#[test]
fn banks_3_5_6_7_can_be_selected_and_50h_to_5fh_then_answer_1() {
    for bank in [3, 5, 6, 7] {
        let mut m = Monitor::power_on();
        assert_eq!(m.write(0x4E, bank), 0);
        assert_eq!(m.look(0x4E), (0, bank));
        for index in 0x50..=0x5F {
            assert_eq!(m.read(index), (1, 0));
            assert_eq!(m.write(index, 0xFF), 1);
        }
        assert_eq!(m.read(0x48), (0, 0x2D));
        assert_eq!(m.write(0x4E, 0x80), 0);
        assert_eq!(m.read(0x58), (0, 0x30));
    }
}

#[test]
fn each_bank_has_its_own_storage_from_50h_up() {
    let mut m = Monitor::power_on();
    poke(&mut m, 0, 0x56, 0x11);
    poke(&mut m, 1, 0x56, 0x80);
    poke(&mut m, 1, 0x53, 0x22);
    poke(&mut m, 2, 0x53, 0x33);
    select(&mut m, 0);
    assert_eq!(m.look(0x56), (0, 0x11));
    assert_eq!(m.look(0x53), (1, 0));
    select(&mut m, 1);
    assert_eq!(m.look(0x56), (0, 0x80));
    assert_eq!(m.look(0x53), (0, 0x22));
    select(&mut m, 2);
    assert_eq!(m.look(0x56), (0, 0x00));
    assert_eq!(m.look(0x53), (0, 0x33));
}

#[test]
fn the_vendor_byte_follows_bit_7_of_4eh() {
    let mut m = Monitor::power_on();
    assert_eq!(m.read(0x4F), (0, 0x5C));
    assert_eq!(m.write(0x4E, 0x00), 0);
    assert_eq!(m.read(0x4F), (0, 0xA3));
    assert_eq!(m.write(0x4E, 0x87), 0);
    assert_eq!(m.read(0x4F), (0, 0x5C));
}

#[test]
fn index_60h_to_7fh_is_20h_to_3fh_in_every_bank() {
    for bank in 0..8 {
        let mut m = Monitor::power_on();
        select(&mut m, bank);
        for index in 0x2B..=0x3D {
            assert_eq!(m.write(index + 0x40, index), 0);
            assert_eq!(m.read(index), (0, index));
            assert_eq!(m.write(index, !index), 0);
            assert_eq!(m.read(index + 0x40), (0, !index));
        }
        for index in 0x60..=0x6A {
            assert_eq!(m.write(index, 0xFF), 2);
        }
        for index in [0x3E, 0x3F, 0x7E, 0x7F] {
            assert_eq!(m.write(index, 0xFF), 1);
            assert_eq!(m.read(index), (1, 0));
        }
    }
}

#[test]
fn reserved_and_outer_indexes_answer_1() {
    for bank in 0..8 {
        let mut m = Monitor::power_on();
        select(&mut m, bank);
        let before = m;
        for index in [0x00, 0x1F, 0x3E, 0x3F, 0x45, 0x7E, 0x7F, 0x80, 0xA0, 0xFF] {
            assert_eq!(m.read(index), (1, 0));
            assert_eq!(m.write(index, 0xFF), 1);
        }
        assert_eq!(m, before);
    }
    let mut m = Monitor::power_on();
    for index in 0x50..=0x55 {
        assert_eq!(m.read(index), (1, 0));
    }
    // Left out: interrupt status 3, its mask, beep 3, real-time 3, PWM clock.
    select(&mut m, 4);
    for index in (0x50..=0x58).chain(0x5B..=0x5F) {
        assert_eq!(m.read(index), (1, 0));
    }
    for bank in [1, 2] {
        select(&mut m, bank);
        for index in 0x57..=0x5F {
            assert_eq!(m.read(index), (1, 0));
        }
    }
}
