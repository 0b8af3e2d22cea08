//! The main device's registers: every index, its answers to a read and a write,
//! power-on byte, writable bits, shown bits, and what a reset leaves. The table
//! is written out here from the C-16 table, section 1.

mod common;

use common::w83l784r::{any_state, at, hysteresis_at, over_at, read_of, value_at};
use common::Rng;
use reference::w83l784r::Monitor;

/// What a bus write does.
#[derive(Clone, Copy, PartialEq, Eq)]
enum Write {
    Stores(u8),
    Answers(u8),
}

/// What a read shows: some bits of the cell, or always one byte.
#[derive(Clone, Copy, PartialEq, Eq)]
enum Shows {
    Bits(u8),
    Always(u8),
}

/// What a reset leaves.
#[derive(Clone, Copy, PartialEq, Eq)]
enum Reset {
    Restores,
    Keeps,
}

use Reset::{Keeps, Restores};
use Shows::{Always, Bits};
use Write::{Answers, Stores};

const ALL: u8 = 0b1111_1111;

/// Power-on byte, write, read, reset, by index; `None` is answered 1.
#[rustfmt::skip]
fn row(index: u8) -> Option<(u8, Write, Shows, Reset)> {
    let row = match index {
        // VIN1, VIN3, VIN2, VCC codes; sensor 1; fan 1, 2 counts.
        0x20 | 0x60 => (0x00, Answers(2), Bits(ALL), Keeps),
        0x21 | 0x61 => (0x00, Answers(2), Bits(ALL), Keeps),
        0x22 | 0x62 => (0x00, Answers(2), Bits(ALL), Keeps),
        0x23 | 0x63 => (0x00, Answers(2), Bits(ALL), Keeps),
        0x27 | 0x67 => (0x00, Answers(2), Bits(ALL), Keeps),
        0x28 | 0x68 => (0x00, Answers(2), Bits(ALL), Keeps),
        0x29 | 0x69 => (0x00, Answers(2), Bits(ALL), Keeps),
        // Limits.
        0x2B | 0x6B => (0x00, Stores(ALL), Bits(ALL), Restores),
        0x2C | 0x6C => (0x00, Stores(ALL), Bits(ALL), Restores),
        0x2D | 0x6D => (0x00, Stores(ALL), Bits(ALL), Restores),
        0x2E | 0x6E => (0x00, Stores(ALL), Bits(ALL), Restores),
        0x2F | 0x6F => (0x00, Stores(ALL), Bits(ALL), Restores),
        0x30 | 0x70 => (0x00, Stores(ALL), Bits(ALL), Restores),
        0x31 | 0x71 => (0x00, Stores(ALL), Bits(ALL), Restores),
        0x32 | 0x72 => (0x00, Stores(ALL), Bits(ALL), Restores),
        0x39 | 0x79 => (0x00, Stores(ALL), Bits(ALL), Restores),
        0x3A | 0x7A => (0x00, Stores(ALL), Bits(ALL), Restores),
        0x3B | 0x7B => (0x00, Stores(ALL), Bits(ALL), Restores),
        0x3C | 0x7C => (0x00, Stores(ALL), Bits(ALL), Restores),
        // Configuration; bit 7 is a command and left to the tests.
        0x40 => (0x01, Stores(0b0000_1011), Bits(0b0000_1011), Restores),
        // Status, masks, real-time status.
        0x41 => (0x00, Answers(2), Bits(0b1110_1111), Restores),
        0x42 => (0x00, Answers(2), Bits(0b0000_0011), Restores),
        0x43 => (0x00, Stores(0b1110_1111), Bits(0b1110_1111), Restores),
        0x44 => (0x00, Stores(0b0000_1111), Bits(0b0000_1111), Restores),
        0x45 => (0x00, Answers(2), Bits(0b1110_1111), Restores),
        0x46 => (0x00, Answers(2), Bits(0b0000_0011), Restores),
        // Divisors, addresses, identity.
        0x49 => (0b0001_0001, Stores(0b0111_0111), Bits(0b0111_0111), Restores),
        0x4A => (0b0010_1101, Stores(0b0111_1111), Bits(0b0111_1111), Keeps),
        0x4B => (0b0000_0001, Stores(ALL), Bits(ALL), Restores),
        0x4C => (0xA3, Answers(2), Always(0xA3), Restores),
        0x4D => (0x5C, Answers(2), Always(0x5C), Restores),
        0x4E => (0x50, Answers(2), Always(0x50), Restores),
        // ACPI step, OVT, SMI.
        0x4F => (0b0000_0101, Stores(0b0111_1111), Bits(0b0111_1111), Restores),
        0x50 => (0b0000_0000, Stores(0b0011_1111), Bits(0b0011_1111), Restores),
        0x51 => (0b0000_0100, Stores(0b0000_1111), Bits(0b0000_1111), Restores),
        // Only stored.
        0x52 => (0x00, Stores(ALL), Bits(ALL), Restores),
        0x53 => (0x00, Stores(0b0000_1111), Bits(0b0000_1111), Restores),
        0x54 => (0x00, Stores(0b0011_0101), Bits(0b0011_0101), Restores),
        0x55 => (0x00, Stores(0b0000_0111), Bits(0b0000_0111), Restores),
        0x56 => (0xFF, Stores(ALL), Bits(ALL), Restores),
        0x57 => (0x00, Stores(ALL), Bits(ALL), Restores),
        0x58 => (0xFF, Stores(ALL), Bits(ALL), Restores),
        0x59 => (0x00, Stores(ALL), Bits(ALL), Restores),
        0x5A => (0xFF, Stores(ALL), Bits(ALL), Restores),
        0x5B => (0x00, Stores(ALL), Bits(ALL), Restores),
        0x80 => (0x01, Stores(ALL), Bits(ALL), Restores),
        0x81 => (0xFF, Stores(ALL), Bits(ALL), Restores),
        0x82 => (0x01, Stores(ALL), Bits(ALL), Restores),
        0x83 => (0xFF, Stores(ALL), Bits(ALL), Restores),
        0x84 => (0x00, Stores(0b0011_1111), Bits(0b0011_1111), Restores),
        0x85 => (0x00, Stores(ALL), Bits(ALL), Restores),
        0x86 => (0x00, Stores(ALL), Bits(ALL), Restores),
        0x87 => (0x11, Stores(ALL), Bits(ALL), Restores),
        0x88 => (0x01, Stores(ALL), Bits(ALL), Restores),
        0x89 => (0x01, Stores(ALL), Bits(ALL), Restores),
        0x8A => (0x01, Stores(ALL), Bits(ALL), Restores),
        0x8B => (0x01, Stores(ALL), Bits(ALL), Restores),
        0x8C => (60, Stores(ALL), Bits(ALL), Restores),
        0x8D => (60, Stores(ALL), Bits(ALL), Restores),
        0x8E => (10, Stores(ALL), Bits(ALL), Restores),
        0x8F => (10, Stores(ALL), Bits(ALL), Restores),
        // Offsets.
        0x90 => (0x00, Answers(9), Bits(ALL), Keeps),
        0x91 => (0x00, Answers(9), Bits(ALL), Keeps),
        0x92 => (0x00, Answers(9), Bits(ALL), Keeps),
        _ => return None,
    };
    Some(row)
}

/// "Answer 1, read or write", as the paper lists it.
const LACKING: &[(u8, u8)] = &[
    (0x00, 0x1F),
    (0x24, 0x26),
    (0x2A, 0x2A),
    (0x33, 0x38),
    (0x3D, 0x3F),
    (0x47, 0x48),
    (0x5C, 0x5F),
    (0x64, 0x66),
    (0x6A, 0x6A),
    (0x73, 0x78),
    (0x7D, 0x7F),
    (0x93, 0xFF),
];

/// "Answer 2, write only", as the paper lists it.
const READ_ONLY: &[(u8, u8)] = &[
    (0x20, 0x23),
    (0x27, 0x29),
    (0x60, 0x63),
    (0x67, 0x69),
    (0x41, 0x42),
    (0x45, 0x46),
    (0x4C, 0x4E),
];

fn listed(list: &[(u8, u8)], index: u8) -> bool {
    list.iter()
        .any(|(first, last)| (*first..=*last).contains(&index))
}

/// The main indexes that have a cell of their own.
fn own_cells() -> impl Iterator<Item = u8> {
    (0x20..=0x5F).chain(0x80..=0x9F)
}

/// The byte that a read shows, worked out from the cells.
fn shown(m: &Monitor, index: u8) -> Option<u8> {
    match row(index)?.2 {
        Bits(bits) => Some(m.registers[at(index)] & bits),
        Always(byte) => Some(byte),
    }
}

#[test]
fn every_index_answers_as_the_papers_lists_say() {
    let mut rng = Rng::new(101);
    let mut lacking = 0;
    for index in 0..=255_u8 {
        let answer_1 = listed(LACKING, index);
        let expected_write = match index {
            _ if answer_1 => 1,
            _ if listed(READ_ONLY, index) => 2,
            0x90..=0x92 => 9,
            _ => 0,
        };
        lacking += u32::from(answer_1);
        for _ in 0..20 {
            let m = any_state(&mut rng);
            let read = read_of(&m, index).0;
            assert_eq!(read, u8::from(answer_1), "read {index:02X}h");
            assert_eq!(m.look(index).0, read, "look {index:02X}h");
            let mut written = m;
            let write = written.write(index, rng.byte());
            assert_eq!(write, expected_write, "write {index:02X}h");
        }
        // The table above says the same as the lists.
        let expected = match row(index) {
            None => 1,
            Some((_, Answers(answer), _, _)) => answer,
            Some((_, Stores(_), _, _)) => 0,
        };
        assert_eq!(expected, expected_write, "{index:02X}h");
    }
    // "These are 173 indexes; the other 83 exist."
    assert_eq!((lacking, 256 - lacking), (173, 83));
}

#[test]
fn every_register_shows_its_power_on_byte() {
    for index in 0..=255 {
        let expected = match row(index) {
            None => (1, 0x00),
            Some((power_on, _, _, _)) => (0, power_on),
        };
        let mut m = Monitor::power_on();
        assert_eq!(m.look(index), expected, "{index:02X}h");
        assert_eq!(m.read(index), expected, "{index:02X}h");
    }
}

#[test]
fn power_on_fills_every_cell_and_reserved_cells_are_00h() {
    let mut expected = [0x00; 112];
    for index in own_cells() {
        if let Some((power_on, _, _, _)) = row(index) {
            expected[at(index)] = power_on;
        }
    }
    for sensor in [2, 3] {
        expected[hysteresis_at(sensor).0] = 75;
        expected[over_at(sensor).0] = 80;
    }
    assert_eq!(Monitor::power_on().registers, expected);
}

/// Writes every byte to every index, from odd states, and looks at the whole
/// state afterwards.
#[test]
fn a_write_gives_writable_bits_the_bytes_bits_and_changes_nothing_else() {
    let mut rng = Rng::new(102);
    for index in 0..=255_u8 {
        for value in 0..=255_u8 {
            if index == 0x40 && value >= 0x80 {
                continue;
            }
            let before = any_state(&mut rng);
            let mut expected = before;
            let answer = match row(index) {
                None => 1,
                Some((_, Answers(answer), _, _)) => answer,
                Some((_, Stores(writable), _, _)) => {
                    let cell = &mut expected.registers[at(index)];
                    for bit in 0..8 {
                        let mask = 1 << bit;
                        if writable & mask != 0 {
                            *cell = *cell & !mask | value & mask;
                        }
                    }
                    0
                }
            };
            let mut m = before;
            assert_eq!(m.write(index, value), answer, "{index:02X}h {value:02X}h");
            assert_eq!(m, expected, "{index:02X}h {value:02X}h");
        }
    }
}

#[test]
fn a_write_of_unwritable_bits_only_is_accepted_and_changes_nothing() {
    for (index, value) in [
        (0x40, 0x75),
        (0x43, 0x10),
        (0x44, 0xF0),
        (0x49, 0x88 | 0x11),
        (0x4A, 0x80 | 0x2D),
        (0x4F, 0x80 | 0x05),
        (0x50, 0xC0),
        (0x51, 0xF0 | 0x04),
        (0x53, 0xF0),
        (0x54, 0xCA),
        (0x55, 0xF8),
        (0x84, 0xC0),
    ] {
        let mut m = Monitor::power_on();
        assert_eq!(m.write(index, value), 0, "{index:02X}h");
        assert_eq!(m, Monitor::power_on(), "{index:02X}h");
    }
}

#[test]
fn an_offset_answers_9_also_to_the_byte_that_is_there() {
    let mut rng = Rng::new(103);
    for index in 0x90..=0x92 {
        for value in 0..=255 {
            let before = any_state(&mut rng);
            let mut m = before;
            assert_eq!(m.write(index, value), 9);
            assert_eq!(m.write(index, before.registers[at(index)]), 9);
            assert_eq!(m, before);
            assert_eq!(m.read(index), (0, before.registers[at(index)]));
        }
    }
}

/// "every other bit reads 0 from every state". What a read leaves is in the tests
/// of reads.
#[test]
fn every_register_shows_its_bits_alone_from_every_state() {
    let mut rng = Rng::new(104);
    let mut all_ones = Monitor::power_on();
    all_ones.registers = [0xFF; 112];
    for round in 0..2_000 {
        let m = match round {
            0 => all_ones,
            _ => any_state(&mut rng),
        };
        for index in 0..=255 {
            let expected = match shown(&m, index) {
                Some(byte) => (0, byte),
                None => (1, 0x00),
            };
            assert_eq!(m.look(index), expected, "{index:02X}h");
            assert_eq!(read_of(&m, index), expected, "{index:02X}h");
        }
    }
}

#[test]
fn index_60h_to_7fh_is_20h_to_3fh() {
    let mut rng = Rng::new(105);
    for _ in 0..200 {
        let before = any_state(&mut rng);
        for index in 0x20..=0x3F {
            assert_eq!(before.look(index), before.look(index + 0x40));
            let value = rng.byte();
            let (mut here, mut there) = (before, before);
            assert_eq!(here.write(index, value), there.write(index + 0x40, value));
            assert_eq!(here, there);
            assert_eq!(here.read(index), there.read(index + 0x40));
            assert_eq!(here, there);
        }
    }
}

/// A reset "gives everything its power-on value except" what the table keeps, the
/// two temperatures of the sets among it. "Kept cells keep all eight bits."
#[test]
fn a_reset_keeps_4ah_readings_and_offsets_and_restores_the_rest() {
    let mut rng = Rng::new(106);
    for byte in (0x80..=0xFF).cycle().take(3_000) {
        let before = any_state(&mut rng);
        let mut expected = Monitor::power_on();
        for index in own_cells() {
            if let Some((_, _, _, Keeps)) = row(index) {
                expected.registers[at(index)] = before.registers[at(index)];
            }
        }
        for sensor in [2, 3] {
            let (high, low) = value_at(sensor);
            expected.registers[high] = before.registers[high];
            expected.registers[low] = before.registers[low];
        }
        let mut m = before;
        assert_eq!(m.write(0x40, byte), 0);
        assert_eq!(m, expected, "40h {byte:02X}h");
    }
}

#[test]
fn no_bank_can_be_selected() {
    let mut m = Monitor::power_on();
    for bank in 0..=7 {
        assert_eq!(m.write(0x4E, 0x80 | bank), 2);
        assert_eq!(m.look(0x4E), (0, 0x50));
        assert_eq!(m.look(0x50), (0, 0x00));
        assert_eq!(m.look(0x56), (0, 0xFF));
    }
}
