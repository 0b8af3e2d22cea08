//! "Errors that look right" of document 01.

mod common;

use common::{at, peek, quiet, select, CALM};
use reference::plan;
use reference::w83782d::Monitor;

#[test]
fn the_smallest_divisor_that_reaches_k_is_not_always_the_plan() {
    // K is 511. Divisor 4 is the smallest with 255 d at least 511 and gives
    // 127 x 4 = 508; divisor 2 gives 255 x 2 = 510.
    let (answer, d, limit) = plan(2_641);
    assert_eq!((answer, d, limit), (0, 2, 254));
    assert_eq!((u32::from(limit) + 1) * d, 510);
}

#[test]
fn one_fans_divisor_leaves_the_rest_of_47h() {
    let mut m = Monitor::power_on();
    assert_eq!(m.write(0x47, 0xC0), 0);
    // Cell bits that are not shown stay as well.
    m.registers[at(0, 0x47)] |= 0x05;
    // 68 rpm: K 19,852, divisor 128 (155 x 128 = 19,840), low bits 11.
    assert_eq!(m.set_plan(1, 68), 0);
    assert_eq!(m.registers[at(0, 0x47)], 0xF5);
    assert_eq!(m.look(0x47), (0, 0xF0));
    // 8,800 rpm: divisor 1, low bits 00.
    assert_eq!(m.set_plan(2, 8_800), 0);
    assert_eq!(m.registers[at(0, 0x47)], 0x35);
    assert_eq!(m.set_plan(1, 8_800), 0);
    assert_eq!(m.registers[at(0, 0x47)], 0x05);
}

#[test]
fn one_fans_divisor_leaves_the_rest_of_4bh_and_5dh() {
    let mut m = Monitor::power_on();
    assert_eq!(m.write(0x4B, 0x3C), 0);
    assert_eq!(m.write(0x5D, 0x0F), 0);
    assert_eq!(m.set_plan(3, 68), 0);
    assert_eq!(m.look(0x4B), (0, 0xFC));
    assert_eq!(m.look(0x5D), (0, 0x8F));
    assert_eq!(m.set_plan(2, 68), 0);
    assert_eq!(m.look(0x5D), (0, 0xCF));
    assert_eq!(m.set_plan(1, 68), 0);
    assert_eq!(m.look(0x5D), (0, 0xEF));
    assert_eq!(m.set_plan(3, 8_800), 0);
    assert_eq!(m.look(0x4B), (0, 0x3C));
    assert_eq!(m.look(0x5D), (0, 0x6F));
}

#[test]
fn clearing_40h_bit_0_stops_samples_and_does_not_clear_smi() {
    let mut m = quiet();
    assert_eq!(m.write(0x40, 0x03), 0);
    assert_eq!(m.write(0x2B, 99), 0);
    let mut s = CALM;
    s.codes[0] = 100;
    assert_eq!(m.sample(&s), 0);
    assert!(m.smi());
    assert_eq!(m.write(0x40, 0x02), 0);
    assert!(m.smi());
    assert_eq!(m.sample(&s), 4);
    assert!(m.smi());
    assert_eq!(m.read(0x41), (0, 0x01));
    assert!(!m.smi());
}

#[test]
fn index_60h_to_7fh_is_not_banked() {
    for bank in 0..8 {
        let mut m = Monitor::power_on();
        select(&mut m, bank);
        assert_eq!(m.write(0x7B, 0x99), 0);
        assert_eq!(m.read(0x3B), (0, 0x99));
        assert_eq!(m.read(0x7B), (0, 0x99));
    }
}

#[test]
fn a_read_of_42h_keeps_the_chassis_bit_and_clears_the_others() {
    let mut m = quiet();
    assert_eq!(m.write(0x3D, 0), 0);
    assert_eq!(m.chassis_opened(), 0);
    let mut s = CALM;
    s.u[2] = 2;
    assert_eq!(m.sample(&s), 0);
    assert_eq!(m.read(0x42), (0, 0x18));
    assert_eq!(m.read(0x42), (0, 0x10));
    assert_eq!(peek(&m, 4, 0x5A), 0x18);
}
