//! SMI and the number of standing alarms.

mod common;

use common::{any_state, at, quiet, Rng, CALM};
use reference::w83782d::{Monitor, Sample};

/// A quiet monitor with SMI enabled and VCOREA high limit 99; the sample that
/// exceeds it.
fn one_alarm() -> (Monitor, Sample) {
    let mut m = quiet();
    assert_eq!(m.write(0x40, 0x03), 0);
    assert_eq!(m.write(0x2B, 99), 0);
    let mut s = CALM;
    s.codes[0] = 100;
    (m, s)
}

#[test]
fn smi_follows_status_and_ends_with_the_read() {
    let (mut m, s) = one_alarm();
    assert!(!m.smi());
    assert_eq!(m.sample(&s), 0);
    assert!(m.smi());
    assert_eq!(m.sample(&CALM), 0);
    assert!(m.smi());
    assert_eq!(m.read(0x41), (0, 0x01));
    assert!(!m.smi());
}

#[test]
fn smi_needs_bit_1_and_no_bit_3_of_40h() {
    let (mut m, s) = one_alarm();
    assert_eq!(m.sample(&s), 0);
    for (configuration, asserted) in [
        (0x00, false),
        (0x01, false),
        (0x02, true),
        (0x03, true),
        (0x08, false),
        (0x0A, false),
        (0x0B, false),
        (0x42, true),
    ] {
        assert_eq!(m.write(0x40, configuration), 0);
        assert_eq!(m.smi(), asserted, "40h {configuration:02X}h");
    }
}

#[test]
fn a_mask_bit_keeps_its_status_bit_from_smi_and_latches_all_the_same() {
    let (mut m, s) = one_alarm();
    assert_eq!(m.write(0x43, 0x01), 0);
    assert_eq!(m.sample(&s), 0);
    assert!(!m.smi());
    assert_eq!(m.look(0x41), (0, 0x01));
    assert_eq!(m.standing_alarms(), 1);
    assert_eq!(m.write(0x43, 0xFE), 0);
    assert!(m.smi());
    // The other register's mask is another mask.
    assert_eq!(m.write(0x43, 0x01), 0);
    assert_eq!(m.write(0x44, 0x00), 0);
    assert!(!m.smi());
}

#[test]
fn each_bit_has_its_own_mask_bit() {
    for (status, mask, shown) in [(0x41, 0x43, 0xFF_u8), (0x42, 0x44, 0x2F)] {
        for bit in 0..8 {
            let mut m = Monitor::power_on();
            assert_eq!(m.write(0x40, 0x02), 0);
            m.registers[at(0, status)] = 1 << bit;
            let on = shown >> bit & 1 == 1;
            assert_eq!(m.smi(), on, "{status:02X}h bit {bit}");
            m.registers[at(0, mask)] = 1 << bit;
            assert!(!m.smi());
            m.registers[at(0, mask)] = !(1 << bit);
            assert_eq!(m.smi(), on);
        }
    }
}

#[test]
fn the_chassis_bit_counts_for_smi_and_can_be_masked() {
    let mut m = quiet();
    assert_eq!(m.write(0x40, 0x02), 0);
    assert_eq!(m.chassis_opened(), 0);
    assert!(m.smi());
    assert_eq!(m.standing_alarms(), 1);
    assert_eq!(m.read(0x42), (0, 0x10));
    assert!(m.smi());
    assert_eq!(m.write(0x44, 0x10), 0);
    assert!(!m.smi());
    assert_eq!(m.write(0x44, 0x2F), 0);
    assert!(m.smi());
    assert_eq!(m.write(0x46, 0x80), 0);
    assert!(!m.smi());
    assert_eq!(m.standing_alarms(), 0);
}

#[test]
fn standing_alarms_count_the_set_bits_of_41h_and_42h() {
    let mut m = quiet();
    assert_eq!(m.standing_alarms(), 0);
    for channel in 0..7 {
        assert_eq!(m.write(0x2B + 2 * channel, 0), 0);
    }
    for fan in 0..3 {
        assert_eq!(m.write(0x3B + fan, 0), 0);
    }
    for sensor in 1..=3 {
        common::set_limits(&mut m, sensor, 0, -20);
    }
    let all = Sample {
        codes: [1; 7],
        t1: 1,
        t2: 1,
        t3: 1,
        u: [2; 3],
    };
    assert_eq!(m.sample(&all), 0);
    assert_eq!(m.standing_alarms(), 13);
    assert_eq!(m.chassis_opened(), 0);
    assert_eq!(m.standing_alarms(), 14);
    assert_eq!(m.read(0x41), (0, 0xFF));
    assert_eq!(m.standing_alarms(), 6);
    assert_eq!(m.read(0x42), (0, 0x3F));
    assert_eq!(m.standing_alarms(), 1);
}

#[test]
fn smi_and_standing_alarms_from_every_state() {
    let mut rng = Rng::new(7);
    for _ in 0..20_000 {
        let m = any_state(&mut rng);
        let status = [m.look(0x41).1, m.look(0x42).1];
        let mask = [m.look(0x43).1, m.look(0x44).1];
        let configuration = m.look(0x40).1;
        let mut alarms = 0;
        let mut unmasked = false;
        for byte in 0..2 {
            for bit in 0..8 {
                if status[byte] >> bit & 1 == 1 {
                    alarms += 1;
                    unmasked |= mask[byte] >> bit & 1 == 0;
                }
            }
        }
        assert_eq!(m.standing_alarms(), alarms);
        let enabled = configuration & 0x0A == 0x02;
        assert_eq!(m.smi(), enabled && unmasked);
    }
}
