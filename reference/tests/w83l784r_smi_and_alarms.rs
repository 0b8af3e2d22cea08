//! SMI and the number of standing alarms of the W83L784R.

mod common;

use common::w83l784r::{any_state, at, quiet, set_limits, CALM};
use common::Rng;
use reference::w83l784r::{Monitor, Sample};

/// A quiet monitor with SMI enabled and VIN1 high limit 99; the sample that
/// exceeds it.
fn one_alarm() -> (Monitor, Sample) {
    let mut m = quiet();
    assert_eq!(m.write(0x51, 0x06), 0);
    assert_eq!(m.write(0x2B, 99), 0);
    let mut s = CALM;
    s.codes[0] = 100;
    (m, s)
}

#[test]
fn smi_follows_status_and_ends_with_the_read() {
    let (mut m, s) = one_alarm();
    assert!(!m.smi());
    assert_eq!(m.sample(&s), 0);
    assert!(m.smi());
    assert_eq!(m.sample(&CALM), 0);
    assert!(m.smi());
    assert_eq!(m.read(0x41), (0, 0x01));
    assert!(!m.smi());
}

/// INT_Clear takes SMI away "without affecting the contents" of status; standby
/// keeps SMI; DIS_PWROK plays no part.
#[test]
fn smi_needs_51h_bit_1_and_no_40h_bit_1() {
    let (mut m, s) = one_alarm();
    assert_eq!(m.sample(&s), 0);
    for property in 0x00..=0x0F {
        for configuration in 0x00..=0x7F_u8 {
            assert_eq!(m.write(0x51, property), 0);
            assert_eq!(m.write(0x40, configuration), 0);
            let expected = property & 0x02 != 0 && configuration & 0x02 == 0;
            assert_eq!(
                m.smi(),
                expected,
                "51h {property:02X}h 40h {configuration:02X}h"
            );
            assert_eq!(m.look(0x41), (0, 0x01));
        }
    }
}

#[test]
fn smi_is_off_at_power_on_and_after_a_reset() {
    let mut m = Monitor::power_on();
    let mut s = CALM;
    s.codes[0] = 1;
    assert_eq!(m.sample(&s), 0);
    assert!(!m.smi());
    assert_eq!(m.write(0x51, 0x02), 0);
    assert!(m.smi());
    assert_eq!(m.write(0x40, 0x80), 0);
    assert!(!m.smi());
    assert_eq!(m.standing_alarms(), 0);
}

#[test]
fn each_bit_has_its_own_mask_bit_at_the_same_place() {
    for (status, mask, shown) in [(0x41, 0x43, 0b1110_1111_u8), (0x42, 0x44, 0b0000_0011)] {
        for bit in 0..8 {
            let mut m = Monitor::power_on();
            assert_eq!(m.write(0x51, 0x02), 0);
            m.registers[at(status)] = 1 << bit;
            let on = shown >> bit & 1 == 1;
            assert_eq!(m.smi(), on, "{status:02X}h bit {bit}");
            assert_eq!(m.standing_alarms(), u32::from(on));
            assert_eq!(m.write(mask, 1 << bit), 0);
            assert!(!m.smi());
            assert_eq!(m.standing_alarms(), u32::from(on));
            assert_eq!(m.write(mask, !(1 << bit)), 0);
            assert_eq!(m.smi(), on);
        }
    }
}

#[test]
fn a_masked_bit_latches_all_the_same() {
    let (mut m, s) = one_alarm();
    assert_eq!(m.write(0x43, 0x01), 0);
    assert_eq!(m.sample(&s), 0);
    assert!(!m.smi());
    assert_eq!(m.look(0x41), (0, 0x01));
    assert_eq!(m.write(0x43, 0x00), 0);
    assert!(m.smi());
}

#[test]
fn standing_alarms_count_the_set_bits_of_41h_and_42h() {
    let mut m = quiet();
    assert_eq!(m.standing_alarms(), 0);
    for high_limit in [0x2B, 0x2D, 0x2F, 0x31, 0x3B, 0x3C] {
        assert_eq!(m.write(high_limit, 0), 0);
    }
    for sensor in 1..=3 {
        set_limits(&mut m, sensor, 0, -20);
    }
    let all = Sample {
        codes: [1; 4],
        degrees: [1; 3],
        u: [2; 2],
    };
    assert_eq!(m.sample(&all), 0);
    assert_eq!(m.standing_alarms(), 9);
    assert_eq!(m.read(0x41), (0, 0xEF));
    assert_eq!(m.standing_alarms(), 2);
    assert_eq!(m.read(0x42), (0, 0x03));
    assert_eq!(m.standing_alarms(), 0);
}

#[test]
fn smi_and_standing_alarms_from_every_state() {
    let mut rng = Rng::new(161);
    for _ in 0..20_000 {
        let mut m = any_state(&mut rng);
        // Few status bits, so that they are often all masked.
        for index in [0x41, 0x42] {
            m.registers[at(index)] &= rng.byte() & rng.byte();
        }
        let status = [m.registers[at(0x41)] & 0xEF, m.registers[at(0x42)] & 0x03];
        let mask = [m.registers[at(0x43)], m.registers[at(0x44)]];
        let unmasked = status[0] & !mask[0] | status[1] & !mask[1];
        let enabled = m.registers[at(0x51)] & 0x02 != 0 && m.registers[at(0x40)] & 0x02 == 0;
        assert_eq!(m.smi(), enabled && unmasked != 0);
        assert_eq!(
            m.standing_alarms(),
            status[0].count_ones() + status[1].count_ones()
        );
    }
}
