//! Setting a plan on the W83L784R's two fans.

mod common;

use common::w83l784r::{any_state, at, fan_rings, quiet, CALM};
use common::Rng;
use reference::w83l784r::Monitor;
use reference::{plan, u_of_speed};

/// 4,400 rpm is d 2, L 152, from every byte of 49h: k 1 goes to bits 2-0 for fan 1
/// and to bits 6-4 for fan 2.
#[test]
fn a_plan_of_4400_rpm_touches_only_its_fans_bits() {
    let mut rng = Rng::new(191);
    for byte in 0..=255_u8 {
        for (fan, limit, kept, k) in [
            (1, 0x3B, 0b1111_1000, 0b0000_0001),
            (2, 0x3C, 0b1000_1111, 0b0001_0000),
        ] {
            let mut before = any_state(&mut rng);
            before.registers[at(0x49)] = byte;
            let mut expected = before;
            expected.registers[at(0x49)] = byte & kept | k;
            expected.registers[at(limit)] = 152;
            let mut m = before;
            assert_eq!(m.set_plan(fan, 4_400), 0);
            assert_eq!(m, expected, "fan {fan} 49h {byte:02X}h");
        }
    }
}

#[test]
fn setting_a_plan_writes_the_limit_and_three_divisor_bits_only() {
    let mut rng = Rng::new(192);
    for _ in 0..5_000 {
        let before = any_state(&mut rng);
        let fan = 1 + rng.below(2) as u8;
        let w = 1 + (((rng.next() >> 32) % 1_350_000) >> rng.below(20)) as u32;
        let (_, d, limit) = plan(w);
        let k = d.trailing_zeros() as u8;
        let mut expected = before;
        expected.registers[at(0x3A + fan)] = limit;
        let divisor = &mut expected.registers[at(0x49)];
        let (others, k) = match fan {
            1 => (0xF8, k),
            _ => (0x8F, 16 * k),
        };
        *divisor = *divisor & others | k;
        let mut m = before;
        assert_eq!(m.set_plan(fan, w), 0);
        assert_eq!(m, expected, "fan {fan} {w} rpm");
    }
}

#[test]
fn a_plan_is_set_in_standby_and_waits_for_a_sample() {
    for configuration in [0x01, 0x00, 0x02, 0x03] {
        for fan in 1..=2_u8 {
            let mut m = quiet();
            let mut s = CALM;
            s.u = [306; 2];
            assert_eq!(m.sample(&s), 0);
            assert_eq!(m.write(0x40, configuration), 0);
            assert_eq!(m.set_plan(fan, 8_800), 0);
            // K 153: divisor 1, limit 152. The stored count is still 306/2.
            assert_eq!(m.look(0x3A + fan), (0, 152));
            assert_eq!(m.look(0x27 + fan), (0, 153));
            assert!(!fan_rings(&m, fan));
            assert_eq!(m.write(0x40, 0x01), 0);
            assert_eq!(m.sample(&s), 0);
            assert_eq!(m.look(0x27 + fan), (0, 255));
            assert!(fan_rings(&m, fan));
            assert!(!fan_rings(&m, 3 - fan));
        }
    }
}

/// Whether an accepted sample with this u leaves the fan's real-time bit 1.
fn rings(m: &Monitor, fan: u8, u: u32) -> bool {
    let mut m = *m;
    let mut s = CALM;
    s.u[usize::from(fan) - 1] = u;
    assert_eq!(m.sample(&s), 0);
    fan_rings(&m, fan)
}

/// At the planned speed and below the alarm rings, and no setting that rings there
/// rings at fewer speeds.
#[test]
fn no_setting_that_rings_at_the_planned_speed_rings_at_fewer_speeds() {
    for (n, w) in [1, 41, 42, 1_000, 2_641, 4_400, 5_294, 5_295, 1_350_000]
        .into_iter()
        .enumerate()
    {
        let fan = 1 + (n % 2) as u8;
        let mut planned = quiet();
        assert_eq!(planned.set_plan(fan, w), 0);
        let at_w = u_of_speed(u64::from(w), 1);
        assert!(rings(&planned, fan, at_w), "{w} rpm");
        assert!(rings(&planned, fan, u_of_speed(u64::from(w), 2)), "{w} rpm");
        let ringing: Vec<u32> = (90..=110)
            .map(|percent| u_of_speed(percent * u64::from(w), 100))
            .filter(|u| rings(&planned, fan, *u))
            .collect();
        for k in 0..8 {
            for limit in 0..=255 {
                let mut other = quiet();
                assert_eq!(other.write(0x49, k << 4 | k), 0);
                assert_eq!(other.write(0x3A + fan, limit), 0);
                if rings(&other, fan, at_w) {
                    for u in &ringing {
                        assert!(rings(&other, fan, *u), "{w} rpm, k {k} L {limit} u {u}");
                    }
                }
            }
        }
    }
}
