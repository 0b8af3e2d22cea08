//! Planning a fan alarm: the planner for every K, setting a plan, and what
//! "rings" means.

mod common;

use common::{any_state, at, fan_rings, quiet, select, Rng, CALM};
use reference::w83782d::Monitor;
use reference::{plan, u_of_speed};

/// The first and last speed of every class of speeds with one K, and K.
fn classes() -> Vec<(u32, u32, u32)> {
    let mut classes = Vec::new();
    let mut first = 1;
    while first <= 1_350_000 {
        let k = 1_350_000 / first;
        let last = 1_350_000 / k;
        classes.push((first, last, k));
        first = last + 1;
    }
    classes
}

#[test]
fn every_k_has_the_largest_product_not_above_it_with_the_smallest_divisor() {
    let classes = classes();
    // 1,161 squared is 1,347,921 and 1,162 squared 1,350,244: each w up to 1,161
    // has a K of its own, from 1,162 up, and each K from 1 to 1,161 appears.
    assert_eq!(classes.len(), 2 * 1_161);
    for (first, last, k) in classes {
        let (answer, d, limit) = plan(first);
        assert_eq!(answer, 0);
        assert_eq!(plan(last), (answer, d, limit), "{first} and {last} rpm");
        assert!([1, 2, 4, 8, 16, 32, 64, 128].contains(&d));
        assert!(limit <= 254);
        let product = (u32::from(limit) + 1) * d;
        assert!(product <= k, "{first} rpm");
        for other_d in [1, 2, 4, 8, 16, 32, 64, 128] {
            for other_limit in 0..=254 {
                let other = (other_limit + 1) * other_d;
                assert!(other > k || other <= product, "{first} rpm");
                assert!(other != product || other_d >= d, "{first} rpm");
            }
        }
    }
}

#[test]
fn speeds_within_a_class_have_one_plan() {
    let mut rng = Rng::new(30);
    for (first, last, _) in classes() {
        let between = first + rng.below(u64::from(last - first) + 1) as u32;
        assert_eq!(plan(between), plan(first));
    }
}

#[test]
fn plans_worked_out_by_hand() {
    for (w, d, limit) in [
        // K 255: d 1 reaches it.
        (5_294, 1, 254),
        // K 256: 255 with d 1, 256 with d 2.
        (5_273, 2, 127),
        // K 257: 256 with d 2.
        (5_252, 2, 127),
        // K 512: 510 with d 2, 512 with d 4.
        (2_636, 4, 127),
        // K 1,350 (w 1,000): d 8 gives 168 x 8 = 1,344; d 4 ends at 1,020.
        (1_000, 8, 167),
        // K 3: 3 with d 1.
        (450_000, 1, 2),
        // K 675,000: the largest product of all, 255 x 128 = 32,640.
        (2, 128, 254),
        // K 32,926, above 32,640 still.
        (41, 128, 254),
    ] {
        assert_eq!(plan(w), (0, d, limit), "{w} rpm");
    }
}

#[test]
fn u_of_a_speed_is_rounded_down_and_ends_at_32_bits() {
    for (a, b, u) in [
        (4_400, 1, 306),
        (1_350_000, 1, 1),
        (1_350_001, 1, 0),
        (1, 1, 1_350_000),
        (3, 2, 900_000),
        (7, 3, 578_571),
        (0, 1, 4_294_967_295),
        (0, u64::MAX, 4_294_967_295),
        // 1,350,000 x 3,181 = 4,294,350,000 and x 3,182 = 4,295,700,000.
        (1, 3_181, 4_294_350_000),
        (1, 3_182, 4_294_967_295),
        (1, u64::MAX, 4_294_967_295),
        (u64::MAX, 1, 0),
        (u64::MAX, u64::MAX, 1_350_000),
    ] {
        assert_eq!(u_of_speed(a, b), u, "{a}/{b}");
    }
}

#[test]
fn setting_a_plan_writes_the_limit_and_three_divisor_bits_only() {
    let mut rng = Rng::new(31);
    for _ in 0..5_000 {
        let before = any_state(&mut rng);
        let fan = 1 + rng.below(3) as u8;
        let w = 1 + (((rng.next() >> 32) % 1_350_000) >> rng.below(20)) as u32;
        let (_, d, limit) = plan(w);
        let k = d.trailing_zeros() as u8;
        let mut expected = before;
        expected.registers[at(0, 0x3A + fan)] = limit;
        let (index, mask, shift) = match fan {
            1 => (0x47, 0x30, 4),
            2 => (0x47, 0xC0, 6),
            _ => (0x4B, 0xC0, 6),
        };
        let low = &mut expected.registers[at(0, index)];
        *low = *low & !mask | (k % 4) << shift;
        let top = &mut expected.registers[at(0, 0x5D)];
        let (top_mask, top_shift) = [(0x20, 5), (0x40, 6), (0x80, 7)][usize::from(fan) - 1];
        *top = *top & !top_mask | (k / 4) << top_shift;
        let mut m = before;
        assert_eq!(m.set_plan(fan, w), 0);
        assert_eq!(m, expected, "fan {fan} {w} rpm");
    }
}

#[test]
fn a_plan_is_set_in_every_bank_and_in_standby_and_waits_for_a_sample() {
    for bank in 0..8 {
        for configuration in [0x01, 0x00, 0x08] {
            for fan in 1..=3_u8 {
                let mut m = quiet();
                let mut s = CALM;
                s.u = [306; 3];
                assert_eq!(m.sample(&s), 0);
                assert_eq!(m.write(0x40, configuration), 0);
                select(&mut m, bank);
                assert_eq!(m.set_plan(fan, 8_800), 0);
                // K 153: divisor 1, limit 152. The stored count is still 306/2.
                assert_eq!(m.look(0x3A + fan), (0, 152));
                assert_eq!(m.look(0x27 + fan), (0, 153));
                assert!(!fan_rings(&m, fan));
                assert_eq!(m.write(0x40, 0x01), 0);
                assert_eq!(m.sample(&s), 0);
                assert_eq!(m.look(0x27 + fan), (0, 255));
                assert!(fan_rings(&m, fan));
            }
        }
    }
}

/// Sets a divisor 2 to the power k and a limit on a fan, with all else quiet.
fn with_setting(fan: u8, k: u8, limit: u8) -> Monitor {
    let mut m = quiet();
    let (low, top) = (k & 3, k >> 2);
    let (low_index, low_bit) = [(0x47, 4), (0x47, 6), (0x4B, 6)][usize::from(fan) - 1];
    assert_eq!(m.write(low_index, low << low_bit), 0);
    assert_eq!(m.write(0x5D, top << (4 + fan)), 0);
    assert_eq!(m.write(0x3A + fan, limit), 0);
    m
}

/// Whether an accepted sample with this u leaves the fan's real-time bit 1.
fn rings(m: &Monitor, fan: u8, u: u32) -> bool {
    let mut m = *m;
    let mut s = CALM;
    s.u[usize::from(fan) - 1] = u;
    assert_eq!(m.sample(&s), 0);
    fan_rings(&m, fan)
}

#[test]
fn a_setting_rings_exactly_from_its_product_on_and_limit_255_never() {
    for fan in 1..=3 {
        for k in 0..8 {
            let d = 1_u32 << k;
            for limit in 0..=255_u8 {
                let m = with_setting(fan, k, limit);
                let product = (u32::from(limit) + 1) * d;
                for u in [0, d - 1, product - 1, product, product + d, u32::MAX] {
                    let expected = limit != 255 && u >= product;
                    assert_eq!(rings(&m, fan, u), expected, "d {d} L {limit} u {u}");
                }
            }
        }
    }
}

/// The plan for w rpm rings at w, and of all settings that ring at w it rings at
/// the fewest speeds: where the plan rings, each of them rings.
#[test]
fn no_setting_that_rings_at_the_planned_speed_rings_at_fewer_speeds() {
    let mut rng = Rng::new(32);
    let mut speeds = vec![1, 41, 42, 1_000, 2_641, 4_400, 5_294, 5_295, 1_350_000];
    for _ in 0..40 {
        let shift = rng.below(20);
        speeds.push(1 + (((rng.next() >> 32) % 1_350_000) >> shift) as u32);
    }
    for (n, w) in speeds.into_iter().enumerate() {
        let fan = 1 + (n % 3) as u8;
        let mut planned = quiet();
        assert_eq!(planned.set_plan(fan, w), 0);
        let at_w = u_of_speed(u64::from(w), 1);
        assert!(rings(&planned, fan, at_w), "{w} rpm");
        // Other speeds a/b, nearly all near w, with the u of each.
        let near: Vec<u32> = [(0, 1), (1, 1), (1, 2), (3, 4), (5, 4), (2, 1), (9, 1)]
            .into_iter()
            .chain((90..=110).map(|percent| (percent, 100)))
            .map(|(a, b)| u_of_speed(a * u64::from(w), b))
            .collect();
        let ringing: Vec<u32> = near
            .into_iter()
            .filter(|u| rings(&planned, fan, *u))
            .collect();
        let mut others = 0;
        for k in 0..8 {
            for limit in 0..=255 {
                let other = with_setting(fan, k, limit);
                if rings(&other, fan, at_w) {
                    others += 1;
                    for u in &ringing {
                        assert!(rings(&other, fan, *u), "{w} rpm, k {k} L {limit} u {u}");
                    }
                }
            }
        }
        assert!(others >= 1);
    }
}
