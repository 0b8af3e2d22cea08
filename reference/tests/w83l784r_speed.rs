//! The speed reading of the W83L784R, in tenths of rpm (request C-12).

mod common;

use common::w83l784r::{any_state, at};
use common::Rng;
use reference::w83l784r::Monitor;
use reference::Speed::{self, Refused, Tenths, TooFast, TooSlow};

/// A monitor with a count on one fan, and the divisor 2 to the power k.
fn with_count(fan: u8, count: u8, k: u8) -> Monitor {
    let mut m = Monitor::power_on();
    assert_eq!(m.write(0x49, if fan == 1 { k } else { k << 4 }), 0);
    m.registers[at(0x27 + fan)] = count;
    m
}

#[test]
fn speeds_worked_out_by_hand() {
    for (count, k, speed) in [
        // 4,411.76.. rpm.
        (153, 1, Tenths(44_118)),
        // Table 2 of the data sheet: 8,823.5.., 68.93.. rpm.
        (153, 0, Tenths(88_235)),
        (153, 7, Tenths(689)),
        (1, 0, Tenths(13_500_000)),
        (254, 7, Tenths(415)),
        // 13,500,000 / 64 = 210,937.5: halves up.
        (64, 0, Tenths(210_938)),
        (1, 6, Tenths(210_938)),
        (0, 0, TooFast),
        (0, 7, TooFast),
        (255, 0, TooSlow),
        (255, 7, TooSlow),
    ] {
        for fan in 1..=2 {
            let m = with_count(fan, count, k);
            assert_eq!(m.speed(fan), speed, "count {count} k {k}");
        }
    }
}

/// t is nearest to x, halves up, where 2t-1 <= 2x < 2t+1.
#[test]
fn every_count_and_divisor_gives_the_nearest_tenth_halves_up() {
    for fan in 1..=2 {
        for k in 0..8 {
            for count in 1..=254_u8 {
                let m = with_count(fan, count, k);
                let Tenths(tenths) = m.speed(fan) else {
                    panic!("count {count}");
                };
                let (t, per_turn) = (i64::from(tenths), i64::from(count) << k);
                assert!((2 * t - 1) * per_turn <= 27_000_000, "count {count} k {k}");
                assert!((2 * t + 1) * per_turn > 27_000_000, "count {count} k {k}");
            }
        }
    }
}

/// "from the stored count and the divisor now set"
#[test]
fn the_divisor_is_the_one_now_set() {
    let mut m = with_count(2, 100, 1);
    assert_eq!(m.speed(2), Tenths(67_500));
    assert_eq!(m.write(0x49, 0x30), 0);
    assert_eq!(m.speed(2), Tenths(16_875));
    // The other fan's bits play no part.
    assert_eq!(m.write(0x49, 0x37), 0);
    assert_eq!(m.speed(2), Tenths(16_875));
}

#[test]
fn another_fan_answers_7() {
    let mut rng = Rng::new(171);
    let m = any_state(&mut rng);
    for fan in (0..=0).chain(3..=255) {
        assert_eq!(m.speed(fan), Refused);
        assert_eq!(m.speed(fan).answer(), 7);
    }
}

#[test]
fn a_number_too_fast_and_too_slow_are_answered_0() {
    for speed in [Speed::Tenths(1), TooFast, TooSlow] {
        assert_eq!(speed.answer(), 0);
    }
}
