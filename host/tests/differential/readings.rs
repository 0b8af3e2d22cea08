//! Plans and readings, through the boundary and through the wrapper.

use crate::boundary;
use crate::common::rng::Rng;

/// "1,350,000 / w"
pub const COUNTS_PER_MINUTE: u32 = 1_350_000;

fn hold_plan(rpm: u32) {
    let (answer, divisor, limit) = reference::plan(rpm);
    assert_eq!(
        boundary::plan(rpm),
        (answer.into(), divisor, limit.into()),
        "{rpm} rpm"
    );
    let wrapped = match w83782d::plan(rpm) {
        Ok(plan) => (0, plan.divisor.into(), plan.limit),
        Err(refusal) => (refusal.number(), 0, 0),
    };
    assert_eq!(wrapped, (answer, divisor, limit), "{rpm} rpm");
}

/// For every K = 1,350,000 / w rounded down, its smallest and largest w.
pub fn speed_classes() -> Vec<[u32; 2]> {
    let mut classes = Vec::new();
    let mut smallest = 1;
    while smallest <= COUNTS_PER_MINUTE {
        let k = COUNTS_PER_MINUTE / smallest;
        let largest = COUNTS_PER_MINUTE / k;
        assert!(COUNTS_PER_MINUTE / largest == k && COUNTS_PER_MINUTE / (largest + 1) < k);
        classes.push([smallest, largest]);
        smallest = largest + 1;
    }
    assert_eq!(smallest, COUNTS_PER_MINUTE + 1);
    // 1,161 squared is below 1,350,000 and 1,161 times 1,162 too.
    assert_eq!(classes.len(), 2 * 1_161);
    classes
}

#[test]
fn both_ends_of_every_speed_class_are_planned_alike() {
    for rpm in speed_classes().into_iter().flatten() {
        hold_plan(rpm);
    }
}

#[test]
fn every_speed_up_to_the_refused_ones_is_planned_alike() {
    for rpm in 0..=COUNTS_PER_MINUTE + 1_000 {
        hold_plan(rpm);
    }
}

#[test]
fn speeds_far_beyond_are_refused_alike() {
    let mut rng = Rng::new(0);
    for bit in 20..32 {
        for near in [(1 << bit) - 1, 1 << bit, (1 << bit) + 1] {
            hold_plan(near);
        }
    }
    // A speed is not taken modulo a power of two.
    for high in 1..=0xFFFF {
        hold_plan(high << 16 | 4_400);
        hold_plan(rng.next() as u32);
    }
    hold_plan(u32::MAX);
}

fn hold_millivolts(channel: u8, code: u8, r5: u32, r6: u32) {
    let expected = reference::w83782d::millivolts(channel, code, r5, r6);
    let words = || format!("channel {channel}, code {code}, R5 {r5}, R6 {r6}");
    assert_eq!(
        boundary::millivolts(channel, code, r5, r6),
        expected,
        "{}",
        words()
    );
    let wrapped = match w83782d::millivolts(channel, code, r5, r6) {
        Ok(value) => (0, value),
        Err(refusal) => (refusal.number(), 0),
    };
    assert_eq!(wrapped, expected, "{}", words());
}

/// Ends of the range, the data sheet's pair, and numbers that fit only if their
/// high bits are lost.
const RESISTORS: [u32; 14] = [
    0,
    1,
    2,
    3,
    56,
    120,
    232,
    999,
    1_000,
    1_001,
    0x1_0038,
    0x8000_0000,
    0x8000_00E8,
    u32::MAX,
];

#[test]
fn every_code_reads_alike_on_every_channel() {
    for channel in 0..=255 {
        for code in 0..=255 {
            for r5 in RESISTORS {
                for r6 in RESISTORS {
                    hold_millivolts(channel, code, r5, r6);
                }
            }
        }
    }
}

/// Every R6 decides other halves; some R5 with each.
#[test]
fn every_code_reads_alike_on_the_negative_rails_over_many_resistors() {
    let mut rng = Rng::new(0);
    for r6 in 1..=1_000 {
        for _ in 0..16 {
            let r5 = 1 + rng.below(1_000) as u32;
            for code in 0..=255 {
                hold_millivolts(5, code, r5, r6);
                hold_millivolts(6, code, r5, r6);
            }
        }
    }
}

#[test]
fn every_pwm_byte_is_on_for_the_same_parts() {
    for x in 0..=255 {
        assert_eq!(
            boundary::pwm_parts(x),
            reference::w83782d::pwm_parts(x),
            "{x:02X}h"
        );
        assert_eq!(
            w83782d::pwm_parts(x),
            reference::w83782d::pwm_parts(x),
            "{x:02X}h"
        );
    }
}

/// "Figures to try" of document 01, as far as no monitor is needed.
#[test]
fn the_figures_of_the_paper_come_out() {
    for (rpm, divisor, limit) in [
        (4_400, 2, 152),
        (1_350_000, 1, 0),
        (1, 128, 254),
        (42, 128, 250),
        (5_295, 1, 253),
        (2_641, 2, 254),
    ] {
        assert_eq!(boundary::plan(rpm), (0, divisor, limit), "{rpm} rpm");
    }
    assert_eq!(boundary::plan(0), (6, 0, 0));
    assert_eq!(boundary::plan(1_350_001), (6, 0, 0));
    assert_eq!(boundary::millivolts(3, 186, 0, 0), (0, 5_000));
    assert_eq!(boundary::millivolts(4, 197, 0, 0), (0, 11_978));
    assert_eq!(boundary::millivolts(5, 35, 232, 56), (0, -12_034));
    assert_eq!(boundary::millivolts(5, 182, 232, 56), (0, 62));
    assert_eq!(boundary::millivolts(7, 186, 232, 56), (7, 0));
    assert_eq!(boundary::pwm_parts(0xFF), 256);
}
