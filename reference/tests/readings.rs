//! Decoded readings: millivolts, speed, temperature, PWM parts.

mod common;

use common::{any_state, at, Rng};
use reference::w83782d::{millivolts, pwm_parts, Monitor};
use reference::Speed;

#[test]
fn channels_0_to_2_are_16_millivolts_a_step() {
    for channel in 0..=2 {
        assert_eq!(millivolts(channel, 0, 0, 0), (0, 0));
        assert_eq!(millivolts(channel, 1, 0, 0), (0, 16));
        assert_eq!(millivolts(channel, 255, 0, 0), (0, 4_080));
    }
}

#[test]
fn plus_5_and_plus_12_are_rounded_to_the_nearest() {
    // 672/25 = 26.88; 1,344/25 = 53.76; 672 * 255 / 25 = 6,854.4.
    assert_eq!(millivolts(3, 0, 0, 0), (0, 0));
    assert_eq!(millivolts(3, 1, 0, 0), (0, 27));
    assert_eq!(millivolts(3, 2, 0, 0), (0, 54));
    assert_eq!(millivolts(3, 255, 0, 0), (0, 6_854));
    // 304/5 = 60.8; 608/5 = 121.6; 912/5 = 182.4; 304 * 255 / 5 = 15,504.
    assert_eq!(millivolts(4, 1, 0, 0), (0, 61));
    assert_eq!(millivolts(4, 2, 0, 0), (0, 122));
    assert_eq!(millivolts(4, 3, 0, 0), (0, 182));
    assert_eq!(millivolts(4, 255, 0, 0), (0, 15_504));
}

#[test]
fn both_negative_rails_use_the_callers_resistors() {
    for channel in [5, 6] {
        // Code 54 with 120 and 56: (864 * 176 - 432,000) / 56 = -4,998.857...
        assert_eq!(millivolts(channel, 54, 120, 56), (0, -4_999));
        // Code 0: -3600 R5 / R6.
        assert_eq!(millivolts(channel, 0, 1000, 1), (0, -3_600_000));
        assert_eq!(millivolts(channel, 0, 1, 1000), (0, -4));
        // Code 255 with 1000 and 1: 4,080 * 1,001 - 3,600,000.
        assert_eq!(millivolts(channel, 255, 1000, 1), (0, 484_080));
        // Code 225 gives VREF itself whatever the resistors.
        assert_eq!(millivolts(channel, 225, 7, 13), (0, 3_600));
    }
}

#[test]
fn half_millivolts_go_away_from_zero() {
    for channel in [5, 6] {
        // R5 1, R6 32: (33 c - 225) / 2.
        assert_eq!(millivolts(channel, 0, 1, 32), (0, -113));
        assert_eq!(millivolts(channel, 2, 1, 32), (0, -80));
        assert_eq!(millivolts(channel, 8, 1, 32), (0, 20));
        assert_eq!(millivolts(channel, 254, 1, 32), (0, 4_079));
    }
}

/// A monitor with one count and divisor exponent for all fans.
fn with_count(count: u8, k: u8) -> Monitor {
    let mut m = Monitor::power_on();
    let (low, top) = (k & 3, k >> 2);
    assert_eq!(m.write(0x47, low << 6 | low << 4), 0);
    assert_eq!(m.write(0x4B, low << 6), 0);
    assert_eq!(m.write(0x5D, top << 7 | top << 6 | top << 5), 0);
    for index in 0x28..=0x2A {
        m.registers[at(0, index)] = count;
    }
    m
}

#[test]
fn speed_is_rounded_to_the_nearest_halves_up() {
    for (count, k, tenths) in [
        (1, 0, 13_500_000),
        (32, 0, 421_875),
        // 210,937.5, 70,312.5 and 1,687.5.
        (1, 6, 210_938),
        (3, 6, 70_313),
        (125, 6, 1_688),
        // Table 1 of the data sheet with count 153; rounded once: ten times the rpm
        // would be 44,120.
        (153, 0, 88_235),
        (153, 1, 44_118),
        (153, 2, 22_059),
        (153, 3, 11_029),
        (153, 4, 5_515),
        (153, 5, 2_757),
        (153, 6, 1_379),
        (153, 7, 689),
        // 13,500,000 / 32,512 = 415.23, and not 420.
        (254, 7, 415),
        // 13,500,000 / 254 = 53,149.61.
        (254, 0, 53_150),
    ] {
        let m = with_count(count, k);
        for fan in 1..=3 {
            assert_eq!(m.speed(fan), Speed::Tenths(tenths), "count {count} k {k}");
        }
    }
}

#[test]
fn every_count_and_divisor_gives_the_nearest_speed() {
    let mut halves = 0;
    for k in 0..8 {
        for count in 1..=254 {
            let n = i64::from(count) << k;
            let Speed::Tenths(tenths) = with_count(count, k).speed(1) else {
                panic!("no number for count {count}");
            };
            // -n/2 < tenths * n - 13,500,000 <= n/2: nearest, halves up.
            let twice = 2 * (i64::from(tenths) * n - 13_500_000);
            assert!(-n < twice && twice <= n, "count {count} k {k}");
            halves += usize::from(twice == n);
        }
    }
    assert_eq!(halves, 47);
}

#[test]
fn count_0_is_too_fast_and_255_too_slow_with_every_divisor() {
    for k in 0..8 {
        for fan in 1..=3 {
            assert_eq!(with_count(0, k).speed(fan), Speed::TooFast);
            assert_eq!(with_count(255, k).speed(fan), Speed::TooSlow);
        }
    }
}

#[test]
fn speed_takes_the_divisor_now_set_and_each_fan_its_own() {
    let mut m = with_count(100, 1);
    // Fan 1 divisor 1, fan 2 divisor 8, fan 3 divisor 4 x 16 = 64.
    assert_eq!(m.write(0x47, 0b1100_0000), 0);
    assert_eq!(m.write(0x4B, 0b1000_0000), 0);
    assert_eq!(m.write(0x5D, 0b1000_0000), 0);
    assert_eq!(m.speed(1), Speed::Tenths(135_000));
    assert_eq!(m.speed(2), Speed::Tenths(16_875));
    // 2,109.375.
    assert_eq!(m.speed(3), Speed::Tenths(2_109));
    // The stored counts have not moved.
    for index in 0x28..=0x2A {
        assert_eq!(m.look(index), (0, 100));
    }
}

#[test]
fn temperatures_are_half_degrees_of_the_stored_bytes() {
    let mut m = Monitor::power_on();
    for (byte, half_degrees) in [(0x7F_u8, 254), (0x01, 2), (0xFF, -2), (0x80, -256)] {
        m.registers[at(0, 0x27)] = byte;
        assert_eq!(m.temperature(1), (0, half_degrees));
        for (sensor, bank) in [(2, 1), (3, 2)] {
            m.registers[at(bank, 0x50)] = byte;
            // Only bit 7 of the low byte counts.
            m.registers[at(bank, 0x51)] = 0x7F;
            assert_eq!(m.temperature(sensor), (0, half_degrees));
            m.registers[at(bank, 0x51)] = 0x80;
            assert_eq!(m.temperature(sensor), (0, half_degrees + 1));
        }
    }
}

#[test]
fn readings_do_not_look_at_the_bank_or_at_standby() {
    let mut rng = Rng::new(11);
    for _ in 0..500 {
        let m = any_state(&mut rng);
        let mut other = m;
        other.registers[at(0, 0x4E)] = rng.byte();
        other.registers[at(0, 0x40)] = rng.byte();
        for n in 1..=3 {
            assert_eq!(m.speed(n), other.speed(n));
            assert_eq!(m.temperature(n), other.temperature(n));
        }
        assert_eq!(m.standing_alarms(), other.standing_alarms());
    }
}

#[test]
fn pwm_byte_x_is_x_of_256_parts_and_ffh_all() {
    for x in 0..=254 {
        assert_eq!(pwm_parts(x), u16::from(x));
    }
    assert_eq!(pwm_parts(255), 256);
}
