//! What a sample of the W83L784R stores, compares and latches.

mod common;

use common::w83l784r::{
    any_running_state, any_sample, any_state, at, at_degrees, fan_rings, held, hysteresis_at,
    over_at, quiet, sample_at, set_limits, stored, value_at, CALM,
};
use common::{Rng, CROSSINGS};
use reference::w83l784r::{Monitor, Sample};
use reference::Mark;

#[test]
fn codes_go_to_20h_to_23h_in_their_order() {
    let mut m = quiet();
    let codes = [11, 22, 33, 44];
    assert_eq!(m.sample(&Sample { codes, ..CALM }), 0);
    for (index, code) in (0x20..=0x23).zip(codes) {
        assert_eq!(m.look(index), (0, code));
    }
}

/// High limit, low limit, code and bit: VIN1, VIN3 (VBAT), VIN2 (+3.3), VCC.
#[test]
fn each_rail_has_its_limits_and_its_bit_and_equal_is_fine() {
    for (rail, high, low, bit) in [
        (0, 0x2B, 0x2C, 0x01),
        (1, 0x2D, 0x2E, 0x02),
        (2, 0x2F, 0x30, 0x04),
        (3, 0x31, 0x32, 0x08),
    ] {
        let mut m = quiet();
        assert_eq!(m.write(high, 200), 0);
        assert_eq!(m.write(low, 100), 0);
        for (code, outside) in [
            (99, true),
            (100, false),
            (150, false),
            (200, false),
            (201, true),
            (0, true),
            (255, true),
        ] {
            let mut s = CALM;
            s.codes[rail] = code;
            assert_eq!(m.sample(&s), 0);
            let expected = if outside { bit } else { 0x00 };
            assert_eq!(m.look(0x45), (0, expected), "rail {rail} code {code}");
            assert_eq!(m.read(0x41), (0, expected), "rail {rail} code {code}");
            assert_eq!((m.look(0x46), m.read(0x42)), ((0, 0), (0, 0)));
        }
    }
}

#[test]
fn a_rail_latches_at_each_sample_outside() {
    let mut m = quiet();
    assert_eq!(m.write(0x2B, 10), 0);
    let mut s = CALM;
    s.codes[0] = 11;
    for _ in 0..3 {
        assert_eq!(m.sample(&s), 0);
        assert_eq!(m.read(0x41), (0, 0x01));
    }
    // Coming back into the range is no event.
    assert_eq!(m.sample(&CALM), 0);
    assert_eq!(m.read(0x41), (0, 0x00));
}

#[test]
fn each_sensor_has_its_bit() {
    for (sensor, bit) in [(1, 0x20), (2, 0x40), (3, 0x80)] {
        let mut m = quiet();
        set_limits(&mut m, sensor, 20, 10);
        for (degrees, above) in [
            (10, false),
            (11, true),
            (12, true),
            (7, false),
            (-128, false),
        ] {
            sample_at(&mut m, sensor, degrees);
            let expected = if above { bit } else { 0x00 };
            assert_eq!(m.look(0x45), (0, expected), "sensor {sensor} {degrees}");
        }
    }
}

#[test]
fn temperature_limits_are_signed() {
    for sensor in 1..=3 {
        let mut m = quiet();
        set_limits(&mut m, sensor, -20, -40);
        for (degrees, above) in [
            (-128, false),
            (-11, false),
            (-10, false),
            (-9, true),
            (0, true),
        ] {
            sample_at(&mut m, sensor, degrees);
            assert_eq!(m.look(0x45).1 != 0, above, "sensor {sensor} {degrees}");
        }
    }
}

/// Every sample byte with every offset byte, each sensor. The sum is held, never
/// wrapped.
#[test]
fn the_stored_temperature_is_the_sample_plus_the_offset_held() {
    for sensor in 1..=3_u8 {
        let mut m = quiet();
        for offset in -128..=127_i8 {
            assert_eq!(m.commission(sensor, offset), 0);
            for degrees in -128..=127_i8 {
                sample_at(&mut m, sensor, degrees);
                assert_eq!(
                    stored(&m, sensor),
                    held(degrees, offset),
                    "{degrees} and {offset}"
                );
                for other in (1..=3).filter(|other| *other != sensor) {
                    assert_eq!(stored(&m, other), 0);
                }
            }
        }
    }
}

#[test]
fn an_offset_is_a_whole_signed_byte() {
    for (byte, offset) in [(0x1F, 31), (0x20, 32), (0x3F, 63), (0xC0, -64), (0xFF, -1)] {
        let mut m = quiet();
        m.registers[at(0x91)] = byte;
        sample_at(&mut m, 2, 1);
        assert_eq!(stored(&m, 2), offset + 1, "{byte:02X}h");
    }
}

/// "00h below (whole cells)".
#[test]
fn a_sample_leaves_00h_below_the_degrees() {
    for sensor in [2, 3] {
        let mut m = quiet();
        let (high, low) = value_at(sensor);
        m.registers[low] = 0xFF;
        sample_at(&mut m, sensor, -2);
        assert_eq!((m.registers[high], m.registers[low]), (0xFE, 0x00));
        assert_eq!(m.look_sensor(sensor, 0x00), (0, 0xFE00));
    }
}

/// Conditions are on the stored temperature, not on the sample's.
#[test]
fn an_offset_moves_the_alarm() {
    for sensor in 1..=3 {
        let mut m = quiet();
        set_limits(&mut m, sensor, 160, 150);
        assert_eq!(m.commission(sensor, 10), 0);
        sample_at(&mut m, sensor, 70);
        assert_eq!(m.look(0x45), (0, 0x00));
        sample_at(&mut m, sensor, 71);
        assert_ne!(m.look(0x45), (0, 0x00));
    }
}

#[test]
fn counts_are_divided_rounded_down_and_end_at_255() {
    for byte in 0..=255_u8 {
        let mut m = quiet();
        assert_eq!(m.write(0x49, byte), 0);
        let divisor = [1_u64 << (byte % 8), 1 << (byte / 16 % 8)];
        for u in [
            0,
            1,
            2,
            3,
            127,
            128,
            255,
            256,
            32_639,
            32_640,
            32_767,
            32_768,
            u32::MAX,
        ] {
            assert_eq!(m.sample(&Sample { u: [u, u], ..CALM }), 0);
            for (index, divisor) in [(0x28, divisor[0]), (0x29, divisor[1])] {
                let count = u64::from(u) / divisor;
                let expected = if count < 255 { count as u8 } else { 255 };
                assert_eq!(m.look(index), (0, expected), "49h {byte:02X}h u {u}");
            }
        }
    }
}

/// Every divisor with every limit: a fan is slow from (L+1)d on, and a limit of
/// 255 never rings.
#[test]
fn a_fan_rings_exactly_from_its_product_on_and_limit_255_never() {
    for fan in 1..=2_u8 {
        for k in 0..8 {
            let d = 1_u32 << k;
            for limit in 0..=255_u8 {
                let mut m = quiet();
                assert_eq!(m.write(0x49, if fan == 1 { k } else { k << 4 }), 0);
                assert_eq!(m.write(0x3A + fan, limit), 0);
                let product = (u32::from(limit) + 1) * d;
                for u in [0, d - 1, product - 1, product, product + d, u32::MAX] {
                    let mut s = CALM;
                    s.u[usize::from(fan) - 1] = u;
                    assert_eq!(m.sample(&s), 0);
                    let expected = limit != 255 && u >= product;
                    assert_eq!(fan_rings(&m, fan), expected, "d {d} L {limit} u {u}");
                }
            }
        }
    }
}

/// A calm sample with one fan's u.
fn with_u(fan: u8, u: u32) -> Sample {
    let mut s = CALM;
    s.u[usize::from(fan) - 1] = u;
    s
}

#[test]
fn a_fan_latches_on_crossings_in_both_directions() {
    for fan in 1..=2 {
        let bit = fan;
        let mut m = quiet();
        assert_eq!(m.write(0x3A + fan, 100), 0);
        for (u, slow, latches) in CROSSINGS {
            assert_eq!(m.sample(&with_u(fan, u)), 0);
            let real_time = if slow { bit } else { 0x00 };
            assert_eq!(m.look(0x46), (0, real_time), "fan {fan} u {u}");
            let status = if latches { bit } else { 0x00 };
            assert_eq!(m.read(0x42), (0, status), "fan {fan} u {u}");
        }
    }
}

#[test]
fn a_changed_limit_or_divisor_may_cause_a_crossing_at_the_next_sample() {
    for fan in 1..=2_u8 {
        let bit = fan;
        let s = with_u(fan, 300);
        let mut m = quiet();
        assert_eq!(m.sample(&s), 0);
        assert_eq!(m.read(0x42), (0, 0x00));
        // Count 150 against limit 149; nothing moves before the sample.
        assert_eq!(m.write(0x3A + fan, 149), 0);
        assert_eq!((m.look(0x42), m.look(0x46)), ((0, 0), (0, 0)));
        assert_eq!(m.sample(&s), 0);
        assert_eq!((m.read(0x42), m.look(0x46)), ((0, bit), (0, bit)));
        assert_eq!(m.sample(&s), 0);
        assert_eq!((m.read(0x42), m.look(0x46)), ((0, 0), (0, bit)));
        // Divisor 4: count 75.
        assert_eq!(m.write(0x49, 0x22), 0);
        assert_eq!((m.look(0x42), m.look(0x46)), ((0, 0), (0, bit)));
        assert_eq!(m.sample(&s), 0);
        assert_eq!((m.read(0x42), m.look(0x46)), ((0, bit), (0, 0)));
    }
}

#[test]
fn a_reset_leaves_no_fan_slow_and_a_refused_sample_is_no_crossing() {
    for fan in 1..=2_u8 {
        let bit = fan;
        let mut m = Monitor::power_on();
        // Limit 0, divisor 2: slow from 2 on.
        assert_eq!(m.sample(&with_u(fan, 2)), 0);
        assert_eq!(m.read(0x42), (0, bit));
        assert_eq!(m.write(0x40, 0x00), 0);
        assert_eq!(m.sample(&with_u(fan, 0)), 4);
        assert_eq!(m.write(0x40, 0x01), 0);
        assert_eq!(m.sample(&with_u(fan, 2)), 0);
        assert_eq!(m.read(0x42), (0, 0x00));
        assert_eq!(m.write(0x40, 0x80), 0);
        assert_eq!(m.look(0x46), (0, 0x00));
        // Slow after a reset is a crossing again.
        assert_eq!(m.sample(&with_u(fan, 2)), 0);
        assert_eq!(m.read(0x42), (0, bit));
    }
}

#[test]
fn the_two_fans_cross_apart() {
    let mut m = Monitor::power_on();
    for (u, real_time, status) in [
        ([2, 0], 0x01, 0x01),
        ([2, 2], 0x03, 0x02),
        ([0, 2], 0x02, 0x01),
        ([2, 0], 0x01, 0x03),
        ([2, 0], 0x01, 0x00),
    ] {
        assert_eq!(m.sample(&Sample { u, ..CALM }), 0);
        assert_eq!(m.look(0x46), (0, real_time), "{u:?}");
        assert_eq!(m.read(0x42), (0, status), "{u:?}");
    }
}

#[test]
fn samples_are_taken_only_while_40h_bit_0_is_1_and_bit_1_is_0() {
    let mut rng = Rng::new(151);
    for configuration in 0..=255_u8 {
        let mut m = any_state(&mut rng);
        m.registers[at(0x40)] = configuration;
        let before = m;
        let runs = configuration % 4 == 1;
        assert_eq!(m.sample(&any_sample(&mut rng)), if runs { 0 } else { 4 });
        if !runs {
            assert_eq!(m, before, "40h {configuration:02X}h");
        }
    }
}

/// Registers that are only stored: whatever they hold, a sample does the same.
#[test]
fn stored_registers_stop_nothing() {
    let mut rng = Rng::new(152);
    let only_stored = [0x4A, 0x4B]
        .into_iter()
        .chain(0x52..=0x5B)
        .chain(0x80..=0x8F);
    let only_stored: Vec<u8> = only_stored.collect();
    for _ in 0..300 {
        let mut one = any_running_state(&mut rng);
        let mut other = one;
        for index in &only_stored {
            assert_eq!(other.write(*index, rng.byte()), 0);
        }
        let s = any_sample(&mut rng);
        assert_eq!((one.sample(&s), other.sample(&s)), (0, 0));
        for index in &only_stored {
            other.registers[at(*index)] = one.registers[at(*index)];
        }
        assert_eq!(one, other);
    }
}

/// The state after an accepted sample, worked out from the paper, cell by cell.
fn expected_after(before: &Monitor, s: &Sample) -> Monitor {
    let reg = |index| before.registers[at(index)];
    let mut after = *before;
    let (mut real_time_1, mut real_time_2) = (0_u8, 0_u8);
    let (mut latched_1, mut latched_2) = (0_u8, 0_u8);

    for rail in 0..4_u8 {
        let code = s.codes[usize::from(rail)];
        after.registers[at(0x20 + rail)] = code;
        let inside = reg(0x2C + 2 * rail)..=reg(0x2B + 2 * rail);
        if !inside.contains(&code) {
            real_time_1 |= 1 << rail;
            latched_1 |= 1 << rail;
        }
    }

    for fan in 0..2_u8 {
        let k = reg(0x49) >> (4 * fan) & 0b111;
        let count = u64::from(s.u[usize::from(fan)]) / 2_u64.pow(u32::from(k));
        let count = count.min(255) as u8;
        after.registers[at(0x28 + fan)] = count;
        let slow = count > reg(0x3B + fan);
        let was_slow = reg(0x46) >> fan & 1 == 1;
        real_time_2 |= u8::from(slow) << fan;
        latched_2 |= u8::from(slow != was_slow) << fan;
    }

    let nine = |(high, low): (usize, usize)| {
        2 * i32::from(before.registers[high] as i8) + i32::from(before.registers[low] / 128)
    };
    for place in 0..3_usize {
        let sensor = place as u8 + 1;
        let bit = 5 + place;
        let t = s.degrees[place].saturating_add(reg(0x8F + sensor) as i8);
        let (over, hysteresis) = if sensor == 1 {
            after.registers[at(0x27)] = t as u8;
            (
                2 * i32::from(reg(0x39) as i8),
                2 * i32::from(reg(0x3A) as i8),
            )
        } else {
            let (high, low) = value_at(sensor);
            after.registers[high] = t as u8;
            after.registers[low] = 0;
            (nine(over_at(sensor)), nine(hysteresis_at(sensor)))
        };
        let above = 2 * i32::from(t) > over;
        let below = 2 * i32::from(t) < hysteresis;
        let hot_if = |hot| if hot { Mark::Hot } else { Mark::Armed };
        real_time_1 |= u8::from(above) << bit;

        let hot = before.status_mark[place] == Mark::Hot;
        let rise = !hot && above;
        let fall = hot && below;
        let (latches, hot_after) = match reg(0x51) & 0b1100 {
            0b0000 => (above, above),
            0b1000 => (rise, hot && !fall || rise),
            _ => (rise || fall, hot && !fall || rise),
        };
        latched_1 |= u8::from(latches) << bit;
        after.status_mark[place] = hot_if(hot_after);

        let step = i32::from(reg(0x4F) & 0x7F);
        let q = match step {
            0 => 0,
            _ => (f64::from(t) / f64::from(step)).floor() as i8,
        };
        let hot = before.ovt_mark[place] == Mark::Hot;
        let was_asserted = before.ovt_asserted[place];
        let (asserted, hot_after) = match reg(0x50) & 0b11_0000 {
            0b00_0000 => (above || was_asserted && !below, above),
            0b01_0000 => {
                let turns = if hot { below } else { above };
                (was_asserted || turns, hot != turns)
            }
            _ => (step != 0 && q != before.quotient[place], above),
        };
        after.ovt_asserted[place] = asserted;
        after.ovt_mark[place] = hot_if(hot_after);
        after.quotient[place] = q;
    }

    after.registers[at(0x45)] = real_time_1;
    after.registers[at(0x46)] = real_time_2;
    after.registers[at(0x41)] |= latched_1;
    after.registers[at(0x42)] |= latched_2;
    after
}

#[test]
fn the_sample_rule_holds_from_every_state() {
    let mut rng = Rng::new(153);
    for round in 0..150_000 {
        let mut m = any_running_state(&mut rng);
        let mut s = any_sample(&mut rng);
        // Often near the limits, and with small steps and near counts.
        if round % 2 == 0 {
            for sensor in 1..=3_u8 {
                m.registers[at(0x8F + sensor)] = rng.below(4) as u8;
                let over = match sensor {
                    1 => at(0x39),
                    _ => over_at(sensor).0,
                };
                let near = m.registers[over].wrapping_add(rng.below(7) as u8);
                s.degrees[usize::from(sensor) - 1] = near.wrapping_sub(4) as i8;
            }
            m.registers[at(0x4F)] = rng.byte() & 0x87;
            s.u = [rng.below(600) as u32, rng.below(600) as u32];
        }
        let expected = expected_after(&m, &s);
        let before = m;
        assert_eq!(m.sample(&s), 0);
        assert_eq!(m, expected, "{before:?} {s:?}");
    }
}

#[test]
fn an_offset_or_a_limit_changes_nothing_before_the_next_sample() {
    let mut m = quiet();
    assert_eq!(m.sample(&at_degrees(1, 20)), 0);
    let before = m;
    assert_eq!(m.commission(1, 100), 0);
    assert_eq!(m.write(0x39, 0), 0);
    assert_eq!(m.look(0x27), before.look(0x27));
    assert_eq!(m.look(0x45), (0, 0x00));
    assert_eq!(m.look(0x41), (0, 0x00));
    assert_eq!(m.sample(&at_degrees(1, 20)), 0);
    assert_eq!(m.look(0x27), (0, 120));
    assert_eq!(m.look(0x45), (0, 0x20));
}
