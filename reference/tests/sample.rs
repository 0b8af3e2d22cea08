//! What a sample stores, its conditions, the real-time bits and what it latches.

mod common;

use common::{any_sample, any_state, at, peek, quiet, Rng, CALM, CROSSINGS};
use reference::w83782d::{Monitor, Sample};
use reference::Mark;

/// 41h, 42h by reads that clear them, and bank 4 59h, 5Ah.
fn bits(m: &mut Monitor) -> ([u8; 2], [u8; 2]) {
    let real_time = [peek(m, 4, 0x59), peek(m, 4, 0x5A)];
    let status = [m.read(0x41).1, m.read(0x42).1];
    (status, real_time)
}

#[test]
fn readings_are_stored_at_their_indexes() {
    let mut m = quiet();
    let s = Sample {
        codes: [10, 20, 30, 40, 50, 60, 70],
        t1: -55,
        t2: -110,
        t3: -1,
        // Divisor 2 at power-on.
        u: [7, 306, 1_000],
    };
    assert_eq!(m.sample(&s), 0);
    for channel in 0..7 {
        assert_eq!(m.read(0x20 + channel), (0, 10 * (channel + 1)));
    }
    // Table 2 of the data sheet: -55 is C9h, and 1,1001,0010 in nine bits.
    assert_eq!(m.read(0x27), (0, 0xC9));
    assert_eq!(m.read(0x28), (0, 3));
    assert_eq!(m.read(0x29), (0, 153));
    assert_eq!(m.read(0x2A), (0, 255));
    assert_eq!(peek(&m, 1, 0x50), 0xC9);
    assert_eq!(peek(&m, 1, 0x51), 0x00);
    // -0.5 is 1,1111,1111.
    assert_eq!(peek(&m, 2, 0x50), 0xFF);
    assert_eq!(peek(&m, 2, 0x51), 0x80);
    assert_eq!(m.temperature(1), (0, -110));
    assert_eq!(m.temperature(2), (0, -110));
    assert_eq!(m.temperature(3), (0, -1));
}

#[test]
fn temperatures_of_the_data_sheet_table() {
    for (half_degrees, nine_bits) in [
        (250, 0x0FA_u16),
        (50, 0x032),
        (2, 0x002),
        (1, 0x001),
        (0, 0x000),
        (-1, 0x1FF),
        (-2, 0x1FE),
        (-50, 0x1CE),
        (-110, 0x192),
        (255, 0x0FF),
        (-256, 0x100),
    ] {
        let mut m = quiet();
        let mut s = CALM;
        s.t2 = half_degrees;
        s.t3 = half_degrees;
        assert_eq!(m.sample(&s), 0);
        for bank in [1, 2] {
            assert_eq!(u16::from(peek(&m, bank, 0x50)), nine_bits >> 1);
            assert_eq!(u16::from(peek(&m, bank, 0x51)), (nine_bits & 1) << 7);
        }
    }
}

#[test]
fn the_stored_count_is_u_by_the_divisor_rounded_down_at_most_255() {
    // Divisor bits of fan 1 to 3: 47h bits 5-4, 7-6, 4Bh bits 7-6, top bit in
    // 5Dh bits 5, 6, 7.
    for k in 0..8_u8 {
        let d = 1_u32 << k;
        let (low, top) = (k & 3, k >> 2);
        let mut m = quiet();
        assert_eq!(m.write(0x47, low << 4 | low << 6), 0);
        assert_eq!(m.write(0x4B, low << 6), 0);
        assert_eq!(m.write(0x5D, top << 5 | top << 6 | top << 7), 0);
        for (u, stored) in [
            (0, 0),
            (d - 1, 0),
            (d, 1),
            (153 * d, 153),
            (254 * d + d - 1, 254),
            (255 * d, 255),
            (256 * d, 255),
            (u32::MAX, 255),
        ] {
            let mut s = CALM;
            s.u = [u; 3];
            assert_eq!(m.sample(&s), 0);
            for fan in 0..3 {
                assert_eq!(m.read(0x28 + fan), (0, stored), "d {d} u {u}");
            }
        }
    }
}

#[test]
fn each_condition_has_its_own_bit() {
    let mut calm = quiet();
    assert_eq!(calm.sample(&CALM), 0);
    assert_eq!(bits(&mut calm), ([0, 0], [0, 0]));
    // Voltages: high limit 99, code 100.
    for (channel, expected) in [
        [0x01, 0],
        [0x02, 0],
        [0x04, 0],
        [0x08, 0],
        [0, 0x01],
        [0, 0x02],
        [0, 0x04],
    ]
    .into_iter()
    .enumerate()
    {
        let mut m = quiet();
        assert_eq!(m.write(0x2B + 2 * channel as u8, 99), 0);
        let mut s = CALM;
        s.codes[channel] = 100;
        assert_eq!(m.sample(&s), 0);
        assert_eq!(bits(&mut m), (expected, expected), "channel {channel}");
    }
    // Temperatures: over limit 50 degrees, value 51.
    for (sensor, expected) in [(1, [0x10, 0]), (2, [0x20, 0]), (3, [0, 0x20])] {
        let mut m = quiet();
        common::set_limits(&mut m, sensor, 100, 80);
        assert_eq!(m.sample(&common::at_temperature(sensor, 102)), 0);
        assert_eq!(bits(&mut m), (expected, expected), "sensor {sensor}");
    }
    // Fans: limit 20, count 21 with divisor 2.
    for (fan, expected) in [[0x40, 0], [0x80, 0], [0, 0x08]].into_iter().enumerate() {
        let mut m = quiet();
        assert_eq!(m.write(0x3B + fan as u8, 20), 0);
        let mut s = CALM;
        s.u[fan] = 42;
        assert_eq!(m.sample(&s), 0);
        assert_eq!(bits(&mut m), (expected, expected), "fan {fan}");
    }
    // Chassis: 42h and 5Ah bit 4.
    let mut m = quiet();
    assert_eq!(m.chassis_opened(), 0);
    assert_eq!(m.sample(&CALM), 0);
    assert_eq!(bits(&mut m), ([0, 0x10], [0, 0x10]));
}

#[test]
fn a_voltage_equal_to_a_limit_is_fine() {
    for channel in 0..7_u8 {
        let mut m = quiet();
        assert_eq!(m.write(0x2B + 2 * channel, 200), 0);
        assert_eq!(m.write(0x2C + 2 * channel, 100), 0);
        for (code, outside) in [
            (99, true),
            (100, false),
            (150, false),
            (200, false),
            (201, true),
        ] {
            let mut s = CALM;
            s.codes[usize::from(channel)] = code;
            assert_eq!(m.sample(&s), 0);
            let (status, real_time) = bits(&mut m);
            assert_eq!(status, real_time);
            assert_eq!(status != [0, 0], outside, "channel {channel} code {code}");
        }
    }
}

#[test]
fn voltage_bits_latch_at_each_sample_and_real_time_bits_do_not() {
    let mut m = quiet();
    assert_eq!(m.write(0x2B, 99), 0);
    let mut bad = CALM;
    bad.codes[0] = 100;
    assert_eq!(m.sample(&bad), 0);
    assert_eq!(m.sample(&CALM), 0);
    // Status stays latched, real-time follows the last sample.
    assert_eq!(bits(&mut m), ([0x01, 0], [0, 0]));
    for _ in 0..3 {
        assert_eq!(m.sample(&bad), 0);
        assert_eq!(bits(&mut m), ([0x01, 0], [0x01, 0]));
    }
}

/// 41h and 42h, or 59h and 5Ah, with the bit of one fan or none.
fn fan_bit(fan: u8, on: bool) -> [u8; 2] {
    let bit = [[0x40, 0], [0x80, 0], [0, 0x08]][usize::from(fan) - 1];
    if on {
        bit
    } else {
        [0, 0]
    }
}

/// A calm sample with one fan's u.
fn with_u(fan: u8, u: u32) -> Sample {
    let mut s = CALM;
    s.u[usize::from(fan) - 1] = u;
    s
}

/// C-14, here and below.
#[test]
fn a_fan_latches_on_crossings_in_both_directions() {
    for fan in 1..=3 {
        let mut m = quiet();
        assert_eq!(m.write(0x3A + fan, 100), 0);
        for (u, slow, latches) in CROSSINGS {
            assert_eq!(m.sample(&with_u(fan, u)), 0);
            let expected = (fan_bit(fan, latches), fan_bit(fan, slow));
            assert_eq!(bits(&mut m), expected, "fan {fan} u {u}");
        }
    }
}

#[test]
fn a_fan_bit_stays_latched_until_it_is_read() {
    for fan in 1..=3 {
        let mut m = quiet();
        assert_eq!(m.write(0x3A + fan, 100), 0);
        for u in [202, 202, 0, 0, 202] {
            assert_eq!(m.sample(&with_u(fan, u)), 0);
        }
        assert_eq!(bits(&mut m), (fan_bit(fan, true), fan_bit(fan, true)));
        assert_eq!(m.sample(&with_u(fan, 202)), 0);
        assert_eq!(bits(&mut m), (fan_bit(fan, false), fan_bit(fan, true)));
    }
}

#[test]
fn a_changed_limit_divisor_or_plan_may_cause_a_crossing_at_the_next_sample() {
    for fan in 1..=3 {
        let [none, one] = [false, true].map(|on| fan_bit(fan, on));
        let s = with_u(fan, 300);
        let mut m = quiet();
        assert_eq!(m.sample(&s), 0);
        assert_eq!(bits(&mut m), (none, none));
        // Count 150 against limit 149; nothing moves before the sample.
        assert_eq!(m.write(0x3A + fan, 149), 0);
        assert_eq!(bits(&mut m), (none, none));
        assert_eq!(m.sample(&s), 0);
        assert_eq!(bits(&mut m), (one, one));
        assert_eq!(m.sample(&s), 0);
        assert_eq!(bits(&mut m), (none, one));
        // Limit 255 never rings.
        assert_eq!(m.write(0x3A + fan, 255), 0);
        assert_eq!(bits(&mut m), (none, one));
        assert_eq!(m.sample(&s), 0);
        assert_eq!(bits(&mut m), (one, none));
        // 4,500 rpm: K is 300, and d 2 with L 149 rings from 300 on.
        assert_eq!(m.set_plan(fan, 4_500), 0);
        assert_eq!(bits(&mut m), (none, none));
        assert_eq!(m.sample(&s), 0);
        assert_eq!(bits(&mut m), (one, one));
        // Divisor 4 or 8 for all: count 75 or 37.
        assert_eq!(m.write(0x47, 0xA0), 0);
        assert_eq!(m.write(0x4B, 0xC4), 0);
        assert_eq!(bits(&mut m), (none, one));
        assert_eq!(m.sample(&s), 0);
        assert_eq!(bits(&mut m), (one, none));
    }
}

#[test]
fn a_reset_leaves_no_fan_slow_and_a_refused_sample_is_no_crossing() {
    for fan in 1..=3 {
        let [none, one] = [false, true].map(|on| fan_bit(fan, on));
        // Limit 0, divisor 2: slow from 2 on. Rails ring too, so the fans' bits alone.
        let fans = |m: &mut Monitor| {
            let (status, real_time) = bits(m);
            let masked = |[first, second]: [u8; 2]| [first & 0xC0, second & 0x08];
            (masked(status), masked(real_time))
        };
        let mut fast = CALM;
        fast.u = [0; 3];
        let mut slow_alone = fast;
        slow_alone.u[usize::from(fan) - 1] = 2;
        let mut m = Monitor::power_on();
        assert_eq!(m.sample(&slow_alone), 0);
        assert_eq!(fans(&mut m), (one, one));
        assert_eq!(m.write(0x40, 0x00), 0);
        assert_eq!(m.sample(&fast), 4);
        assert_eq!(m.write(0x40, 0x01), 0);
        let mut out_of_range = fast;
        out_of_range.t2 = 256;
        assert_eq!(m.sample(&out_of_range), 3);
        assert_eq!(m.sample(&slow_alone), 0);
        assert_eq!(fans(&mut m), (none, one));
        // Slow after a reset is a crossing again.
        assert_eq!(m.write(0x40, 0x80), 0);
        assert_eq!(fans(&mut m), (none, none));
        assert_eq!(m.sample(&slow_alone), 0);
        assert_eq!(fans(&mut m), (one, one));
    }
}

#[test]
fn the_three_fans_cross_apart() {
    let mut m = quiet();
    for index in 0x3B..=0x3D {
        assert_eq!(m.write(index, 0), 0);
    }
    for (u, status, real_time) in [
        ([2, 0, 0], [0x40, 0x00], [0x40, 0x00]),
        ([2, 2, 0], [0x80, 0x00], [0xC0, 0x00]),
        ([0, 2, 2], [0x40, 0x08], [0x80, 0x08]),
        ([2, 0, 0], [0xC0, 0x08], [0x40, 0x00]),
        ([2, 0, 0], [0x00, 0x00], [0x40, 0x00]),
    ] {
        let mut s = CALM;
        s.u = u;
        assert_eq!(m.sample(&s), 0);
        assert_eq!(bits(&mut m), (status, real_time), "{u:?}");
    }
}

#[test]
fn a_count_equal_to_its_limit_is_fine_and_limit_255_never_rings() {
    let mut m = quiet();
    assert_eq!(m.write(0x3B, 20), 0);
    for (u, rings) in [(41, false), (42, true)] {
        let mut s = CALM;
        s.u = [u, u32::MAX, u32::MAX];
        assert_eq!(m.sample(&s), 0);
        let expected = if rings { [0x40, 0] } else { [0, 0] };
        assert_eq!(bits(&mut m), (expected, expected));
    }
}

#[test]
fn temperature_limits_are_signed() {
    for sensor in 1..=3 {
        let mut m = quiet();
        common::set_limits(&mut m, sensor, -20, -40);
        for (value, above) in [
            (-256, false),
            (-22, false),
            (-20, false),
            (-18, true),
            (0, true),
        ] {
            assert_eq!(m.sample(&common::at_temperature(sensor, value)), 0);
            let (_, real_time) = bits(&mut m);
            assert_eq!(real_time != [0, 0], above, "sensor {sensor} at {value}");
        }
    }
}

#[test]
fn half_a_degree_counts_for_sensors_2_and_3() {
    for sensor in [2, 3] {
        let mut m = quiet();
        common::set_limits(&mut m, sensor, 101, 80);
        for (value, above) in [(100, false), (101, false), (102, true)] {
            assert_eq!(m.sample(&common::at_temperature(sensor, value)), 0);
            let (_, real_time) = bits(&mut m);
            assert_eq!(real_time != [0, 0], above, "sensor {sensor} at {value}");
        }
    }
}

#[test]
fn the_sensor_stop_and_disable_bits_stop_nothing() {
    let mut m = quiet();
    // 4Ah bits 7, 3; 4Ch bits 4-2; 52h bit 0 of banks 1 and 2.
    assert_eq!(m.write(0x4A, 0xFF), 0);
    assert_eq!(m.write(0x4C, 0x1C), 0);
    for (sensor, bank) in [(2, 1), (3, 2)] {
        common::poke(&mut m, bank, 0x52, 0x19);
        common::set_limits(&mut m, sensor, 100, 80);
    }
    let mut s = CALM;
    s.t2 = 101;
    s.t3 = 102;
    assert_eq!(m.sample(&s), 0);
    assert_eq!(peek(&m, 1, 0x50), 50);
    assert_eq!(peek(&m, 1, 0x51), 0x80);
    assert_eq!(peek(&m, 2, 0x50), 51);
    assert!(m.ovt(2) && m.ovt(3));
    assert_eq!(bits(&mut m), ([0x20, 0x20], [0x20, 0x20]));
}

/// The state after an accepted sample, worked out from the paper, cell by cell.
fn expected_after(before: &Monitor, s: &Sample) -> Monitor {
    let reg = |bank, index| before.registers[at(bank, index)];
    let mut after = *before;
    let mut real_time = [0_u8; 2];
    let mut latched = [0_u8; 2];

    let voltage_bit = [(0, 0), (0, 1), (0, 2), (0, 3), (1, 0), (1, 1), (1, 2)];
    for (i, (byte, bit)) in voltage_bit.into_iter().enumerate() {
        let n = i as u8;
        after.registers[at(0, 0x20 + n)] = s.codes[i];
        if s.codes[i] > reg(0, 0x2B + 2 * n) || s.codes[i] < reg(0, 0x2C + 2 * n) {
            real_time[byte] |= 1 << bit;
            latched[byte] |= 1 << bit;
        }
    }

    let exponent = [
        (reg(0, 0x47) >> 4) % 4 + 4 * ((reg(0, 0x5D) >> 5) % 2),
        (reg(0, 0x47) >> 6) + 4 * ((reg(0, 0x5D) >> 6) % 2),
        (reg(0, 0x4B) >> 6) + 4 * (reg(0, 0x5D) >> 7),
    ];
    let fan_bit = [(0, 6), (0, 7), (1, 3)];
    for (i, (byte, bit)) in fan_bit.into_iter().enumerate() {
        let n = i as u8;
        let count = u64::from(s.u[i]) / 2_u64.pow(u32::from(exponent[i]));
        let count = if count > 255 { 255 } else { count as u8 };
        after.registers[at(0, 0x28 + n)] = count;
        let slow = count > reg(0, 0x3B + n);
        let was_slow = reg(4, 0x59 + byte as u8) >> bit & 1 == 1;
        if slow {
            real_time[byte] |= 1 << bit;
        }
        if slow != was_slow {
            latched[byte] |= 1 << bit;
        }
    }

    after.registers[at(0, 0x27)] = s.t1 as u8;
    for (bank, t) in [(1, s.t2), (2, s.t3)] {
        let nine_bits = t.rem_euclid(512);
        after.registers[at(bank, 0x50)] = (nine_bits / 2) as u8;
        after.registers[at(bank, 0x51)] = if nine_bits % 2 == 1 { 0x80 } else { 0 };
    }

    let nine = |high: u8, low: u8| 2 * i32::from(high as i8) + i32::from(low / 128);
    let sensor_bit = [(0, 4), (0, 5), (1, 5)];
    for (i, (byte, bit)) in sensor_bit.into_iter().enumerate() {
        let (value, over, hysteresis, comparator) = match i {
            0 => (
                2 * i32::from(s.t1),
                nine(reg(0, 0x39), 0),
                nine(reg(0, 0x3A), 0),
                reg(0, 0x3A) == 127,
            ),
            _ => {
                let bank = i as u8;
                (
                    i32::from(if i == 1 { s.t2 } else { s.t3 }),
                    nine(reg(bank, 0x55), reg(bank, 0x56)),
                    nine(reg(bank, 0x53), reg(bank, 0x54)),
                    reg(0, 0x4C) & 0x40 != 0,
                )
            }
        };
        let above = value > over;
        let below = value < hysteresis;
        let hot_if = |hot| if hot { Mark::Hot } else { Mark::Armed };
        if above {
            real_time[byte] |= 1 << bit;
        }
        let hot = before.status_mark[i] == Mark::Hot;
        let latches = if comparator {
            above
        } else {
            !hot && above || hot && below
        };
        if latches {
            latched[byte] |= 1 << bit;
        }
        after.status_mark[i] = if comparator {
            hot_if(above)
        } else {
            hot_if(hot != latches)
        };
        if i > 0 {
            let hot = before.ovt_mark[i - 1] == Mark::Hot;
            if reg(i as u8, 0x52) & 2 == 0 {
                after.ovt_mark[i - 1] = hot_if(above);
                after.ovt_asserted[i - 1] = above || before.ovt_asserted[i - 1] && !below;
            } else {
                let step = !hot && above || hot && below;
                after.ovt_mark[i - 1] = hot_if(hot != step);
                after.ovt_asserted[i - 1] |= step;
            }
        }
    }

    after.registers[at(4, 0x59)] = real_time[0];
    after.registers[at(4, 0x5A)] = real_time[1];
    after.registers[at(0, 0x41)] |= latched[0];
    after.registers[at(0, 0x42)] |= latched[1];
    after
}

#[test]
fn the_sample_rule_holds_from_every_state() {
    let mut rng = Rng::new(6);
    let mut accepted = 0;
    for round in 0..200_000 {
        let mut m = any_state(&mut rng);
        if round % 4 != 0 {
            m.registers[at(0, 0x40)] = m.registers[at(0, 0x40)] & !0x09 | 0x01;
        }
        if round % 3 == 0 {
            m.registers[at(0, 0x3A)] = 127;
        }
        let s = any_sample(&mut rng);
        let runs = m.registers[at(0, 0x40)] & 0x09 == 0x01;
        let expected = if runs { expected_after(&m, &s) } else { m };
        assert_eq!(m.sample(&s), if runs { 0 } else { 4 });
        assert_eq!(m, expected);
        accepted += u32::from(runs);
    }
    assert!(accepted > 100_000);
}
