//! Samples, with limits at, above and below what they carry.

use crate::accesses::starts;
use crate::boundary;
use crate::calls::{Call, Expected, LIBRARY, WRAPPER};
use crate::common::lists::{step, Model};
use crate::common::report;
use crate::common::rng::Rng;
use crate::image::{near_power_on, power_on, random, Image, CHASSIS, LENGTH};
use crate::records::bytes;
use reference::w83782d::{cell, Sample};

/// Half degrees at the ends of what is allowed, and of what a record can hold.
pub const HALF_DEGREES: [i16; 12] = [
    i16::MIN,
    -32_512,
    -512,
    -257,
    -256,
    -255,
    -1,
    0,
    255,
    256,
    511,
    i16::MAX,
];

/// Any sample, its temperatures mostly near the ends of their range.
pub fn any_sample(rng: &mut Rng) -> Sample {
    let mut codes = [0; 7];
    codes.fill_with(|| rng.byte());
    let mut half_degrees = || match rng.below(4) {
        0 => rng.next() as i16,
        1 => rng.pick(&HALF_DEGREES),
        _ => rng.below(512) as i16 - 256,
    };
    let (t2, t3) = (half_degrees(), half_degrees());
    Sample {
        codes,
        t1: rng.byte() as i8,
        t2,
        t3,
        u: [(); 3].map(|()| rng.next() as u32 >> rng.below(32)),
    }
}

pub fn wrapped(sample: &Sample) -> w83782d::Sample {
    w83782d::Sample {
        codes: sample.codes,
        sensor_1: sample.t1,
        sensor_2: sample.t2,
        sensor_3: sample.t3,
        counts: sample.u,
    }
}

/// Bytes that limits and readings are picked from, so that they often meet: the
/// ends of both orders and the power-on limits of sensors 2 and 3.
pub const ANCHORS: [u8; 8] = [0x00, 0x01, 0x4B, 0x50, 0x7F, 0x80, 0x81, 0xFF];

/// A sample that is nearly always accepted while monitoring is on, with readings
/// at and beside the anchors.
pub fn near_sample(rng: &mut Rng) -> Sample {
    let mut near = || rng.pick(&ANCHORS).wrapping_add(rng.pick(&[0, 0, 1, 0xFF]));
    let mut codes = [0; 7];
    codes.fill_with(&mut near);
    let t1 = near() as i8;
    let [high_2, high_3] = [(); 2].map(|()| i16::from(near() as i8));
    let counts = [(); 3].map(|()| u32::from(near()));
    let mut half = || rng.below(2) as i16;
    let mut sample = Sample {
        codes,
        t1,
        t2: 2 * high_2 + half(),
        t3: 2 * high_3 + half(),
        u: counts.map(|count| (count << rng.below(8)).wrapping_add(rng.pick(&[u32::MAX, 0, 1]))),
    };
    if rng.one_in(32) {
        sample.t3 = rng.pick(&HALF_DEGREES);
    }
    sample
}

fn hold(start: &Image, sample: Sample, origin: &str) {
    report::hold(LIBRARY, start, &[Call::Sample(sample)], origin);
}

/// Monitoring: 40h bit 0 at 1 and bit 3 at 0; the other bits stay.
pub fn monitoring(mut image: Image) -> Image {
    let configuration = &mut image[cell(0, 0x40)];
    *configuration = *configuration & !0x08 | 0x01;
    image
}

/// Nothing out of its limits in an image of `calm_limits`.
pub const CALM: Sample = Sample {
    codes: [0x40; 7],
    t1: 0,
    t2: 0,
    t3: 0,
    u: [64; 3],
};

pub fn calm_limits(mut image: Image) -> Image {
    for channel in 0..7 {
        image[cell(0, 0x2B) + 2 * channel] = 0xFF;
        image[cell(0, 0x2C) + 2 * channel] = 0x00;
    }
    image[cell(0, 0x39)] = 0x7F;
    image[cell(0, 0x3A)] = 0x80;
    image[cell(0, 0x3B)..][..3].fill(0xFF);
    image
}

// ---- Any sample from any state

#[test]
fn samples_agree_from_power_on_and_from_any_image() {
    for (seed, (origin, start)) in (0..).zip(starts(60_000)) {
        let mut rng = Rng::new(seed);
        hold(&start, near_sample(&mut rng), &origin);
        hold(&monitoring(start), near_sample(&mut rng), &origin);
        hold(&monitoring(start), any_sample(&mut rng), &origin);
    }
}

#[test]
fn the_wrapper_takes_samples_alike() {
    for seed in 0..50_000 {
        let mut rng = Rng::new(seed);
        let start = monitoring(random(&mut rng));
        let calls = [
            Call::Sample(near_sample(&mut rng)),
            Call::Sample(any_sample(&mut rng)),
        ];
        report::hold(WRAPPER, &start, &calls, &format!("seed {seed}"));
    }
}

/// Every byte of 40h: 4 "while 40h bit 0 is 0 or bit 3 is 1", and 3 before 4.
#[test]
fn every_configuration_byte_takes_or_refuses_a_sample_alike() {
    let mut rng = Rng::new(0);
    for configuration in 0..=255 {
        for t in HALF_DEGREES {
            for (t2, t3) in [(t, 0), (0, t), (t, -t.max(-256))] {
                let mut start = random(&mut rng);
                start[cell(0, 0x40)] = configuration;
                hold(&start, Sample { t2, t3, ..CALM }, "");
            }
        }
    }
}

// ---- Voltages

/// Each code of each channel, the limits beside it and at it.
#[test]
fn codes_at_their_limits_agree() {
    let mut rng = Rng::new(0);
    for channel in 0..7 {
        for code in 0..=255_u8 {
            for high in [code.wrapping_sub(1), code, code.wrapping_add(1), rng.byte()] {
                for low in [code.wrapping_sub(1), code, code.wrapping_add(1), rng.byte()] {
                    let mut start = calm_limits(near_power_on(&mut rng));
                    start[cell(0, 0x2B) + 2 * channel] = high;
                    start[cell(0, 0x2C) + 2 * channel] = low;
                    let mut sample = CALM;
                    sample.codes[channel] = code;
                    hold(&monitoring(start), sample, &format!("channel {channel}"));
                }
            }
        }
    }
}

// ---- Fans

/// Each limit under each divisor, with counts on both sides of each step.
#[test]
fn counts_at_their_limits_agree_under_every_divisor() {
    let mut rng = Rng::new(0);
    for fan in 0..3 {
        for k in 0..8 {
            let start = monitoring(with_divisor(random(&mut rng), fan, k));
            for limit in 0..=255_u32 {
                let (below, above) = (limit << k, (limit + 1) << k);
                let cap = 255 << k;
                for u in [
                    below.wrapping_sub(1),
                    below,
                    above - 1,
                    above,
                    above + 1,
                    cap - 1,
                    cap,
                    256 << k,
                    above | 1 << 31,
                    u32::MAX,
                ] {
                    let mut start = start;
                    start[cell(0, 0x3B) + fan] = limit as u8;
                    let mut sample = CALM;
                    sample.u[fan] = u;
                    hold(&start, sample, &format!("fan {}, k {k}", fan + 1));
                }
            }
        }
    }
}

/// The image with a divisor of 2 to the power k on a fan, 0 being fan 1: its low
/// bits from 47h 5-4, 47h 7-6, 4Bh 7-6, its top bit from 5Dh 5, 6, 7.
pub fn with_divisor(mut image: Image, fan: usize, k: u8) -> Image {
    let (index, bit) = [(0x47, 4), (0x47, 6), (0x4B, 6)][fan];
    let low = &mut image[cell(0, index)];
    *low = *low & !(0x03 << bit) | (k & 0x03) << bit;
    let top = &mut image[cell(0, 0x5D)];
    *top = *top & !(0x20 << fan) | (k >> 2) << (5 + fan);
    image
}

/// "Run: d 2, L 152, u 306 rings and 305 doesn't."
#[test]
fn the_run_of_the_paper_comes_out() {
    for (u, fan_1_bit) in [(306, 0x40), (305, 0x00)] {
        let mut image = calm_limits(power_on());
        assert_eq!(boundary::write(&mut image, 0x3B, 152), 0);
        let sample = Sample {
            u: [u, 64, 64],
            ..CALM
        };
        assert_eq!(boundary::sample(&mut image, &sample.codes, &sample), 0);
        assert_eq!(boundary::write(&mut image, 0x4E, 0x04), 0);
        assert_eq!(boundary::read(&mut image, 0x59), (0, fan_1_bit));
        assert_eq!(boundary::read(&mut image, 0x41), (0, fan_1_bit));
    }
}

// ---- Temperatures

/// Every value of sensor 1 against every over limit, with both marks; hysteresis
/// beside the value, at it, at 127 and anywhere.
#[test]
fn sensor_1_agrees_at_every_limit() {
    let mut rng = Rng::new(0);
    let start = monitoring(calm_limits(power_on()));
    for value in 0..=255_u8 {
        for over in 0..=255 {
            let hysteresis = [value.wrapping_sub(1), value, value.wrapping_add(1), 127];
            let mut start = start;
            start[cell(0, 0x39)] = over;
            start[cell(0, 0x3A)] = match rng.below(5) {
                place @ 0..=3 => hysteresis[place as usize],
                _ => rng.byte(),
            };
            let t1 = value as i8;
            hold(&start, Sample { t1, ..CALM }, "armed");
            start[113] = rng.pick(&[0x01, 0x80]);
            hold(&start, Sample { t1, ..CALM }, "hot");
        }
    }
}

/// A temperature of nine bits as high byte and low byte, the latter with any bits
/// below its bit 7.
fn nine_bits(half_degrees: i16, odd: u8) -> [u8; 2] {
    let low = (half_degrees as u8 & 1) << 7;
    [(half_degrees >> 1) as u8, low | odd & 0x7F]
}

/// Every value of sensors 2 and 3 with limits beside it and at it, in every mode
/// and with every flag. Limits beyond the range come in at its other end.
#[test]
fn sensors_2_and_3_agree_at_every_limit() {
    let mut rng = Rng::new(0);
    for sensor in [2, 3] {
        let bank = sensor - 1;
        for t in -256..=255 {
            for [over, hysteresis] in pairs([t - 1, t, t + 1]) {
                for choice in 0..32 {
                    let mut start = monitoring(calm_limits(near_power_on(&mut rng)));
                    let odd = rng.byte();
                    start[cell(bank, 0x55)..][..2].copy_from_slice(&nine_bits(over, odd));
                    start[cell(bank, 0x53)..][..2].copy_from_slice(&nine_bits(hysteresis, odd));
                    let mode = &mut start[cell(0, 0x4C)];
                    *mode = *mode & !0x40 | (choice & 1) << 6;
                    let mode = &mut start[cell(bank, 0x52)];
                    *mode = *mode & !0x02 | choice & 2;
                    for flag in 0..3 {
                        start[114 + 3 * usize::from(bank - 1) + flag] = choice & 4 << flag;
                    }
                    let sample = match sensor {
                        2 => Sample { t2: t, ..CALM },
                        _ => Sample { t3: t, ..CALM },
                    };
                    hold(&start, sample, &format!("sensor {sensor}"));
                }
            }
        }
    }
}

fn pairs<T: Copy>(from: [T; 3]) -> impl Iterator<Item = [T; 2]> {
    from.into_iter()
        .flat_map(move |first| from.map(|second| [first, second]))
}

/// All 65,536 values of each, stopped or not.
#[test]
fn every_temperature_is_taken_or_refused_alike() {
    let mut rng = Rng::new(0);
    let mut stopped = random(&mut rng);
    stopped[cell(0, 0x40)] &= !0x01;
    let running = monitoring(random(&mut rng));
    for t in i16::MIN..=i16::MAX {
        for (t2, t3) in [(t, 0), (0, t), (t, t)] {
            hold(&running, Sample { t2, t3, ..CALM }, "running");
            hold(&stopped, Sample { t2, t3, ..CALM }, "stopped");
        }
    }
}

// ---- Excursions

/// All three sensors at so many degrees.
fn at(degrees: i8) -> Call {
    let half_degrees = 2 * i16::from(degrees);
    Call::Sample(Sample {
        t1: degrees,
        t2: half_degrees,
        t3: half_degrees,
        ..CALM
    })
}

fn write(index: u8, value: u8) -> Call {
    Call::Write { index, value }
}

/// Below hysteresis, between the limits, above the over limit; both modes of
/// status and OVT; reads that clear and release; reset; stop and start; chassis.
fn actions() -> Vec<Call> {
    let read = |index| Call::Read { index };
    vec![
        at(70),
        at(77),
        at(85),
        write(0x3A, 127),
        write(0x3A, 75),
        write(0x4C, 0x41),
        write(0x4C, 0x01),
        write(0x52, 0x02),
        write(0x52, 0x00),
        read(0x41),
        read(0x42),
        read(0x50),
        write(0x40, 0x80),
        write(0x40, 0x02),
        write(0x40, 0x0B),
        write(0x40, 0x03),
        Call::ChassisOpened,
        write(0x46, 0x80),
    ]
}

/// Every list of so many actions, a common beginning walked once; gives the
/// number of calls made.
fn walk(actions: &[Call], start: &Image, more: u32, origin: &str) -> u64 {
    let before = (Expected::of(start), *start);
    walk_on(actions, start, &before, &mut Vec::new(), more, origin)
}

fn walk_on(
    actions: &[Call],
    start: &Image,
    so_far: &(Expected, Image),
    path: &mut Vec<Call>,
    more: u32,
    origin: &str,
) -> u64 {
    if more == 0 {
        return 0;
    }
    let mut calls = 0;
    for action in actions {
        let (mut expected, mut found) = so_far.clone();
        let alike = step(LIBRARY, &mut expected, &mut found, action);
        path.push(action.clone());
        if !alike {
            report::hold(LIBRARY, start, path, origin);
        }
        calls += 1 + walk_on(actions, start, &(expected, found), path, more - 1, origin);
        path.pop();
    }
    calls
}

/// The number of lists of 1 to so many actions.
fn lists(actions: &[Call], most: u32) -> u64 {
    (1..=most).map(|n| (actions.len() as u64).pow(n)).sum()
}

/// All limits at 80 and 75 degrees, in the bank of sensor 2 and of sensor 3, with
/// every mark armed or every mark hot.
#[test]
fn every_short_excursion_agrees() {
    for bank in [1, 2] {
        for flags in [0, 1] {
            let mut start = calm_limits(power_on());
            start[cell(0, 0x39)] = 80;
            start[cell(0, 0x3A)] = 75;
            start[cell(0, 0x40)] = 0x03;
            start[cell(0, 0x4E)] = bank;
            start[CHASSIS + 1..][..7].fill(flags);
            let origin = format!("bank {bank}, flags {flags}");
            assert_eq!(walk(&actions(), &start, 4, &origin), lists(&actions(), 4));
        }
    }
}

/// One fan slow, the others not; none slow; limits, divisors and plans that move the
/// alarm across the count; reads that clear, and one that doesn't; a sample that is
/// refused; chassis; reset; stop and start.
fn fan_actions(fan: u8) -> Vec<Call> {
    let place = usize::from(fan) - 1;
    let sample = |u| {
        let mut sample = CALM;
        sample.u[place] = u;
        Call::Sample(sample)
    };
    let read = |index| Call::Read { index };
    vec![
        sample(305),
        sample(306),
        Call::Sample(Sample { t2: 256, ..CALM }),
        write(0x3A + fan, 152),
        write(0x3A + fan, 255),
        write(0x47, 0xA0),
        write(0x4B, 0x84),
        write(0x5D, 0xE0),
        Call::SetPlan { fan, rpm: 4_400 },
        read(0x41),
        read(0x42),
        read(0x59),
        Call::ChassisOpened,
        write(0x40, 0x80),
        write(0x40, 0x02),
        write(0x40, 0x03),
    ]
}

/// Every fan at a limit of 152 with divisor 2, its real-time bit set or not and so the
/// bits beside it; in bank 0, where 5Dh is written, and in bank 4, where 59h is read.
#[test]
fn every_short_list_around_a_fans_crossing_agrees() {
    for fan in 1..=3 {
        let actions = fan_actions(fan);
        for (bank, before) in [(0, 0x00), (0, 0xFF), (4, 0x00), (4, 0xFF)] {
            let mut start = calm_limits(power_on());
            start[cell(0, 0x3B)..][..3].fill(152);
            start[cell(0, 0x40)] = 0x03;
            start[cell(0, 0x4E)] = bank;
            start[cell(4, 0x59)..][..2].fill(before);
            let origin = format!("fan {fan}, bank {bank}, real-time bits {before:02X}h");
            assert_eq!(walk(&actions, &start, 4, &origin), lists(&actions, 4));
        }
    }
}

/// A long excursion by half degrees over both limits and back, other than it went
/// up, with one action anywhere in it.
#[test]
fn an_action_anywhere_in_a_slow_excursion_agrees() {
    let path: Vec<i16> = (146..=164).chain((146..164).rev()).collect();
    let slow: Vec<Call> = path
        .iter()
        .map(|&half_degrees| {
            Call::Sample(Sample {
                t1: (half_degrees / 2) as i8,
                t2: half_degrees,
                t3: 310 - half_degrees,
                ..CALM
            })
        })
        .collect();
    for bank in [1, 2] {
        for modes in 0..8 {
            let mut start = calm_limits(power_on());
            start[cell(0, 0x39)] = 80;
            start[cell(0, 0x3A)] = if modes & 1 == 0 { 75 } else { 127 };
            start[cell(0, 0x40)] = 0x03;
            start[cell(0, 0x4C)] = (modes & 2) << 5 | 0x01;
            start[cell(0, 0x4E)] = bank;
            start[cell(bank, 0x52)] = (modes & 4) >> 1;
            for place in 0..=slow.len() {
                for action in actions() {
                    let mut calls = slow.clone();
                    calls.insert(place, action);
                    let origin = format!("bank {bank}, modes {modes}, place {place}");
                    report::hold(LIBRARY, &start, &calls, &origin);
                }
            }
        }
    }
}

// ---- Lengths

/// 8 for the image or the codes, before 3 and 4; every byte of the image is kept.
#[test]
fn codes_or_an_image_of_another_length_are_answered_8_and_kept() {
    let lengths = [0, 1, 6, 7, 8, 9, 32, 256];
    for seed in 0..2_000 {
        let mut rng = Rng::new(seed);
        let sample = match seed % 2 {
            0 => near_sample(&mut rng),
            _ => any_sample(&mut rng),
        };
        for v in lengths {
            let volts = bytes(&mut rng, v);
            for n in [0, 1, 112, 127, LENGTH, 129, 256] {
                if n == LENGTH && v == 7 {
                    continue;
                }
                let mut image = bytes(&mut rng, n);
                if n == LENGTH && seed % 4 < 2 {
                    image[cell(0, 0x40)] = 0x01;
                }
                let before = (image.clone(), volts.clone());
                let answer = boundary::sample(&mut image, &volts, &sample);
                assert_eq!(answer, 8, "{v} codes, image of {n} bytes");
                assert_eq!((image, &volts), (before.0, &before.1));
            }
        }
    }
}
