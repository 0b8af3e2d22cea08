//! Setting the plan of a fan alarm.

use crate::accesses::starts;
use crate::boundary;
use crate::calls::{Call, LIBRARY, WRAPPER};
use crate::common::report;
use crate::common::rng::Rng;
use crate::image::{in_bank, near_power_on, power_on, random, Image};
use crate::readings::{speed_classes, COUNTS_PER_MINUTE};
use crate::samples::{calm_limits, CALM};
use reference::w83782d::{cell, Sample};

/// The first and the last speed, and refused ones beside and far beyond them.
pub const ENDS_OF_SPEEDS: [u32; 6] = [
    0,
    1,
    COUNTS_PER_MINUTE,
    COUNTS_PER_MINUTE + 1,
    1 << 31,
    u32::MAX,
];

/// A speed for each divisor, 1 to 128.
pub const EACH_DIVISOR: [u32; 8] = [8_800, 4_400, 2_200, 1_100, 550, 275, 137, 68];

/// A speed of any size, some at the border of a class, some to be refused.
pub fn any_speed(rng: &mut Rng) -> u32 {
    let mut spread = || 1 + (rng.below(COUNTS_PER_MINUTE.into()) >> rng.below(21)) as u32;
    let (k, speed) = (spread(), spread());
    match rng.below(8) {
        0 => rng.pick(&ENDS_OF_SPEEDS),
        // The largest speed of that K, and the next.
        1..=3 => COUNTS_PER_MINUTE / k + rng.below(2) as u32,
        // A speed is not taken modulo a power of two.
        4 if rng.one_in(4) => speed | 1 << (21 + rng.below(11)),
        _ => speed,
    }
}

/// Mostly one of the three.
fn any_fan(rng: &mut Rng) -> u8 {
    match rng.below(12) {
        0 => rng.pick(&[0, 4, 0x81, 0xFF]),
        1 => rng.byte(),
        _ => 1 + rng.below(3) as u8,
    }
}

pub fn any_plan(rng: &mut Rng) -> Call {
    Call::SetPlan {
        fan: any_fan(rng),
        rpm: any_speed(rng),
    }
}

fn hold(start: &Image, fan: u8, rpm: u32, origin: &str) {
    let calls = [Call::SetPlan { fan, rpm }];
    report::hold(LIBRARY, start, &calls, origin);
    report::hold(WRAPPER, start, &calls, origin);
}

#[test]
fn plans_are_set_alike_from_power_on_and_from_any_image() {
    let mut rng = Rng::new(0);
    for (origin, start) in starts(20_000) {
        report::hold(LIBRARY, &start, &[any_plan(&mut rng)], &origin);
    }
}

/// 7 before 6, and every byte of the image stays.
#[test]
fn every_fan_number_is_planned_or_refused_alike() {
    for (origin, start) in starts(8) {
        for fan in 0..=255 {
            for rpm in ENDS_OF_SPEEDS {
                hold(&start, fan, rpm, &origin);
            }
        }
    }
}

#[test]
fn both_ends_of_every_speed_class_are_set_alike_on_every_fan() {
    let mut rng = Rng::new(0);
    for rpm in speed_classes().into_iter().flatten() {
        for fan in 1..=3 {
            let start = random(&mut rng);
            hold(&start, fan, rpm, "");
        }
    }
}

/// Every byte that 47h, 4Bh and 5Dh may hold before, every divisor after.
#[test]
fn bits_beside_those_of_the_plan_stay() {
    let divisors = EACH_DIVISOR.map(|rpm| reference::plan(rpm).1);
    assert_eq!(divisors, [1, 2, 4, 8, 16, 32, 64, 128]);
    let mut rng = Rng::new(0);
    for byte in 0..=255 {
        for fan in 1..=3 {
            for rpm in EACH_DIVISOR {
                let mut start = near_power_on(&mut rng);
                for index in [0x47, 0x4B, 0x5D] {
                    start[cell(0, index)] = byte;
                }
                hold(&start, fan, rpm, &format!("all of them {byte:02X}h"));
            }
        }
    }
}

#[test]
fn a_plan_is_set_in_every_bank_and_under_every_configuration_byte() {
    let mut rng = Rng::new(0);
    for bank in 0..8 {
        for configuration in 0..=255 {
            for fan in 1..=3 {
                let mut start = in_bank(&near_power_on(&mut rng), bank);
                start[cell(0, 0x40)] = configuration;
                let rpm = rng.pick(&EACH_DIVISOR);
                let mut image = start;
                assert_eq!(boundary::set_plan(&mut image, fan, rpm), 0);
                hold(&start, fan, rpm, &format!("bank {bank}"));
            }
        }
    }
}

// ---- The maintainer's accident: the whole of 47h stored for one fan's divisor

/// A monitor with nothing out of its limits, and fan 1 planned at 4,400 rpm:
/// "d 2, L 152".
fn fan_1_planned() -> Image {
    let mut image = calm_limits(power_on());
    assert_eq!(boundary::set_plan(&mut image, 1, 4_400), 0);
    image
}

/// Whether fan 1's real-time bit is 1 after a sample.
fn fan_1_rings(image: &Image, u: u32) -> bool {
    let mut image = *image;
    let sample = Sample {
        u: [u, 0, 0],
        ..CALM
    };
    assert_eq!(boundary::sample(&mut image, &sample.codes, &sample), 0);
    fan_1_stands(&image).1
}

/// "u 306 rings and 305 doesn't": of all settings with limit 152, divisor 2 alone.
fn rings_as_planned(image: &Image) -> bool {
    fan_1_rings(image, 306) && !fan_1_rings(image, 305)
}

#[test]
fn a_write_of_all_of_47h_for_fan_2_ends_fan_1s_plan_exactly_when_fan_1s_bits_change() {
    assert!(rings_as_planned(&fan_1_planned()));
    for byte in 0..=255 {
        let mut image = fan_1_planned();
        assert_eq!(boundary::write(&mut image, 0x47, byte), 0);
        // Fan 1's are bits 5-4, and divisor 2 is 01.
        let same = byte & 0x30 == 0x10;
        assert_eq!(rings_as_planned(&image), same, "{byte:02X}h");
    }
}

#[test]
fn a_plan_on_another_fan_leaves_fan_1_ringing_as_before() {
    for rpm in speed_classes().into_iter().flatten() {
        for fan in [2, 3] {
            let mut image = fan_1_planned();
            assert_eq!(boundary::set_plan(&mut image, fan, rpm), 0);
            assert!(rings_as_planned(&image), "fan {fan} at {rpm} rpm");
        }
    }
}

#[test]
fn a_refused_plan_leaves_fan_1_ringing_as_before() {
    for (fan, rpm, answer) in [
        (1, 0, 6),
        (1, 1_350_001, 6),
        (0, 4_400, 7),
        (4, 4_400, 7),
        (4, 0, 7),
    ] {
        let mut image = fan_1_planned();
        assert_eq!(boundary::set_plan(&mut image, fan, rpm), answer);
        assert_eq!(image, fan_1_planned());
        assert!(rings_as_planned(&image));
    }
}

/// Fan 1's stored count, and its real-time bit as bank 4 59h shows it.
fn fan_1_stands(image: &Image) -> (u64, bool) {
    let mut image = *image;
    assert_eq!(boundary::write(&mut image, 0x4E, 0x04), 0);
    let shown = [0x28, 0x59].map(|index| boundary::read(&mut image, index));
    assert!(shown.iter().all(|(answer, _)| *answer == 0));
    (shown[0].1, shown[1].1 & 0x40 != 0)
}

/// "Stored counts and real-time bits wait for the next sample": a count that the
/// new plan would ring for, and one that it wouldn't ring for any more.
#[test]
fn a_plan_waits_for_the_next_sample() {
    // 8,800 rpm: d 1, L 152. 2,200 rpm: d 4, L 152.
    for (u, before, rpm, after) in [
        (153, (76, false), 8_800, (153, true)),
        (306, (153, true), 2_200, (76, false)),
    ] {
        let sample = Sample {
            u: [u, 0, 0],
            ..CALM
        };
        let mut image = fan_1_planned();
        assert_eq!(boundary::sample(&mut image, &sample.codes, &sample), 0);
        assert_eq!(fan_1_stands(&image), before);
        assert_eq!(boundary::set_plan(&mut image, 1, rpm), 0);
        assert_eq!(fan_1_stands(&image), before);
        assert_eq!(boundary::sample(&mut image, &sample.codes, &sample), 0);
        assert_eq!(fan_1_stands(&image), after);
    }
}
