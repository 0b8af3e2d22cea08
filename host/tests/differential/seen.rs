//! What is seen of a monitor without changing it: outputs, speeds, temperatures.

use crate::accesses::starts;
use crate::boundary;
use crate::calls::{Expected, LIBRARY, WRAPPER};
use crate::common::lists::Model;
use crate::common::report::explain;
use crate::common::rng::Rng;
use crate::image::{near_power_on, power_on, random, state_in, Image, CHASSIS, LENGTH};
use crate::samples::with_divisor;
use reference::w83782d::{cell, Monitor};
use reference::Speed;

#[derive(Clone, Copy, Debug, PartialEq, Eq)]
pub struct Seen {
    /// Answer, standing alarms, and the bits SMI, OVT of sensor 2, OVT of sensor 3.
    pub outputs: (u32, u32, u32),
    /// Fans 1 to 3: 0 a number, 1 too fast, 2 too slow, 80h + answer; the number.
    pub speeds: [(u32, u32); 3],
    /// Sensors 1 to 3: answer and half degrees.
    pub temperatures: [(u32, i16); 3],
}

const NUMBERS: [u8; 3] = [1, 2, 3];

pub fn library(image: &Image) -> Seen {
    Seen {
        outputs: boundary::outputs(image),
        speeds: NUMBERS.map(|fan| boundary::speed(image, fan)),
        temperatures: NUMBERS.map(|sensor| boundary::temperature(image, sensor)),
    }
}

pub fn wrapper(image: &Image) -> Seen {
    let monitor = w83782d::Monitor::from_image(*image);
    let outputs = monitor.outputs();
    Seen {
        outputs: (
            0,
            outputs.standing_alarms.into(),
            pins([outputs.smi, outputs.ovt2, outputs.ovt3]),
        ),
        speeds: NUMBERS.map(|fan| wrapped_speed(&monitor, fan)),
        temperatures: NUMBERS.map(|sensor| wrapped_temperature(&monitor, sensor)),
    }
}

pub fn expected(monitor: &Monitor) -> Seen {
    let asserted = [monitor.smi(), monitor.ovt(2), monitor.ovt(3)];
    Seen {
        outputs: (0, monitor.standing_alarms(), pins(asserted)),
        speeds: NUMBERS.map(|fan| expected_speed(monitor, fan)),
        temperatures: NUMBERS.map(|sensor| expected_temperature(monitor, sensor)),
    }
}

fn pins(asserted: [bool; 3]) -> u32 {
    let [smi, ovt_2, ovt_3] = asserted.map(u32::from);
    smi + 2 * ovt_2 + 4 * ovt_3
}

fn wrapped_speed(monitor: &w83782d::Monitor, fan: u8) -> (u32, u32) {
    match monitor.speed(fan) {
        Ok(w83782d::Speed::Tenths(tenths)) => (0, tenths),
        Ok(w83782d::Speed::TooFast) => (1, 0),
        Ok(w83782d::Speed::TooSlow) => (2, 0),
        Err(refusal) => (0x80 + u32::from(refusal.number()), 0),
    }
}

fn expected_speed(monitor: &Monitor, fan: u8) -> (u32, u32) {
    match monitor.speed(fan) {
        Speed::Tenths(tenths) => (0, tenths),
        Speed::TooFast => (1, 0),
        Speed::TooSlow => (2, 0),
        Speed::Refused => (0x87, 0),
    }
}

fn wrapped_temperature(monitor: &w83782d::Monitor, sensor: u8) -> (u32, i16) {
    match monitor.temperature(sensor) {
        Ok(half_degrees) => (0, half_degrees),
        Err(refusal) => (refusal.number().into(), 0),
    }
}

fn expected_temperature(monitor: &Monitor, sensor: u8) -> (u32, i16) {
    let (answer, half_degrees) = monitor.temperature(sensor);
    (answer.into(), half_degrees as i16)
}

/// Through the boundary and through the wrapper; no byte of the image moves.
fn hold(image: &Image, origin: &str) {
    let expected = Expected::of(image).seen();
    for subject in [LIBRARY, WRAPPER] {
        let lent = *image;
        let alike = (subject.seen)(&lent) == expected && lent == *image;
        assert!(alike, "{}", explain(subject, image, &[], origin));
    }
}

#[test]
fn any_image_shows_the_same() {
    for (origin, image) in starts(100_000) {
        hold(&image, &origin);
    }
}

/// Every count under every divisor; the bits beside those of the divisor are any.
#[test]
fn every_count_is_the_same_speed_under_every_divisor() {
    let mut rng = Rng::new(0);
    for fan in 0..3 {
        for k in 0..8 {
            for count in 0..=255 {
                let mut image = with_divisor(random(&mut rng), fan, k);
                image[cell(0, 0x28) + fan] = count;
                hold(&image, &format!("fan {}, k {k}, count {count}", fan + 1));
            }
        }
    }
}

/// Every byte of sensor 1; every high and low byte of sensors 2 and 3, so also
/// low bytes with bits that no sample stores.
#[test]
fn every_stored_temperature_is_the_same() {
    let mut image = power_on();
    for high in 0..=255 {
        for low in 0..=255 {
            image[cell(0, 0x27)] = high;
            image[cell(1, 0x50)] = high;
            image[cell(1, 0x51)] = low;
            image[cell(2, 0x50)] = low;
            image[cell(2, 0x51)] = high;
            hold(&image, "");
        }
    }
}

/// Every pair of status bytes, the chassis latch set and not: each bit that a read
/// shows as 1 is an alarm.
#[test]
fn every_pair_of_status_bytes_counts_the_same_alarms() {
    let mut image = power_on();
    for first in 0..=255 {
        for second in 0..=255 {
            for chassis in [0, 1] {
                image[cell(0, 0x41)] = first;
                image[cell(0, 0x42)] = second;
                image[CHASSIS] = chassis;
                assert_eq!(
                    boundary::outputs(&image).1,
                    state_in(&image).standing_alarms(),
                    "41h {first:02X}h, 42h {second:02X}h, chassis {chassis}"
                );
            }
        }
    }
}

/// Every status byte under every mask byte, SMI enabled or not, with and without
/// the chassis latch.
#[test]
fn every_status_byte_shows_the_same_outputs_under_every_mask() {
    let mut rng = Rng::new(0);
    for status in 0..=255 {
        for mask in 0..=255 {
            let mut image = near_power_on(&mut rng);
            image[cell(0, 0x40)] = rng.pick(&[0x03, 0x02, 0x03, 0x83, 0x01, 0x0B]);
            let [used, spared] = rng.pick(&[[0, 1], [1, 0]]);
            image[cell(0, 0x41) + used] = status;
            image[cell(0, 0x43) + used] = mask;
            image[cell(0, 0x41) + spared] = 0x00;
            image[CHASSIS] = rng.pick(&[0, 0, 1, 0xA5]);
            hold(&image, &format!("status {status:02X}h, mask {mask:02X}h"));
        }
    }
}

#[test]
fn every_configuration_byte_and_every_flag_byte_shows_the_same_outputs() {
    let mut rng = Rng::new(0);
    for byte in 0..=255 {
        for at in [cell(0, 0x40), CHASSIS, 116, 119] {
            for _ in 0..50 {
                let mut image = random(&mut rng);
                image[at] = byte;
                hold(&image, &format!("byte {at} of the image {byte:02X}h"));
            }
        }
    }
}

#[test]
fn every_fan_and_sensor_number_is_answered_alike() {
    for (origin, image) in starts(200) {
        let monitor = state_in(&image);
        let wrapper = w83782d::Monitor::from_image(image);
        for number in 0..=255 {
            let speed = expected_speed(&monitor, number);
            assert_eq!(boundary::speed(&image, number), speed, "{origin}: {number}");
            assert_eq!(wrapped_speed(&wrapper, number), speed, "{origin}: {number}");
            let temperature = expected_temperature(&monitor, number);
            let found = boundary::temperature(&image, number);
            assert_eq!(found, temperature, "{origin}: {number}");
            let found = wrapped_temperature(&wrapper, number);
            assert_eq!(found, temperature, "{origin}: {number}");
        }
    }
}

/// 8, also before 7.
#[test]
fn an_image_of_another_length_shows_nothing() {
    let mut rng = Rng::new(0);
    for length in (0..LENGTH).chain(LENGTH + 1..=300).chain([4_096]) {
        let mut image = vec![0; length];
        image.fill_with(|| rng.byte());
        let before = image.clone();
        assert_eq!(boundary::outputs(&image), (8, 0, 0), "length {length}");
        for number in 0..=255 {
            let words = format!("length {length}, number {number}");
            assert_eq!(boundary::speed(&image, number), (0x88, 0), "{words}");
            assert_eq!(boundary::temperature(&image, number), (8, 0), "{words}");
        }
        assert_eq!(image, before);
    }
}

/// "4,412 in document 01 becomes 44,118."
#[test]
fn the_speed_of_the_paper_comes_out() {
    let mut image = power_on();
    image[cell(0, 0x28)..][..3].copy_from_slice(&[153, 0, 255]);
    let speeds = NUMBERS.map(|fan| boundary::speed(&image, fan));
    assert_eq!(speeds, [(0, 44_118), (1, 0), (2, 0)]);
}
