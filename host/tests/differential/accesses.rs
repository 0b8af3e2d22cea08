//! Single calls, exhaustive where the choices are few.

use crate::boundary;
use crate::calls::{Call, LIBRARY};
use crate::common::lists::agrees;
use crate::common::report::explain;
use crate::common::rng::Rng;
use crate::events::record_of;
use crate::image::{
    image_of, in_bank, near_power_on, power_on, random, state_in, Image, CHASSIS, LENGTH, SPARE,
};
use crate::plans::{any_speed, ENDS_OF_SPEEDS};
use crate::samples::near_sample;
use reference::w83782d::{cell, Event};

fn hold(start: &Image, call: Call, origin: &str) {
    assert!(
        agrees(LIBRARY, start, &call),
        "{}",
        explain(LIBRARY, start, &[call], origin)
    );
}

/// Power-on, all ones, all zeros, zeros with odd flags, then random ones by seed.
pub fn starts(random_ones: u64) -> Vec<(String, Image)> {
    let mut odd_flags = [0; LENGTH];
    odd_flags[CHASSIS..].fill(0xA5);
    let mut starts = vec![
        ("power-on".to_string(), power_on()),
        ("all ones".to_string(), [0xFF; LENGTH]),
        ("all zeros".to_string(), [0x00; LENGTH]),
        ("odd flags".to_string(), odd_flags),
    ];
    for seed in 0..random_ones {
        let mut rng = Rng::new(seed);
        starts.push((format!("random image, seed {seed}"), random(&mut rng)));
        starts.push((
            format!("near power-on, seed {seed}"),
            near_power_on(&mut rng),
        ));
    }
    starts
}

#[test]
fn every_write_agrees_in_every_bank() {
    for (origin, start) in starts(6) {
        for bank in 0..8 {
            let start = in_bank(&start, bank);
            for index in 0..=255 {
                for value in 0..=255 {
                    hold(&start, Call::Write { index, value }, &origin);
                }
            }
        }
    }
}

#[test]
fn every_read_agrees_in_every_bank() {
    for (origin, start) in starts(2_000) {
        for bank in 0..8 {
            let start = in_bank(&start, bank);
            for index in 0..=255 {
                hold(&start, Call::Read { index }, &origin);
            }
        }
    }
}

/// C-15: the byte and the answer of a read, and every byte of the image is left.
#[test]
fn every_look_agrees_in_every_bank_and_is_what_a_read_gives() {
    for (origin, start) in starts(2_000) {
        for bank in 0..8 {
            let start = in_bank(&start, bank);
            for index in 0..=255 {
                hold(&start, Call::Look { index }, &origin);
                let looked = boundary::look(&start, index);
                assert_eq!(looked, boundary::read(&mut { start }, index), "{origin}");
            }
        }
    }
}

#[test]
fn a_look_at_an_image_of_another_length_is_answered_8() {
    let mut rng = Rng::new(0);
    for n in (0..300).chain([4_096]).filter(|n| *n != LENGTH) {
        let image: Vec<u8> = (0..n).map(|_| rng.byte()).collect();
        let before = image.clone();
        for index in 0..=255 {
            assert_eq!(boundary::look(&image, index), (8, 0), "{n} bytes");
        }
        assert_eq!(image, before, "{n} bytes");
    }
}

#[test]
fn power_on_and_chassis_opened_agree_from_any_image() {
    for (origin, start) in starts(50_000) {
        hold(&start, Call::PowerOn, &origin);
        hold(&start, Call::ChassisOpened, &origin);
    }
}

/// How docs/EMBEDDING.md serves the bus addresses of sensors 2 and 3: their bank is
/// selected for an access and 4Eh is written back.
fn at_sensor<T>(image: &mut Image, bank: u8, access: impl FnOnce(&mut Image) -> T) -> T {
    let (_, select) = boundary::look(image, 0x4E);
    let select = select as u8;
    assert_eq!(boundary::write(image, 0x4E, select & 0x80 | bank), 0);
    let given = access(image);
    assert_eq!(boundary::write(image, 0x4E, select), 0);
    given
}

/// What such a read leaves: nothing moves, but that "reading that bank's 50h
/// releases" in interrupt mode.
fn released(start: &Image, bank: u8) -> Image {
    let mut expected = state_in(start);
    let interrupt_mode = start[cell(bank, 0x52)] & 0x02 != 0;
    if interrupt_mode {
        expected.ovt_asserted[usize::from(bank) - 1] = false;
    }
    image_of(&expected, &start[SPARE..])
}

#[test]
fn a_sensor_read_in_its_bank_leaves_all_but_its_ovt() {
    for (origin, start) in starts(5_000) {
        for bank in 1..=2 {
            let mut image = start;
            at_sensor(&mut image, bank, |image| {
                for index in 0x50..=0x56 {
                    let expected = u64::from(start[cell(bank, index)]);
                    assert_eq!(boundary::read(image, index), (0, expected));
                }
            });
            assert_eq!(image, released(&start, bank), "{origin}, bank {bank}");
        }
    }
}

/// A sensor's byte given ahead: a look in its bank, and the read when it has gone out.
#[test]
fn a_sensor_s_byte_given_ahead_is_the_one_then_read() {
    for (origin, start) in starts(5_000) {
        for bank in 1..=2 {
            let mut image = start;
            let given = at_sensor(&mut image, bank, |image| boundary::look(image, 0x50));
            let unmoved = image_of(&state_in(&start), &start[SPARE..]);
            assert_eq!(image, unmoved, "{origin}, bank {bank}");
            let read = at_sensor(&mut image, bank, |image| boundary::read(image, 0x50));
            assert_eq!(given, read, "{origin}, bank {bank}");
            assert_eq!(image, released(&start, bank), "{origin}, bank {bank}");
        }
    }
}

/// Answers 1, 2, 1, 6, 7 and 0 in turn, with flag bytes that no call writes.
#[test]
fn accepted_calls_tidy_flags_and_refused_ones_keep_them() {
    let mut start = power_on();
    start[CHASSIS..].fill(0xA5);

    let mut image = start;
    assert_eq!(boundary::write(&mut image, 0x45, 0xFF), 1);
    assert_eq!(image, start);
    assert_eq!(boundary::write(&mut image, 0x58, 0xFF), 2);
    assert_eq!(image, start);
    assert_eq!(boundary::read(&mut image, 0x1F), (1, 0));
    assert_eq!(image, start);
    assert_eq!(boundary::set_plan(&mut image, 1, 0), 6);
    assert_eq!(image, start);
    assert_eq!(boundary::set_plan(&mut image, 0, 4_400), 7);
    assert_eq!(image, start);

    assert_eq!(boundary::write(&mut image, 0x4E, 0x80), 0);
    assert_eq!(image[CHASSIS..SPARE], [1; SPARE - CHASSIS]);
    assert_eq!(image[SPARE..], start[SPARE..]);
    assert_eq!(image[..CHASSIS], start[..CHASSIS]);
}

/// Bytes on either side of a lent image, which no call may touch.
const BESIDE: usize = 64;

/// An image of another length is refused before index, register, fan and speed
/// are tested.
#[test]
fn an_image_of_another_length_is_answered_8_and_kept() {
    for length in [0, 1, 111, 112, 120, 127, 129, 256, 4096] {
        let mut rng = Rng::new(length as u64);
        let mut start = vec![0; BESIDE + length + BESIDE];
        start.fill_with(|| rng.byte());
        let mut lent = start.clone();

        let image = &mut lent[BESIDE..][..length];
        assert_eq!(boundary::power_on(image), 8, "length {length}");
        assert_eq!(boundary::chassis_opened(image), 8, "length {length}");
        for index in 0..=255 {
            let image = &mut lent[BESIDE..][..length];
            assert_eq!(boundary::look(image, index), (8, 0));
            assert_eq!(boundary::read(image, index), (8, 0));
            for value in [0x00, 0x80, 0xFF] {
                assert_eq!(boundary::write(image, index, value), 8);
            }
            for rpm in ENDS_OF_SPEEDS {
                assert_eq!(boundary::set_plan(image, index, rpm), 8);
            }
            assert_eq!(lent, start, "length {length}, index {index:02X}h");
        }
    }
}

#[test]
fn no_call_reaches_beyond_the_image() {
    const GUARD: u8 = 0x5A;
    let mut lent = [GUARD; BESIDE + LENGTH + BESIDE];
    let mut rng = Rng::new(0);
    for bank in 0..8 {
        for index in 0..=255 {
            let image = &mut lent[BESIDE..][..LENGTH];
            image.copy_from_slice(&in_bank(&random(&mut rng), bank));
            boundary::look(image, index);
            boundary::read(image, index);
            boundary::write(image, index, rng.byte());
            boundary::chassis_opened(image);
            boundary::set_plan(image, index % 5, any_speed(&mut rng));
            let record = record_of(&Event::Read { index });
            boundary::event(image, &record);
            boundary::replay(image, &[record, record].concat());
            boundary::power_on(image);
            let sample = near_sample(&mut rng);
            boundary::sample(image, &sample.codes, &sample);
            assert_eq!(lent[..BESIDE], [GUARD; BESIDE]);
            assert_eq!(lent[BESIDE + LENGTH..], [GUARD; BESIDE]);
        }
    }
}
