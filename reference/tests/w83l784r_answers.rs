//! Every refusal of the W83L784R's calls: its number, its place before other
//! refusals, and the state that it leaves.

mod common;

use common::w83l784r::{any_sample, any_state};
use common::{any_speed, Rng};
use reference::answer;

#[test]
fn the_number_of_a_bus_write_to_an_offset_is_9() {
    assert_eq!(answer::OFFSET_LOCKED, 9);
}

#[test]
fn a_bad_fan_is_7_before_a_bad_speed_is_6() {
    let mut rng = Rng::new(201);
    let mut m = any_state(&mut rng);
    let before = m;
    for fan in (0..=0).chain(3..=255) {
        for rpm in [0, 1_350_001, u32::MAX, 4_400] {
            assert_eq!(m.set_plan(fan, rpm), 7);
        }
    }
    for fan in 1..=2 {
        for rpm in [0, 1_350_001, u32::MAX] {
            assert_eq!(m.set_plan(fan, rpm), 6);
        }
    }
    assert_eq!(m, before);
    for fan in 1..=2 {
        for rpm in [1, 1_350_000] {
            assert_eq!(m.set_plan(fan, rpm), 0);
        }
    }
}

#[test]
fn a_write_to_00h_of_a_set_is_2_and_from_04h_on_1() {
    let mut rng = Rng::new(202);
    let mut m = any_state(&mut rng);
    let before = m;
    for sensor in [2, 3] {
        assert_eq!(m.write_sensor(sensor, 0x00, 0xFFFF), 2);
        for index in 0x04..=0xFF {
            assert_eq!(m.write_sensor(sensor, index, 0xFFFF), 1);
            assert_eq!(m.read_sensor(sensor, index), (1, 0));
        }
    }
    assert_eq!(m, before);
}

/// "Every sample is well formed: answer 3 does not exist here."
#[test]
fn a_sample_is_answered_0_or_4_only() {
    let mut rng = Rng::new(203);
    for _ in 0..20_000 {
        let mut m = any_state(&mut rng);
        let answer = m.sample(&any_sample(&mut rng));
        assert!(answer == 0 || answer == 4);
    }
}

#[test]
fn refused_calls_leave_every_state_unchanged() {
    let mut rng = Rng::new(204);
    let mut refused = [0_u32; 10];
    for _ in 0..200_000 {
        let before = any_state(&mut rng);
        let mut m = before;
        let index = rng.byte();
        let sensor = rng.below(6) as u8;
        let answer = match rng.below(8) {
            0 => m.write(index, rng.byte()),
            1 => {
                let (answer, byte) = m.read(index);
                assert!(answer == 0 || byte == 0);
                answer
            }
            2 => m.write_sensor(sensor, index % 8, rng.next() as u16),
            3 => {
                let (answer, word) = m.read_sensor(sensor, index % 8);
                assert!(answer == 0 || word == 0);
                answer
            }
            4 => m.sample(&any_sample(&mut rng)),
            5 => m.commission(sensor, rng.byte() as i8),
            6 => m.write(0x90 + rng.below(3) as u8, rng.byte()),
            _ => m.set_plan(rng.below(5) as u8, any_speed(&mut rng)),
        };
        if answer != 0 {
            refused[usize::from(answer)] += 1;
            assert_eq!(m, before);
        }
    }
    // No other number is given.
    for (answer, times) in refused.into_iter().enumerate() {
        match answer {
            1 | 2 | 4 | 6 | 7 | 9 => assert!(times > 1_000, "answer {answer}: {times}"),
            _ => assert_eq!(times, 0, "answer {answer}"),
        }
    }
}
