//! Two claims about whole lists of calls from any state. Demand 3: while a plan is
//! in force on a fan, each accepted sample leaves the fan's real-time bit 1 exactly
//! when u >= (L+1)d. The lock: the offsets are those of the last accepted
//! commissioning, and each stored temperature is the sample's plus that, held.
//! What is in force, and the offsets, are worked out from the calls and their
//! answers alone.

mod common;

use common::w83l784r::{any_sample, any_state, at, fan_rings, held, stored};
use common::{any_speed, Rng};
use reference::w83l784r::{rewrites, InForce, Monitor};
use reference::{End, Plan};

#[derive(Default)]
struct Tally {
    rang: [u32; 2],
    silent: [u32; 2],
    rewrites: usize,
    resets: usize,
    next_plans: usize,
    kept_by_same_bits: u32,
    refused: [u32; 10],
    out_of_force: u32,
    commissioned: [u32; 3],
    held: u32,
}

/// An index that matters to plans or offsets more often than not.
fn any_index(rng: &mut Rng) -> u8 {
    let near = [
        0x3B, 0x3C, 0x7B, 0x7C, 0x49, 0x49, 0x49, 0x40, 0x90, 0x91, 0x92,
    ];
    if rng.below(4) == 0 {
        rng.byte()
    } else {
        near[rng.below(near.len() as u64) as usize]
    }
}

/// A value that often repeats the plan's bits, or starts samples again.
fn any_value(rng: &mut Rng, index: u8, in_force: &InForce) -> u8 {
    let other = rng.byte();
    let plan = |fan: usize| in_force.plans[fan].unwrap_or(Plan { k: 0, limit: other });
    match index {
        0x40 if rng.below(12) == 0 => other | 0x80,
        0x40 if rng.below(4) == 0 => other & 0x7F,
        0x40 => 0x09,
        _ if rng.below(4) == 0 => other,
        0x3B | 0x7B => plan(0).limit,
        0x3C | 0x7C => plan(1).limit,
        // Both fans' bits, or one fan's bits beside any others.
        0x49 => match rng.below(3) {
            0 => plan(1).k << 4 | plan(0).k | other & 0x88,
            1 => plan(1).k << 4 | other & 0x8F,
            _ => plan(0).k | other & 0xF8,
        },
        _ => other,
    }
}

fn one_list(rng: &mut Rng, start: Monitor, length: u32, tally: &mut Tally) {
    let mut m = start;
    let mut in_force = InForce::default();
    let mut offsets = [0x90, 0x91, 0x92].map(|index| start.registers[at(index)] as i8);
    for _ in 0..length {
        let before = m;
        let answer = match rng.below(24) {
            0..=4 => {
                let index = any_index(rng);
                let value = any_value(rng, index, &in_force);
                let answer = m.write(index, value);
                if answer == 0 {
                    let any = in_force != InForce::default();
                    let ends = in_force.written(rewrites, index, value);
                    let ended = |by| ends.iter().filter(|end| **end == Some(by)).count();
                    tally.resets += ended(End::Reset);
                    tally.rewrites += ended(End::Rewrite);
                    let touches = matches!(index, 0x3B | 0x3C | 0x7B | 0x7C | 0x49);
                    if touches && any && ends == [None; 2] {
                        tally.kept_by_same_bits += 1;
                    }
                }
                answer
            }
            5 => m.read(any_index(rng)).0,
            6 => {
                let answer = m.look(any_index(rng)).0;
                assert_eq!(m, before);
                answer
            }
            7 => m.write_sensor(rng.below(5) as u8, rng.below(6) as u8, rng.next() as u16),
            8 => m.read_sensor(rng.below(5) as u8, rng.below(6) as u8).0,
            9 => {
                let answer = m.look_sensor(rng.below(5) as u8, rng.below(6) as u8).0;
                assert_eq!(m, before);
                answer
            }
            10..=11 => {
                let (sensor, offset) = (rng.below(5) as u8, rng.byte() as i8);
                let answer = m.commission(sensor, offset);
                if answer == 0 {
                    offsets[usize::from(sensor) - 1] = offset;
                    tally.commissioned[usize::from(sensor) - 1] += 1;
                }
                answer
            }
            12..=14 => {
                let fan = rng.below(4) as u8;
                let w = any_speed(rng);
                let answer = m.set_plan(fan, w);
                if answer == 0 {
                    tally.next_plans += usize::from(in_force.planned(fan, w).is_some());
                }
                answer
            }
            // Starts samples again.
            15 => {
                in_force.written(rewrites, 0x40, 0x01);
                m.write(0x40, 0x01)
            }
            _ => {
                let mut s = any_sample(rng);
                for (u, plan) in s.u.iter_mut().zip(in_force.plans) {
                    if let (Some(plan), true) = (plan, rng.below(4) != 0) {
                        // From two below the product to two above it.
                        let near = plan.product() + rng.below(5) as u32;
                        *u = near.saturating_sub(2);
                    }
                }
                let answer = m.sample(&s);
                if answer == 0 {
                    for fan in 0..2 {
                        let Some(plan) = in_force.plans[fan] else {
                            tally.out_of_force += 1;
                            continue;
                        };
                        let expected = plan.rings(s.u[fan]);
                        let rang = fan_rings(&m, fan as u8 + 1);
                        assert_eq!(rang, expected, "fan {} u {} {plan:?}", fan + 1, s.u[fan]);
                        if rang {
                            tally.rang[fan] += 1;
                        } else {
                            tally.silent[fan] += 1;
                        }
                    }
                    for sensor in 1..=3_u8 {
                        let place = usize::from(sensor) - 1;
                        let (degrees, offset) = (s.degrees[place], offsets[place]);
                        let expected = held(degrees, offset);
                        assert_eq!(stored(&m, sensor), expected, "{degrees} and {offset}");
                        tally.held += u32::from(degrees.checked_add(offset).is_none());
                    }
                }
                answer
            }
        };
        if answer != 0 {
            tally.refused[usize::from(answer)] += 1;
            assert_eq!(m, before);
        }
        // The lock, at each call of the list.
        for (index, offset) in [0x90, 0x91, 0x92].into_iter().zip(offsets) {
            assert_eq!(m.look(index), (0, offset as u8));
        }
    }
}

#[test]
fn plans_ring_exactly_and_only_commissioning_sets_offsets() {
    let mut rng = Rng::new(211);
    let mut tally = Tally::default();
    for round in 0..6_000 {
        let start = if round % 4 == 0 {
            Monitor::power_on()
        } else {
            any_state(&mut rng)
        };
        one_list(&mut rng, start, 200, &mut tally);
    }
    // The run has seen every kind of call, ending and refusal often.
    for fan in 0..2 {
        assert!(tally.rang[fan] > 10_000, "{}", tally.rang[fan]);
        assert!(tally.silent[fan] > 10_000, "{}", tally.silent[fan]);
    }
    assert!(tally.rewrites > 10_000, "{}", tally.rewrites);
    assert!(tally.resets > 500, "{}", tally.resets);
    assert!(tally.next_plans > 10_000, "{}", tally.next_plans);
    assert!(
        tally.kept_by_same_bits > 10_000,
        "{}",
        tally.kept_by_same_bits
    );
    assert!(tally.out_of_force > 10_000, "{}", tally.out_of_force);
    assert!(tally.held > 10_000, "{}", tally.held);
    for sensor in 0..3 {
        assert!(tally.commissioned[sensor] > 10_000);
    }
    for answer in [1, 2, 4, 6, 7, 9] {
        let times = tally.refused[answer];
        assert!(times > 1_000, "answer {answer}: {times}");
    }
}

#[test]
fn the_same_bits_end_nothing_and_a_second_place_counts() {
    let plan = Plan { k: 5, limit: 77 };
    let both = || InForce {
        plans: [Some(plan); 2],
    };
    // k 5 is 101, in bits 2-0 and 6-4 of 49h.
    for (index, value, ended) in [
        (0x3B, 77, [false, false]),
        (0x3B, 76, [true, false]),
        (0x7B, 76, [true, false]),
        (0x3C, 78, [false, true]),
        (0x7C, 78, [false, true]),
        (0x7C, 77, [false, false]),
        (0x3D, 0, [false, false]),
        (0x49, 0b0101_0101, [false, false]),
        (0x49, 0b1101_1101, [false, false]),
        (0x49, 0b0101_0100, [true, false]),
        (0x49, 0b0101_0111, [true, false]),
        (0x49, 0b0101_0001, [true, false]),
        (0x49, 0b0100_0101, [false, true]),
        (0x49, 0b0111_0101, [false, true]),
        (0x49, 0b0001_0101, [false, true]),
        (0x49, 0b0001_0001, [true, true]),
        (0x47, 0x00, [false, false]),
        (0x4B, 0x00, [false, false]),
        (0x5D, 0x00, [false, false]),
        (0x40, 0x7F, [false, false]),
        (0x40, 0x80, [true, true]),
    ] {
        let mut in_force = both();
        in_force.written(rewrites, index, value);
        let expected = ended.map(|ended| if ended { None } else { Some(plan) });
        assert_eq!(in_force.plans, expected, "{index:02X}h {value:02X}h");
    }
}

#[test]
fn a_plan_whose_bits_come_back_is_not_in_force_again() {
    let plan = Plan { k: 1, limit: 152 };
    let mut in_force = InForce {
        plans: [Some(plan); 2],
    };
    in_force.written(rewrites, 0x49, 0x10);
    in_force.written(rewrites, 0x49, 0x11);
    assert_eq!(in_force.plans, [None, Some(plan)]);
}
