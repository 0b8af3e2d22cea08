//! Demand 3: while a plan is in force on a fan, each accepted sample leaves the
//! fan's real-time bit 1 exactly when u >= (L+1)d. Random lists of calls from
//! random states; "in force" is computed from the calls and their answers alone.

mod common;

use common::{any_sample, any_speed, any_state, fan_rings, Rng};
use reference::w83782d::{rewrites, InForce, Monitor};
use reference::{plan, End, Plan};

#[derive(Default)]
struct Tally {
    rang: [u32; 3],
    silent: [u32; 3],
    rewrites: usize,
    resets: usize,
    next_plans: usize,
    kept_by_same_bits: u32,
    refused: u32,
    out_of_force: u32,
}

/// An index that matters to plans more often than not.
fn any_index(rng: &mut Rng) -> u8 {
    let near = [
        0x3B, 0x3C, 0x3D, 0x7B, 0x7C, 0x7D, 0x47, 0x4B, 0x5D, 0x5D, 0x4E, 0x4E, 0x40,
    ];
    if rng.below(4) == 0 {
        rng.byte()
    } else {
        near[rng.below(near.len() as u64) as usize]
    }
}

/// A value that often repeats the plan's bits, or starts samples again.
fn any_value(rng: &mut Rng, index: u8, in_force: &InForce) -> u8 {
    let other = rng.byte();
    let plan = |fan: usize| in_force.plans[fan].unwrap_or(Plan { k: 0, limit: other });
    match index {
        0x40 if rng.below(12) == 0 => other | 0x80,
        0x40 if rng.below(4) == 0 => other & 0x7F,
        0x40 => 0x03,
        0x4E if rng.coin() => 0x80,
        _ if rng.below(4) == 0 => other,
        0x3B..=0x3D => plan(usize::from(index) - 0x3B).limit,
        0x7B..=0x7D => plan(usize::from(index) - 0x7B).limit,
        0x47 => (plan(1).k & 3) << 6 | (plan(0).k & 3) << 4 | other & 0x0F,
        0x4B => (plan(2).k & 3) << 6 | other & 0x3F,
        0x5D => {
            let tops = (0..3).map(|fan| (plan(fan).k >> 2) << (5 + fan));
            tops.fold(other & 0x1F, |byte, top| byte | top)
        }
        _ => other,
    }
}

fn one_list(rng: &mut Rng, start: Monitor, length: u32, tally: &mut Tally) {
    let mut m = start;
    let mut in_force = InForce::default();
    for _ in 0..length {
        match rng.below(16) {
            0..=3 => {
                let index = any_index(rng);
                let value = any_value(rng, index, &in_force);
                if m.write(index, value) == 0 {
                    let any = in_force != InForce::default();
                    let ends = in_force.written(rewrites, index, value);
                    let ended = |by| ends.iter().filter(|end| **end == Some(by)).count();
                    tally.resets += ended(End::Reset);
                    tally.rewrites += ended(End::Rewrite);
                    let touches = matches!(index, 0x3B..=0x3D | 0x7B..=0x7D | 0x47 | 0x4B | 0x5D);
                    if touches && any && ends == [None; 3] {
                        tally.kept_by_same_bits += 1;
                    }
                } else {
                    tally.refused += 1;
                }
            }
            4 => {
                let index = if rng.coin() { any_index(rng) } else { 0x50 };
                tally.refused += u32::from(m.read(index).0 != 0);
            }
            5 => assert_eq!(m.chassis_opened(), 0),
            6..=8 => {
                let fan = rng.below(5) as u8;
                let w = any_speed(rng);
                match m.set_plan(fan, w) {
                    0 => tally.next_plans += usize::from(in_force.planned(fan, w).is_some()),
                    _ => tally.refused += 1,
                }
            }
            // Starts samples again, from any bank.
            9 => {
                assert_eq!(m.write(0x40, 0x01), 0);
                in_force.written(rewrites, 0x40, 0x01);
            }
            _ => {
                let mut s = any_sample(rng);
                for fan in 0..3 {
                    if let (Some(plan), true) = (in_force.plans[fan], rng.below(4) != 0) {
                        // From two below the product to two above it.
                        let near = plan.product() + rng.below(5) as u32;
                        s.u[fan] = near.saturating_sub(2);
                    }
                }
                if rng.below(16) == 0 {
                    s.t2 = rng.next() as i16;
                }
                if m.sample(&s) != 0 {
                    tally.refused += 1;
                    continue;
                }
                for fan in 0..3 {
                    let Some(plan) = in_force.plans[fan] else {
                        tally.out_of_force += 1;
                        continue;
                    };
                    let expected = plan.rings(s.u[fan]);
                    let rang = fan_rings(&m, fan as u8 + 1);
                    assert_eq!(rang, expected, "fan {} u {} {plan:?}", fan + 1, s.u[fan]);
                    if rang {
                        tally.rang[fan] += 1;
                    } else {
                        tally.silent[fan] += 1;
                    }
                }
            }
        }
    }
}

#[test]
fn a_plan_in_force_rings_exactly_from_its_product_on() {
    let mut rng = Rng::new(40);
    let mut tally = Tally::default();
    for round in 0..6_000 {
        let start = if round % 4 == 0 {
            Monitor::power_on()
        } else {
            any_state(&mut rng)
        };
        one_list(&mut rng, start, 200, &mut tally);
    }
    // The run has seen every kind of call often.
    for fan in 0..3 {
        assert!(tally.rang[fan] > 10_000, "{}", tally.rang[fan]);
        assert!(tally.silent[fan] > 10_000, "{}", tally.silent[fan]);
    }
    assert!(tally.rewrites > 10_000, "{}", tally.rewrites);
    assert!(tally.resets > 500, "{}", tally.resets);
    assert!(tally.next_plans > 10_000, "{}", tally.next_plans);
    assert!(tally.kept_by_same_bits > 10_000);
    assert!(tally.refused > 10_000, "{}", tally.refused);
    assert!(tally.out_of_force > 10_000, "{}", tally.out_of_force);
}

#[test]
fn the_same_bits_end_nothing_and_a_second_place_counts() {
    let plan = Plan { k: 5, limit: 77 };
    let all = || InForce {
        plans: [Some(plan); 3],
    };
    // k 5 is top bit 1 and low bits 01.
    for (index, value, ended) in [
        (0x3B, 77, [false, false, false]),
        (0x3B, 76, [true, false, false]),
        (0x7C, 78, [false, true, false]),
        (0x7D, 0, [false, false, true]),
        (0x47, 0x50, [false, false, false]),
        (0x47, 0x5F, [false, false, false]),
        (0x47, 0x60, [true, false, false]),
        (0x47, 0x90, [false, true, false]),
        (0x4B, 0x40, [false, false, false]),
        (0x4B, 0x7F, [false, false, false]),
        (0x4B, 0x00, [false, false, true]),
        (0x5D, 0xE0, [false, false, false]),
        (0x5D, 0xFF, [false, false, false]),
        (0x5D, 0xC0, [true, false, false]),
        (0x5D, 0xA0, [false, true, false]),
        (0x5D, 0x60, [false, false, true]),
        (0x40, 0x7F, [false, false, false]),
        (0x40, 0x80, [true, true, true]),
        (0x4E, 0x07, [false, false, false]),
    ] {
        let mut in_force = all();
        in_force.written(rewrites, index, value);
        let expected = ended.map(|ended| if ended { None } else { Some(plan) });
        assert_eq!(in_force.plans, expected, "{index:02X}h {value:02X}h");
    }
}

#[test]
fn a_plan_whose_bits_come_back_is_not_in_force_again() {
    let plan = Plan { k: 1, limit: 152 };
    let mut in_force = InForce {
        plans: [Some(plan); 3],
    };
    in_force.written(rewrites, 0x3B, 0);
    in_force.written(rewrites, 0x3B, 152);
    assert_eq!(in_force.plans, [None, Some(plan), Some(plan)]);
}

/// The planner's search and the plan that is taken to be in force agree. A plan's
/// product is at most 255 * 128; every K that some speed has is among these.
#[test]
fn the_plan_in_force_is_the_plan_that_was_found() {
    for allowed in 1..=33_000 {
        let w = 1_350_000 / allowed;
        let Plan { k, limit } = Plan::of(w);
        assert_eq!(plan(w), (0, 1 << k, limit), "{w} rpm");
    }
}
