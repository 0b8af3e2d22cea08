//! Demand 3 of document 01 on the library: while a plan is in force on a fan, each
//! accepted sample leaves the fan's real-time bit 1 exactly when u >= (L+1)d.

use crate::boundary::Answer;
use crate::calls::{Call, Expected, Subject, LIBRARY, WRAPPER};
use crate::common::in_force::{self, hold_lists, hold_plans, rings_as_due, Act, Fans, Refused};
use crate::common::lists::{step, Listed};
use crate::common::rng::Rng;
use crate::events::record_of;
use crate::image::{in_bank, power_on, random, Image};
use crate::plans::{any_plan, EACH_DIVISOR};
use crate::readings::speed_classes;
use crate::samples::{monitoring, near_sample, CALM};
use crate::sequences::{self, Aim, PLANNED};
use reference::answer::ACCEPTED;
use reference::w83782d::{decode, rewrites, Event, InForce, Sample, RECORD_LENGTH};
use reference::{u_of_speed, Plan, Rewrites};
use std::array::from_fn;

type Course = in_force::Course<Expected, 3>;
type Seen = in_force::Seen<3>;

impl Fans<3> for Expected {
    const REWRITES: Rewrites = rewrites;

    /// Of a log, its first records were accepted.
    fn acts(call: &Call, (answer, more): &Answer) -> Vec<Act<3>> {
        let act = |record: &[u8]| act_of(decode(record).expect("an accepted record"));
        let accepted = *answer == ACCEPTED;
        match call {
            Call::Replay { log } => {
                let records = log.chunks(RECORD_LENGTH).take(*more as usize);
                records.map(act).collect()
            }
            Call::PowerOn => vec![Act::Start],
            Call::SetPlan { .. } if !accepted => vec![Act::Refused(Refused::Plan)],
            Call::Write { .. } if !accepted => vec![Act::Refused(Refused::Write)],
            Call::Sample(_) if !accepted => vec![Act::Refused(Refused::Sample)],
            _ if !accepted => vec![],
            Call::SetPlan { fan, rpm } => vec![Act::Plan {
                fan: *fan,
                rpm: *rpm,
            }],
            Call::Event { record } => vec![act(record)],
            Call::Write { index, value } => vec![Act::Write {
                index: *index,
                value: *value,
            }],
            Call::Sample(sample) => vec![Act::Sample { u: sample.u }],
            Call::Read { .. } | Call::Look { .. } | Call::ChassisOpened => vec![Act::Other],
        }
    }

    fn holds_plan(fan: usize, index: u8) -> bool {
        let low = [0x47, 0x47, 0x4B][fan];
        let limits = [0x3B, 0x7B].map(|first| first + fan as u8);
        index == 0x5D || index == low || limits.contains(&index)
    }

    /// Bank 4 59h bit 6, 59h bit 7, 5Ah bit 3.
    fn ringing(subject: Subject, image: &Image) -> [bool; 3] {
        let mut image = *image;
        let bank_4 = Call::Write {
            index: 0x4E,
            value: 0x04,
        };
        assert_eq!((subject.call)(&mut image, &bank_4), (0, 0));
        let [first, second] = [0x59, 0x5A].map(|index| {
            let (answer, byte) = (subject.call)(&mut image, &Call::Read { index });
            assert_eq!(answer, 0, "{index:02X}h of bank 4");
            byte
        });
        [first & 0x40 != 0, first & 0x80 != 0, second & 0x08 != 0]
    }
}

/// What an accepted event did.
fn act_of(event: Event) -> Act<3> {
    match event {
        Event::Write { index, value } => Act::Write { index, value },
        Event::Sample(sample) => Act::Sample { u: sample.u },
        Event::Read { .. } | Event::Chassis => Act::Other,
    }
}

// ---- Random lists, aimed at the plans in force

/// Each call is made with the plans in force before it in view.
pub fn aimed_list(seed: u64, length: usize) -> (Image, Vec<Call>) {
    let mut rng = Rng::new(seed);
    let start = sequences::start(seed);
    let mut course = Course::from(&start);
    let mut unseen = Seen::default();
    let calls = (0..length).map(|_| {
        let call = aimed_call(&course.in_force, &mut rng);
        course.call(&call, &mut unseen);
        call
    });
    (start, calls.collect())
}

fn aimed_call(in_force: &InForce, rng: &mut Rng) -> Call {
    let record = |rng: &mut Rng| record_of(&aimed_event(in_force, rng)).to_vec();
    match rng.below(64) {
        0..=11 => any_plan(rng),
        12..=15 => Call::Event {
            record: record(rng),
        },
        16..=18 => {
            let records: Vec<_> = (0..1 + rng.below(4)).map(|_| record(rng)).collect();
            Call::Replay {
                log: records.concat(),
            }
        }
        19 if rng.one_in(8) => Call::PowerOn,
        // In standby every list would soon have no samples.
        20..=21 => Call::Write {
            index: 0x40,
            value: 0x03,
        },
        _ => aimed_event(in_force, rng).into(),
    }
}

fn aimed_event(in_force: &InForce, rng: &mut Rng) -> Event {
    match rng.below(16) {
        0..=5 => {
            let index = match rng.below(8) {
                0 => rng.pick(&[0x40, 0x4E]),
                1 => rng.pick(&[0x40, 0x4E, 0x41, 0x4F, 0x5E]),
                2 => rng.byte(),
                _ => rng.pick(&PLANNED),
            };
            let value = aimed_value(index, in_force, rng);
            Event::Write { index, value }
        }
        6 => Event::Read {
            index: rng.pick(&[0x28, 0x3B, 0x41, 0x42, 0x47, 0x50, 0x5D]),
        },
        7 if rng.one_in(4) => Event::Chassis,
        _ => Event::Sample(aimed_sample(in_force, rng)),
    }
}

/// Often the bits of the plans in force, of each fan by itself.
fn aimed_value(index: u8, in_force: &InForce, rng: &mut Rng) -> u8 {
    let any = rng.byte();
    let same: [bool; 3] = from_fn(|_| !rng.one_in(4));
    let plan = |fan: usize| in_force.plans[fan].filter(|_| same[fan]);
    let k = |fan: usize| plan(fan).map_or(any >> fan, |plan| plan.k);
    let limit = |fan: u8| plan(fan.into()).map_or(any, |plan| plan.limit);
    match index {
        0x40 => rng.pick(&[0x01, 0x03, 0x03, 0x00, 0x0B, 0x83]),
        0x4E => rng.pick(&[0x00, 0x80, 0x80, 0x01, 0x02, 0x04, 0x07]),
        0x3B..=0x3D => limit(index - 0x3B),
        0x7B..=0x7D => limit(index - 0x7B),
        0x47 => (k(1) & 3) << 6 | (k(0) & 3) << 4 | any & 0x0F,
        0x4B => (k(2) & 3) << 6 | any & 0x3F,
        0x5D => (0..3).fold(any & 0x1F, |byte, fan| {
            byte | (k(fan) >> 2 & 1) << (5 + fan)
        }),
        _ => any,
    }
}

/// Counts from two below the product of the plan in force to two above it.
fn aimed_sample(in_force: &InForce, rng: &mut Rng) -> Sample {
    let mut sample = near_sample(rng);
    for (u, plan) in sample.u.iter_mut().zip(in_force.plans) {
        match plan {
            Some(plan) if !rng.one_in(4) => {
                *u = (plan.product() + rng.below(5) as u32).saturating_sub(2);
            }
            Some(_) if rng.one_in(4) => *u = rng.next() as u32,
            _ => {}
        }
    }
    sample
}

#[test]
fn a_plan_in_force_rings_exactly_from_its_product_on() {
    hold_lists(LIBRARY, 0..2_000, |seed| aimed_list(seed, 200), 1_000);
}

#[test]
fn a_plan_in_force_rings_alike_through_the_wrapper() {
    let seeds = 1_000_000..1_000_200;
    hold_lists(WRAPPER, seeds, |seed| aimed_list(seed, 200), 100);
}

/// Lists that don't look at what is in force, most of them from states that no
/// call could reach.
#[test]
fn a_plan_in_force_rings_in_lists_that_know_nothing_of_it() {
    let list = |seed| {
        (
            sequences::start(seed),
            sequences::calls(Aim::Plans, seed, 100),
        )
    };
    hold_lists(LIBRARY, 0..2_000, list, 40);
}

// ---- Every write after a plan

/// With the plans set, one more call and monitoring started again: for each fan
/// whether it is silent one below the product and rings at it.
fn ring_at_their_products(start: &Image, plans: [u32; 3], next: &Call) -> ([bool; 3], InForce) {
    let mut course = Course::from(start);
    let mut image = *start;
    let mut seen = Seen::default();
    let mut products = [0; 3];
    for (fan, rpm) in (1..).zip(plans) {
        let call = Call::SetPlan { fan, rpm };
        course.call(&call, &mut seen);
        assert_eq!((LIBRARY.call)(&mut image, &call), (0, 0));
    }
    for (product, plan) in products.iter_mut().zip(course.in_force.plans) {
        *product = plan.expect("a plan was set").product();
    }
    let start_again = Call::Write {
        index: 0x40,
        value: 0x01,
    };
    for call in [next, &start_again] {
        course.call(call, &mut seen);
        (LIBRARY.call)(&mut image, call);
    }
    let rings = [1, 0].map(|below| {
        let mut image = image;
        let u = products.map(|product| product - below);
        let sample = Call::Sample(Sample { u, ..CALM });
        assert_eq!((LIBRARY.call)(&mut image, &sample), (0, 0));
        Expected::ringing(LIBRARY, &image)
    });
    let exact = from_fn(|fan| !rings[0][fan] && rings[1][fan]);
    (exact, course.in_force)
}

/// A setting other than the plan's rings from another count on, and so does what
/// a reset leaves. So a plan that is ended shows.
#[test]
fn a_write_ends_a_plan_exactly_when_the_fan_no_longer_rings_by_it() {
    let mut rng = Rng::new(0);
    // Plans that ended, and that stood though their registers were named.
    let (mut ended, mut stood) = ([0; 3], [0; 3]);
    let mut hold_write = |index, value, rng: &mut Rng| {
        let bank = if rng.one_in(2) { 0 } else { rng.below(8) as u8 };
        let start = in_bank(&random(rng), bank);
        let plans = [(); 3].map(|()| rng.pick(&EACH_DIVISOR));
        let write = Call::Write { index, value };
        let (exact, in_force) = ring_at_their_products(&start, plans, &write);
        for fan in 0..3 {
            let kept = in_force.plans[fan].is_some();
            let words = || format!("{} in bank {bank}, {plans:?} rpm", write.in_words());
            assert_eq!(exact[fan], kept, "fan {}: {}", fan + 1, words());
            ended[fan] += u32::from(!kept);
            stood[fan] += u32::from(kept && Expected::holds_plan(fan, index));
        }
    };
    for index in 0..=255 {
        for value in 0..=255 {
            hold_write(index, value, &mut rng);
        }
    }
    for _ in 0..8 {
        for index in PLANNED {
            for value in 0..=255 {
                hold_write(index, value, &mut rng);
            }
        }
    }
    println!("ended {ended:?}, stood {stood:?}");
    assert!(ended.iter().chain(&stood).all(|n| *n > 1_000));
}

// ---- Every speed

/// Both ends of every class of speeds. At the planned speed itself a fan rings.
#[test]
fn every_planned_speed_rings_from_its_product_on() {
    let mut rng = Rng::new(0);
    let nothing = Call::Read { index: 0x28 };
    for rpm in speed_classes().into_iter().flatten() {
        let start = random(&mut rng);
        let (exact, in_force) = ring_at_their_products(&start, [rpm; 3], &nothing);
        assert_eq!(exact, [true; 3], "{rpm} rpm");
        let at_speed = u_of_speed(rpm.into(), 1);
        for plan in in_force.plans {
            assert!(plan.is_some_and(|plan| plan.rings(at_speed)), "{rpm} rpm");
        }
    }
}

// ---- Every short list

/// Plans of each fan, refused ones; whole registers rewritten, with the bits of
/// one fan, of both or of none; an alias; banks; reset; stop and start.
fn actions() -> Vec<Call> {
    let plan = |fan, rpm| Call::SetPlan { fan, rpm };
    let write = |index, value| Call::Write { index, value };
    vec![
        plan(1, 4_400),
        plan(1, 68),
        plan(2, 4_400),
        plan(2, 68),
        plan(3, 68),
        plan(1, 0),
        plan(0, 4_400),
        write(0x47, 0x50),
        write(0x47, 0xD0),
        write(0x47, 0xF0),
        write(0x4B, 0xC4),
        write(0x5D, 0x00),
        write(0x5D, 0xE0),
        write(0x3B, 152),
        write(0x7C, 154),
        write(0x4E, 0x01),
        write(0x4E, 0x80),
        write(0x40, 0x83),
        write(0x40, 0x00),
        write(0x40, 0x03),
    ]
}

/// Every list of so many actions, a common beginning walked once. After each
/// action two samples are tried: counts one below the products, and at them.
fn walk(so_far: &(Course, Image), path: &mut Vec<Call>, more: usize, seen: &mut Seen) {
    if more == 0 {
        return;
    }
    for action in actions() {
        let (mut course, mut found) = so_far.clone();
        path.push(action.clone());
        if !agrees(&mut course, &mut found, &action, seen) {
            fail(path);
        }
        for below in [1, 0] {
            let count = |plan: Option<Plan>| plan.map_or(0, |plan| plan.product() - below);
            let sample = Call::Sample(Sample {
                u: course.in_force.plans.map(count),
                ..CALM
            });
            if !agrees(&mut course.clone(), &mut found.clone(), &sample, seen) {
                path.push(sample);
                fail(path);
            }
        }
        walk(&(course, found), path, more - 1, seen);
        path.pop();
    }
}

/// Carries out one more call on both sides: whether they agree, and the plans in
/// force ring.
fn agrees(course: &mut Course, found: &mut Image, call: &Call, seen: &mut Seen) -> bool {
    let mut expected = course.expected.clone();
    let due = course.call(call, seen);
    step(LIBRARY, &mut expected, found, call) && rings_as_due(LIBRARY, found, due, seen)
}

fn fail(path: &[Call]) -> ! {
    let seen = &mut Seen::default();
    hold_plans(LIBRARY, &walk_start(), path, "short list", seen);
    unreachable!("the list fails");
}

fn walk_start() -> Image {
    monitoring(power_on())
}

#[test]
fn every_short_list_around_plans_rings_by_them() {
    let start = walk_start();
    let mut seen = Seen::default();
    let so_far = (Course::from(&start), start);
    walk(&so_far, &mut Vec::new(), 4, &mut seen);
    println!("{} checks, {seen:?}", seen.checks());
    assert!(seen.enough(100), "{seen:?}");
}
