//! Random and adversarial lists of calls, each from its seed.

use crate::calls::{Call, Subject, LIBRARY, WRAPPER};
use crate::common::report::hold;
use crate::common::rng::Rng;
use crate::events::{damaged, record_of};
use crate::image::{near_power_on, power_on, random, Image};
use crate::plans::any_plan;
use crate::samples::{any_sample, near_sample, ANCHORS};
use reference::w83782d::{Event, RECORD_LENGTH};

/// What a list of calls is after.
#[derive(Clone, Copy, Debug)]
pub enum Aim {
    /// Everything, weighted to registers whose writes do more than store.
    Mixed,
    /// Any index and byte at all, most of them refused.
    Anything,
    /// Bank switches between accesses to 50h-5Fh.
    Banks,
    /// Status, masks, chassis latch and chassis clear; 61h, 62h and 66h are
    /// voltages, whatever their last digit.
    Status,
    /// Resets between writes, and power-ons.
    Resets,
    /// Aliases 60h-7Fh beside 20h-3Fh, in every bank.
    Aliases,
    /// Samples between writes of limits, modes, divisors and 40h.
    Samples,
    /// Plans between writes of fan limits and divisors.
    Plans,
}

pub const AIMS: [Aim; 8] = [
    Aim::Mixed,
    Aim::Anything,
    Aim::Banks,
    Aim::Status,
    Aim::Resets,
    Aim::Aliases,
    Aim::Samples,
    Aim::Plans,
];

/// Registers with a rule of their own: configuration, chassis clear, divisors,
/// bank select.
const RULED: [u8; 6] = [0x40, 0x46, 0x47, 0x4B, 0x4E, 0x5D];

/// Registers that move with a sample or decide what it does: status, modes,
/// divisors, limits of sensor 1, values and limits of sensors 2 and 3.
const SAMPLED: [u8; 16] = [
    0x40, 0x41, 0x42, 0x39, 0x3A, 0x3A, 0x47, 0x4B, 0x4C, 0x5D, 0x50, 0x52, 0x53, 0x54, 0x55, 0x56,
];

/// Registers of fan limits and divisors, by each index that reaches them.
pub const PLANNED: [u8; 9] = [0x3B, 0x3C, 0x3D, 0x7B, 0x7C, 0x7D, 0x47, 0x4B, 0x5D];

/// The calls of a seed.
pub fn calls(aim: Aim, seed: u64, length: usize) -> Vec<Call> {
    let mut rng = Rng::new(seed);
    (0..length).map(|_| call(aim, &mut rng)).collect()
}

/// The image of a seed: most lists start from a state that no call could reach.
pub fn start(seed: u64) -> Image {
    let mut rng = Rng::new(!seed);
    match rng.below(4) {
        0 => power_on(),
        1 => near_power_on(&mut rng),
        _ => random(&mut rng),
    }
}

fn call(aim: Aim, rng: &mut Rng) -> Call {
    let plans = match aim {
        Aim::Plans => 20,
        _ => 2,
    };
    match rng.below(100) {
        0..=1 => rare(aim, rng),
        2 => Call::Replay { log: log(aim, rng) },
        3..=8 => Call::Event {
            record: record(aim, rng),
        },
        9..=13 => Call::Look {
            index: aim.index(rng),
        },
        choice if choice < 14 + plans => any_plan(rng),
        _ => event(aim, rng).into(),
    }
}

fn event(aim: Aim, rng: &mut Rng) -> Event {
    let samples = match aim {
        Aim::Samples | Aim::Plans => 40,
        _ => 12,
    };
    match rng.below(100) {
        0..=3 => Event::Chassis,
        choice if choice < 4 + samples => match rng.below(6) {
            0 => Event::Sample(any_sample(rng)),
            _ => Event::Sample(near_sample(rng)),
        },
        choice if choice % 5 < 2 => Event::Read {
            index: aim.index(rng),
        },
        _ => {
            let index = aim.index(rng);
            let value = aim.value(index, rng);
            Event::Write { index, value }
        }
    }
}

/// Some are damaged, some cut.
fn record(aim: Aim, rng: &mut Rng) -> Vec<u8> {
    let record = record_of(&event(aim, rng));
    match rng.below(8) {
        0 => damaged(record, rng).to_vec(),
        1 => record[..rng.below(RECORD_LENGTH as u64) as usize].to_vec(),
        _ => record.to_vec(),
    }
}

/// A few records; every fourth log is cut.
fn log(aim: Aim, rng: &mut Rng) -> Vec<u8> {
    let mut log = Vec::new();
    for _ in 0..rng.below(6) {
        let record = record_of(&event(aim, rng));
        log.extend(match rng.below(16) {
            0 => damaged(record, rng),
            _ => record,
        });
    }
    if rng.one_in(4) {
        log.truncate(rng.below(log.len() as u64 + 1) as usize);
    }
    log
}

/// Power-on wipes what the calls before it did, so it is rare.
fn rare(aim: Aim, rng: &mut Rng) -> Call {
    match aim {
        Aim::Resets => Call::PowerOn,
        _ if rng.one_in(8) => Call::PowerOn,
        _ => Call::ChassisOpened,
    }
}

impl Aim {
    /// An index for a bus access.
    pub fn index(self, rng: &mut Rng) -> u8 {
        let any = rng.byte();
        let listed = 0x20 + rng.below(0x60) as u8;
        let banked = 0x50 + rng.below(0x10) as u8;
        let alias = 0x60 + rng.below(0x20) as u8;
        match self {
            Aim::Mixed => match rng.below(8) {
                0..=2 => rng.pick(&RULED),
                3 => alias,
                4..=5 => banked,
                6 => listed,
                _ => any,
            },
            Aim::Anything => any,
            Aim::Banks => match rng.below(4) {
                0 => 0x4E,
                _ => banked,
            },
            Aim::Status => match rng.below(8) {
                0..=3 => rng.pick(&[0x41, 0x42, 0x43, 0x44, 0x46]),
                4 => rng.pick(&[0x45, 0x4E, 0x59, 0x5A]),
                5 => rng.pick(&[0x61, 0x62, 0x66]),
                _ => listed,
            },
            Aim::Resets => match rng.below(4) {
                0 => rng.pick(&[0x40, 0x48, 0x4E]),
                _ => listed,
            },
            Aim::Aliases => match rng.below(4) {
                0 => 0x4E,
                1 => alias - 0x40,
                _ => alias,
            },
            Aim::Samples => match rng.below(8) {
                0 => 0x4E,
                1 => 0x2B + rng.below(0x13) as u8,
                2 => listed,
                _ => rng.pick(&SAMPLED),
            },
            Aim::Plans => match rng.below(8) {
                0 => rng.pick(&[0x40, 0x4E]),
                1 => listed,
                _ => rng.pick(&PLANNED),
            },
        }
    }

    /// A byte to write to an index.
    pub fn value(self, index: u8, rng: &mut Rng) -> u8 {
        let sampled = matches!(self, Aim::Samples | Aim::Plans);
        let reset_allowed = matches!(self, Aim::Resets) || rng.one_in(8);
        match index {
            // A reset wipes what the calls before it did, so it is rare.
            0x40 if sampled && !reset_allowed => rng.pick(&[0x00, 0x01, 0x03, 0x03, 0x03, 0x0B]),
            0x40 if !reset_allowed => rng.byte() & 0x7F,
            // Comparator mode of sensor 1, and next to it.
            0x3A if sampled => rng.pick(&[0x7F, 0x7F, 0x7E, 0x4B, 0xFF]),
            // Mostly banks that there are.
            0x4E if sampled => rng.pick(&[0x00, 0x01, 0x02]),
            0x4E => rng.pick(&[0, 0, 1, 1, 2, 2, 3, 4, 4, 5, 6, 7]) | rng.byte() & 0xF8,
            0x2B..=0x3D | 0x53..=0x56 if sampled => rng.pick(&ANCHORS),
            _ => match rng.below(4) {
                0 => 1 << rng.below(8),
                1 => rng.pick(&[0x00, 0x7F, 0x80, 0xFF]),
                _ => rng.byte(),
            },
        }
    }
}

/// Lists of so many calls with each aim; gives the number of calls made.
fn hold_lists(subject: Subject, lists: u64, length: usize) -> u64 {
    for (number, aim) in AIMS.into_iter().enumerate() {
        for list in 0..lists {
            let seed = 1_000_000 * number as u64 + list;
            let origin = format!("{aim:?}, seed {seed}, {length} calls");
            hold(subject, &start(seed), &calls(aim, seed, length), &origin);
        }
    }
    AIMS.len() as u64 * lists * length as u64
}

/// Many starts: a short list sees flags and odd bits before a reset wipes them.
#[test]
fn short_lists_of_calls_agree_from_many_states() {
    assert!(hold_lists(LIBRARY, 20_000, 50) >= 8_000_000);
}

#[test]
fn long_lists_of_calls_agree() {
    assert!(hold_lists(LIBRARY, 3, 100_000) >= 2_400_000);
}

#[test]
fn the_wrapper_agrees_over_lists_of_calls() {
    assert!(hold_lists(WRAPPER, 4_000, 50) >= 1_600_000);
}
