//! Demand 3 of document 01 over lists of calls: while a plan is in force on a fan,
//! each accepted sample leaves the fan's real-time bit 1 exactly when u >= (L+1)d.
//!
//! Which plans are in force is known by `reference::InForce` from the calls and
//! the second program's answers; the bit is what the bus of what is tested shows.

use super::lists::{Listed, Model, Subject};
use super::report::{hold, shrink};
use reference::{End, InForce, Rewrites};
use std::array::from_fn;
use std::ops::Range;

/// What the second program's answer makes of a call, or of a part of it.
pub enum Act<const FANS: usize> {
    /// "The list starts from power-on": another list.
    Start,
    /// A plan was set on a fan, 1 being the first.
    Plan { fan: u8, rpm: u32 },
    /// A bus write was accepted.
    Write { index: u8, value: u8 },
    /// A sample was accepted.
    Sample { u: [u32; FANS] },
    /// A call was refused.
    Refused(Refused),
    /// Anything else: it neither sets nor ends a plan, and nothing is said of the
    /// real-time bits after it.
    Other,
}

/// Refused calls that are counted.
pub enum Refused {
    Plan,
    Write,
    Sample,
}

/// A chip's part of the demand.
pub trait Fans<const FANS: usize>: Model {
    /// What is a rewrite of a plan.
    const REWRITES: Rewrites;

    /// What a call did, by its answer. Of several acts, as in a log, only what the
    /// last leaves is seen.
    fn acts(call: &Self::Call, answer: &Self::Answer) -> Vec<Act<FANS>>;

    /// Whether an index reaches a register with bits of a fan's limit or divisor.
    /// Fan 0 is fan 1.
    fn holds_plan(fan: usize, index: u8) -> bool;

    /// The fans' real-time bits on the bus of an image.
    fn ringing(subject: Subject<Self>, image: &Self::Image) -> [bool; FANS];
}

/// What a run has met, so that it can't pass for want of cases. Fan by fan.
#[derive(Clone, Debug)]
pub struct Seen<const FANS: usize> {
    /// Bits checked after samples, by what the plan in force says.
    rang: [u64; FANS],
    silent: [u64; FANS],
    /// Plans in force that ended, by what ended them.
    resets: [u64; FANS],
    rewrites: [u64; FANS],
    next_plans: [u64; FANS],
    /// Accepted writes to the plan's registers that ended nothing.
    same_bits: [u64; FANS],
    /// Refused calls with a plan in force on some fan.
    refused_plans: u64,
    refused_writes: u64,
    refused_samples: u64,
}

impl<const FANS: usize> Default for Seen<FANS> {
    fn default() -> Seen<FANS> {
        Seen {
            rang: [0; FANS],
            silent: [0; FANS],
            resets: [0; FANS],
            rewrites: [0; FANS],
            next_plans: [0; FANS],
            same_bits: [0; FANS],
            refused_plans: 0,
            refused_writes: 0,
            refused_samples: 0,
        }
    }
}

impl<const FANS: usize> Seen<FANS> {
    pub fn checks(&self) -> u64 {
        [self.rang, self.silent].iter().flatten().sum()
    }

    /// Both outcomes and every ending so often on each fan, and refusals.
    pub fn enough(&self, least: u64) -> bool {
        let by_fan = [
            self.rang,
            self.silent,
            self.resets,
            self.rewrites,
            self.next_plans,
            self.same_bits,
        ];
        let refused = [
            self.refused_plans,
            self.refused_writes,
            self.refused_samples,
        ];
        by_fan.iter().flatten().chain(&refused).all(|n| *n >= least)
    }

    fn count_end(&mut self, fan: usize, end: End) {
        match end {
            End::Reset => self.resets[fan] += 1,
            End::Rewrite => self.rewrites[fan] += 1,
            End::NextPlan => self.next_plans[fan] += 1,
        }
    }

    fn count_refused(&mut self, call: Refused) {
        match call {
            Refused::Plan => self.refused_plans += 1,
            Refused::Write => self.refused_writes += 1,
            Refused::Sample => self.refused_samples += 1,
        }
    }
}

/// For each fan what its real-time bit must be; `None` where nothing is said.
pub type Due<const FANS: usize> = [Option<bool>; FANS];

/// A list of calls on the second program's side.
#[derive(Clone)]
pub struct Course<M, const FANS: usize> {
    pub expected: M,
    pub in_force: InForce<FANS>,
}

impl<M: Fans<FANS>, const FANS: usize> Course<M, FANS> {
    pub fn from(start: &M::Image) -> Self {
        Course {
            expected: M::of(start),
            in_force: InForce::default(),
        }
    }

    pub fn call(&mut self, call: &M::Call, seen: &mut Seen<FANS>) -> Due<FANS> {
        let answer = self.expected.call(call);
        let mut due = [None; FANS];
        for act in M::acts(call, &answer) {
            due = self.act(act, seen);
        }
        due
    }

    fn act(&mut self, act: Act<FANS>, seen: &mut Seen<FANS>) -> Due<FANS> {
        match act {
            Act::Start => self.in_force = InForce::default(),
            Act::Plan { fan, rpm } => {
                if let Some(end) = self.in_force.planned(fan, rpm) {
                    seen.count_end(usize::from(fan) - 1, end);
                }
            }
            Act::Write { index, value } => self.written(index, value, seen),
            Act::Sample { u } => {
                return from_fn(|fan| self.in_force.plans[fan].map(|plan| plan.rings(u[fan])));
            }
            Act::Refused(call) => {
                if self.in_force != InForce::default() {
                    seen.count_refused(call);
                }
            }
            Act::Other => {}
        }
        [None; FANS]
    }

    fn written(&mut self, index: u8, value: u8, seen: &mut Seen<FANS>) {
        let before = self.in_force.plans;
        let ends = self.in_force.written(M::REWRITES, index, value);
        for fan in 0..FANS {
            match ends[fan] {
                Some(end) => seen.count_end(fan, end),
                None if before[fan].is_some() && M::holds_plan(fan, index) => {
                    seen.same_bits[fan] += 1;
                }
                None => {}
            }
        }
    }
}

/// Whether every bit that must be something is that.
pub fn rings_as_due<M: Fans<FANS>, const FANS: usize>(
    subject: Subject<M>,
    image: &M::Image,
    due: Due<FANS>,
    seen: &mut Seen<FANS>,
) -> bool {
    if due == [None; FANS] {
        return true;
    }
    let found = M::ringing(subject, image);
    for (fan, bit) in due.into_iter().enumerate() {
        match bit {
            Some(true) => seen.rang[fan] += 1,
            Some(false) => seen.silent[fan] += 1,
            None => {}
        }
    }
    (0..FANS).all(|fan| due[fan].unwrap_or(found[fan]) == found[fan])
}

/// The place of the first sample of a list that leaves a bit other than a plan in
/// force says. States are not compared.
pub fn first_broken_plan<M: Fans<FANS>, const FANS: usize>(
    subject: Subject<M>,
    start: &M::Image,
    calls: &[M::Call],
    seen: &mut Seen<FANS>,
) -> Option<usize> {
    let mut course = Course::<M, FANS>::from(start);
    let mut found = *start;
    calls.iter().position(|call| {
        let due = course.call(call, seen);
        (subject.call)(&mut found, call);
        !rings_as_due(subject, &found, due, seen)
    })
}

/// Holds a list of calls to its plans in force and to the second program.
pub fn hold_plans<M: Fans<FANS>, const FANS: usize>(
    subject: Subject<M>,
    start: &M::Image,
    calls: &[M::Call],
    origin: &str,
    seen: &mut Seen<FANS>,
) {
    if first_broken_plan(subject, start, calls, seen).is_some() {
        let list = shrunk(subject, start, calls);
        let words: Vec<String> = list.iter().map(Listed::in_words).collect();
        let (start, words) = (start.as_ref(), words.join("\n"));
        panic!("{origin}: a plan in force is broken\nstart:\n{start:02X?}\n{words}");
    }
    hold(subject, start, calls, origin);
}

pub fn breaks_a_plan<M: Fans<FANS>, const FANS: usize>(
    subject: Subject<M>,
    start: &M::Image,
    calls: &[M::Call],
) -> bool {
    first_broken_plan(subject, start, calls, &mut Seen::default()).is_some()
}

/// The calls that are left of a list that breaks a plan.
pub fn shrunk<M: Fans<FANS>, const FANS: usize>(
    subject: Subject<M>,
    start: &M::Image,
    calls: &[M::Call],
) -> Vec<M::Call> {
    let fails = |calls: &[M::Call]| first_broken_plan(subject, start, calls, &mut Seen::default());
    shrink(&fails, calls)
}

/// Holds the list of each seed to what the plans in force say; what is to be seen
/// is seen `least` times.
pub fn hold_lists<M: Fans<FANS>, const FANS: usize>(
    subject: Subject<M>,
    seeds: Range<u64>,
    list: impl Fn(u64) -> (M::Image, Vec<M::Call>),
    least: u64,
) {
    let mut seen = Seen::default();
    for seed in seeds {
        let (start, calls) = list(seed);
        hold_plans(subject, &start, &calls, &format!("seed {seed}"), &mut seen);
    }
    println!("{} checks, {seen:?}", seen.checks());
    assert!(seen.enough(least), "{seen:?}");
}
