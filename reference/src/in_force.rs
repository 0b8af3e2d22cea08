//! Plans in force, which demand 3 of document 01 speaks of. They follow from the
//! calls and their answers alone: nothing here looks at a monitor, and plans are
//! worked out apart from the planner. Of a chip it takes the number of fans and
//! what a rewrite is.

/// "A plan is a divisor d and a limit L from 0 to 254." d is 2 to the power k.
#[derive(Clone, Copy, Debug, PartialEq, Eq)]
pub struct Plan {
    pub k: u8,
    pub limit: u8,
}

impl Plan {
    /// The plan for w rpm: with one divisor the largest product not above K has
    /// L+1 = K/d, at most 255. That w is 1 to 1,350,000 is the caller's part.
    pub fn of(w: u32) -> Plan {
        let allowed = 1_350_000 / w;
        let mut best = Plan { k: 0, limit: 0 };
        for k in 0..8 {
            let factor = (allowed >> k).min(255);
            if factor >= 1 && factor << k > best.product() {
                best = Plan {
                    k,
                    limit: (factor - 1) as u8,
                };
            }
        }
        best
    }

    /// "(L+1)d"
    pub fn product(&self) -> u32 {
        (u32::from(self.limit) + 1) << self.k
    }

    /// "It rings for u exactly when u >= (L+1)d."
    pub fn rings(&self, u: u32) -> bool {
        u >= self.product()
    }
}

/// What ended a plan.
#[derive(Clone, Copy, Debug, PartialEq, Eq)]
pub enum End {
    /// "A reset by 40h bit 7".
    Reset,
    /// "A rewrite".
    Rewrite,
    /// "The next accepted plan on that fan".
    NextPlan,
}

/// "A rewrite is an accepted write whose byte gives a bit of that fan's limit or
/// divisor another value than the plan's." Each chip says it of its registers,
/// for a fan (0 being fan 1), the plan in force on it, an index and a byte.
pub type Rewrites = fn(fan: u8, plan: Plan, index: u8, value: u8) -> bool;

/// The plans in force on each fan; none where a list of calls starts. "A refused
/// call ends nothing": only accepted calls are passed on.
#[derive(Clone, Copy, Debug, PartialEq, Eq)]
pub struct InForce<const FANS: usize> {
    pub plans: [Option<Plan>; FANS],
}

impl<const FANS: usize> Default for InForce<FANS> {
    fn default() -> InForce<FANS> {
        InForce {
            plans: [None; FANS],
        }
    }
}

impl<const FANS: usize> InForce<FANS> {
    /// A plan was set on a fan from 1 on, answered 0. Gives what it ended there.
    pub fn planned(&mut self, fan: u8, rpm: u32) -> Option<End> {
        let plan = &mut self.plans[usize::from(fan) - 1];
        plan.replace(Plan::of(rpm)).map(|_| End::NextPlan)
    }

    /// A bus write was accepted. Gives what it ended on each fan.
    pub fn written(&mut self, rewrites: Rewrites, index: u8, value: u8) -> [Option<End>; FANS] {
        let mut ends = [None; FANS];
        for (fan, plan) in self.plans.iter_mut().enumerate() {
            ends[fan] = plan.and_then(|plan| end(rewrites, fan as u8, plan, index, value));
            if ends[fan].is_some() {
                *plan = None;
            }
        }
        ends
    }
}

/// How an accepted write ends a plan on a fan, 0 being fan 1. "A reset by 40h bit
/// 7" is one on each chip of the family.
fn end(rewrites: Rewrites, fan: u8, plan: Plan, index: u8, value: u8) -> Option<End> {
    if index == 0x40 && value & 0x80 != 0 {
        return Some(End::Reset);
    }
    if rewrites(fan, plan, index, value) {
        return Some(End::Rewrite);
    }
    None
}
