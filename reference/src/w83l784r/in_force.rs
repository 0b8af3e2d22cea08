//! What ends a plan in force by a rewrite. Like the rest of plans in force it
//! looks at no monitor, and has the places of limits and divisors by itself.

use crate::in_force::Plan;

/// The plans in force on fans 1 and 2.
pub type InForce = crate::in_force::InForce<2>;

/// "A rewrite (an accepted write to 3Ah+f, to 7Ah+f or to 49h whose byte gives
/// one of that fan's bits another value than the plan's)" (section 8). "The other
/// fan's bits in 49h, the sets and the offsets end nothing." `fan` 0 is fan 1.
pub fn rewrites(fan: u8, plan: Plan, index: u8, value: u8) -> bool {
    match (index, fan) {
        (0x3B | 0x7B, 0) => value != plan.limit,
        (0x3C | 0x7C, 1) => value != plan.limit,
        (0x49, 0) => value & 0x07 != plan.k,
        (0x49, 1) => (value >> 4) & 0x07 != plan.k,
        _ => false,
    }
}
