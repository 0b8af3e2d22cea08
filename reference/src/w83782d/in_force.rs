//! What ends a plan in force by a rewrite. Like the rest of plans in force it
//! looks at no monitor, and has the places of limits and divisors by itself.

use crate::in_force::Plan;

/// The plans in force on fans 1 to 3.
pub type InForce = crate::in_force::InForce<3>;

/// "A rewrite is an accepted write whose byte gives a bit of that fan's limit or
/// divisor another value than the plan's." 5Dh is in bank 0 only, so that it was
/// accepted is enough; 7Bh to 7Dh are 3Bh to 3Dh. `fan` 0 is fan 1.
pub fn rewrites(fan: u8, plan: Plan, index: u8, value: u8) -> bool {
    let low = plan.k & 3;
    let top = plan.k >> 2;
    match (index, fan) {
        (0x3B..=0x3D, _) if index - 0x3B == fan => value != plan.limit,
        (0x7B..=0x7D, _) if index - 0x7B == fan => value != plan.limit,
        (0x47, 0) => value >> 4 & 3 != low,
        (0x47, 1) => value >> 6 != low,
        (0x4B, 2) => value >> 6 != low,
        (0x5D, _) => value >> (5 + fan) & 1 != top,
        _ => false,
    }
}
