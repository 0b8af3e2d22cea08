//! "Planning a fan alarm" of document 01, apart from the registers that a plan
//! is set in.

use crate::answer::{ACCEPTED, BAD_SPEED};
use crate::speed::COUNTS_PER_MINUTE;

/// "A fan at a/b rpm (b at least 1) gives u = 1,350,000 b / a rounded down, at
/// most 4,294,967,295; a = 0 gives that maximum." That b is at least 1 is the
/// caller's part.
pub fn u_of_speed(a: u64, b: u64) -> u32 {
    if a == 0 {
        return u32::MAX;
    }
    let u = u128::from(COUNTS_PER_MINUTE) * u128::from(b) / u128::from(a);
    u.min(u128::from(u32::MAX)) as u32
}

/// "A plan is a divisor d and a limit L from 0 to 254." Gives the answer, d and
/// L; a refusal gives d 0 and L 0, which is no plan.
pub fn plan(rpm: u32) -> (u8, u32, u8) {
    match search(rpm) {
        Some((k, limit)) => (ACCEPTED, 1 << k, limit),
        None => (BAD_SPEED, 0, 0),
    }
}

/// "Ask for w rpm: with K = 1,350,000 / w rounded down, the plan has the largest
/// (L+1)d not above K; of equals, the smallest d." Every divisor is tried with
/// every limit, the smaller divisors first, and a plan gives way to a larger
/// product only. The divisor is 2 to the power k; gives k and L.
pub(crate) fn search(rpm: u32) -> Option<(u8, u8)> {
    // "Planned speed 0 or above 1,350,000: no plan."
    if rpm == 0 || rpm > COUNTS_PER_MINUTE {
        return None;
    }
    let largest_allowed = COUNTS_PER_MINUTE / rpm;
    let mut best = None;
    let mut best_product = 0;
    for k in 0..=7 {
        for limit in 0..=254 {
            let product = (u32::from(limit) + 1) << k;
            if product <= largest_allowed && product > best_product {
                best = Some((k, limit));
                best_product = product;
            }
        }
    }
    best
}
