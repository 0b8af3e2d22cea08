//! A fan's speed, from "Readings" of document 01 as request C-12 amends them: in tenths
//! of rpm.

use crate::answer::{ACCEPTED, NO_CHANNEL};

/// "1,350,000 / w": what a fan counts, for planning.
pub(crate) const COUNTS_PER_MINUTE: u32 = 1_350_000;

/// "Count 0 answers "too fast" and 255 "too slow", never a number"; "the speed reading
/// becomes tenths of rpm".
#[derive(Clone, Copy, Debug, PartialEq, Eq)]
pub enum Speed {
    Tenths(u32),
    TooFast,
    TooSlow,
    /// Answer 7: a fan that the chip doesn't have.
    Refused,
}

impl Speed {
    /// The speed of a stored count under a divisor.
    pub(crate) fn of(count: u8, divisor: u32) -> Speed {
        match count {
            0 => Speed::TooFast,
            255 => Speed::TooSlow,
            // "Nearest to 13,500,000 / (count x divisor), halves up."
            _ => Speed::Tenths(nearest(13_500_000, u32::from(count) * divisor)),
        }
    }

    /// The answer number: too fast and too slow are accepted.
    pub fn answer(self) -> u8 {
        match self {
            Speed::Tenths(_) | Speed::TooFast | Speed::TooSlow => ACCEPTED,
            Speed::Refused => NO_CHANNEL,
        }
    }
}

/// A quotient to the "nearest, halves up"; `by` is above zero.
fn nearest(number: u32, by: u32) -> u32 {
    (2 * number + by) / (2 * by)
}
