//! Section 8: setting a plan.

use super::monitor::Monitor;
use super::sample::{DIVISOR_BITS, FAN_LIMIT};
use crate::answer::{ACCEPTED, BAD_SPEED, NO_CHANNEL};
use crate::plan::search;

impl Monitor {
    /// "The plan's limit goes to 3Ah+f and its k to that fan's three bits of 49h
    /// (2-0 or 6-4); no other bit of any register changes, no mark, output or
    /// quotient; counts and real-time bits wait. It works in standby."
    pub fn set_plan(&mut self, fan: u8, rpm: u32) -> u8 {
        // "A fan other than 1 or 2 answers 7, before 6 for a speed of 0 or above
        // 1,350,000; both change nothing."
        let Some(place) = fan_place(fan) else {
            return NO_CHANNEL;
        };
        let Some((k, limit)) = search(rpm) else {
            return BAD_SPEED;
        };
        self.registers[FAN_LIMIT + place] = limit;
        let (divisor, bit) = DIVISOR_BITS[place];
        self.store(divisor, 0x07 << bit, k << bit);
        ACCEPTED
    }
}

/// Fan 1 or 2 as a place 0 or 1.
pub(super) fn fan_place(fan: u8) -> Option<usize> {
    match fan {
        1 | 2 => Some(usize::from(fan) - 1),
        _ => None,
    }
}
