//! Setting a plan: the registers of "Planning a fan alarm" of document 01.

use super::monitor::Monitor;
use super::readings::{place, DIVISOR_LOW, DIVISOR_TOP};
use super::sample::FAN_LIMIT;
use crate::answer::{ACCEPTED, BAD_SPEED, NO_CHANNEL};
use crate::plan::search;

impl Monitor {
    /// "Setting it writes that fan's limit and three divisor bits, and nothing
    /// else, whatever bank is selected and whether or not samples are stopped."
    /// "Stored counts and real-time bits wait for the next sample."
    pub fn set_plan(&mut self, fan: u8, rpm: u32) -> u8 {
        // "7 before 6"
        let Some(fan) = place(fan) else {
            return NO_CHANNEL;
        };
        let Some((k, limit)) = search(rpm) else {
            return BAD_SPEED;
        };
        self.registers[FAN_LIMIT + fan] = limit;
        self.set_bits(DIVISOR_LOW[fan], 0x03, k & 0x03);
        self.set_bits(DIVISOR_TOP[fan], 0x01, k >> 2);
        ACCEPTED
    }

    /// Replaces the bits of a mask, whose lowest bit is `bit`.
    fn set_bits(&mut self, (cell, bit): (usize, u32), mask: u8, value: u8) {
        let kept = self.registers[cell] & !(mask << bit);
        self.registers[cell] = kept | (value << bit);
    }
}
