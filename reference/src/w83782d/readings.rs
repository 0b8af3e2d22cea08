//! "Readings" of document 01.

use super::map::cell;
use super::monitor::Monitor;
use super::sample::FAN_COUNT;
use crate::answer::{ACCEPTED, NO_CHANNEL};
use crate::speed::Speed;

/// The two low divisor bits of each fan: register and lowest bit. "47h: fan 2
/// divisor 7-6, fan 1 divisor 5-4"; "4Bh: fan 3 divisor 7-6".
pub(super) const DIVISOR_LOW: [(usize, u32); 3] =
    [(cell(0, 0x47), 4), (cell(0, 0x47), 6), (cell(0, 0x4B), 6)];

/// The top divisor bit of each fan: register and bit. "5Dh: divisor top bits:
/// fan 3, 2, 1 in 7, 6, 5".
pub(super) const DIVISOR_TOP: [(usize, u32); 3] =
    [(cell(0, 0x5D), 5), (cell(0, 0x5D), 6), (cell(0, 0x5D), 7)];

impl Monitor {
    /// "Speed takes the stored count and the divisor now set", in tenths of rpm (C-12).
    pub fn speed(&self, fan: u8) -> Speed {
        // "Fan not 1 to 3."
        let Some(fan) = place(fan) else {
            return Speed::Refused;
        };
        Speed::of(self.shown(FAN_COUNT + fan), self.divisor(fan))
    }

    /// The stored temperature of sensor 1 to 3 in half degrees: answer and
    /// value; 7 and 0 for any other sensor.
    pub fn temperature(&self, sensor: u8) -> (u8, i32) {
        match place(sensor) {
            Some(sensor) => (ACCEPTED, self.value(sensor)),
            None => (NO_CHANNEL, 0),
        }
    }

    /// "The divisor is 2 to the power k, k being three bits, the top one from
    /// 5Dh." `fan` 0 is fan 1.
    pub(super) fn divisor(&self, fan: usize) -> u32 {
        let (low_cell, low_bit) = DIVISOR_LOW[fan];
        let (top_cell, top_bit) = DIVISOR_TOP[fan];
        let low = (self.shown(low_cell) >> low_bit) & 0x03;
        let top = (self.shown(top_cell) >> top_bit) & 0x01;
        1 << (4 * top + low)
    }
}

/// Fan or sensor 1 to 3 as a place 0 to 2.
pub(super) fn place(number: u8) -> Option<usize> {
    match number {
        1..=3 => Some(usize::from(number) - 1),
        _ => None,
    }
}

/// "Millivolts, nearest, halves away from zero, for code c": answer and
/// reading. R5 and R6 are kilo-ohm and count for channels 5 and 6 only.
pub fn millivolts(channel: u8, code: u8, r5: u32, r6: u32) -> (u8, i32) {
    let c = i64::from(code);
    let (r5, r6) = (i64::from(r5), i64::from(r6));
    let reading = match channel {
        // "Channels 0 to 2, 16c."
        0..=2 => 16 * c,
        // "+5, 672c/25."
        3 => nearest(672 * c, 25),
        // "+12, 304c/5."
        4 => nearest(304 * c, 5),
        // "Both negative rails, with resistors R5 and R6 from the caller,
        // (16c(R5+R6) - 3600 R5) / R6."
        5 | 6 if resistor_fits(r5) && resistor_fits(r6) => {
            nearest(16 * c * (r5 + r6) - 3600 * r5, r6)
        }
        // "Reading 0."
        _ => return (NO_CHANNEL, 0),
    };
    (ACCEPTED, reading as i32)
}

/// "A whole 1 to 1,000 kilo-ohm."
fn resistor_fits(kilo_ohm: i64) -> bool {
    (1..=1000).contains(&kilo_ohm)
}

/// "Nearest, halves away from zero"; `by` is above zero.
fn nearest(number: i64, by: i64) -> i64 {
    let magnitude = (2 * number.abs() + by) / (2 * by);
    magnitude * number.signum()
}

/// "PWM byte x is on for x of 256 parts, FFh for all 256 (002, 7.29)."
pub fn pwm_parts(x: u8) -> u16 {
    match x {
        0xFF => 256,
        _ => u16::from(x),
    }
}
