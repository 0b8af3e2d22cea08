//! Section 4: what a sample does.

use super::map::{cell, set, SET_ROWS};
use super::monitor::{Monitor, CONFIGURATION, INTERNAL_TEMPERATURE, OFFSET, STATUS};
use crate::answer::{ACCEPTED, NOT_MONITORING};
use crate::sensor::{comparator_mark, two_times, Mark};

/// What a sample carries. Every sample is well formed: "answer 3 does not exist
/// here".
#[derive(Clone, Copy, Debug, PartialEq, Eq)]
pub struct Sample {
    /// "Four codes in the order 20h-23h (VIN1, VIN3, VIN2, VCC), any bytes".
    pub codes: [u8; 4],
    /// "Three temperatures, sensors 1 to 3, signed bytes in whole degrees".
    pub degrees: [i8; 3],
    /// "Two undivided counts, any 32-bit numbers".
    pub u: [u32; 2],
}

const RAILS: usize = 4;
const SENSORS: usize = 3;
const FANS: usize = 2;

const VOLTAGE: usize = cell(0x20);
const VOLTAGE_HIGH: usize = cell(0x2B);
const VOLTAGE_LOW: usize = cell(0x2C);
const INTERNAL_OVER_LIMIT: usize = cell(0x39);
const INTERNAL_HYSTERESIS: usize = cell(0x3A);
pub(super) const FAN_COUNT: usize = cell(0x28);
pub(super) const FAN_LIMIT: usize = cell(0x3B);
/// Real-time status 45h, 46h.
const REAL_TIME: [usize; 2] = [cell(0x45), cell(0x46)];
const FAN_DIVISOR: usize = cell(0x49);
const ACPI_INCREMENT: usize = cell(0x4F);
pub(super) const OVT_PROPERTY: usize = cell(0x50);
pub(super) const SMI_PROPERTY: usize = cell(0x51);

/// Index of the temperature, the hysteresis and the over limit in a set.
const SET_TEMPERATURE: usize = 0x00;
const SET_HYSTERESIS: usize = 0x02;
const SET_OVER_LIMIT: usize = 0x03;

/// The bit of each in 45h and, at the "same places", in 41h: VIN1, VIN3, VIN2,
/// VCC; sensors 1 to 3. 002's tables 7.2 and 7.6 leave bit 4 reserved.
const RAIL_BIT: [u32; RAILS] = [0, 1, 2, 3];
const SENSOR_BIT: [u32; SENSORS] = [5, 6, 7];
/// The bit of each fan in 46h and 42h.
const FAN_BIT: [u32; FANS] = [0, 1];

/// The temperature status modes of 51h bits 3-2, one for all three sensors
/// (K-18: 3Ah at 127 has no meaning here).
#[derive(Clone, Copy, PartialEq, Eq)]
enum StatusMode {
    Comparator,
    TwoTimes,
    OneTime,
}

/// The OVT modes of 50h bits 5-4, one for all three sensors.
#[derive(Clone, Copy, PartialEq, Eq)]
enum OvtMode {
    Comparator,
    Interrupt,
    Acpi,
}

impl Monitor {
    /// Sample.
    pub fn sample(&mut self, sample: &Sample) -> u8 {
        // "A refused sample changes nothing at all."
        if !self.monitoring() {
            return NOT_MONITORING;
        }
        // 1, 2, 3.
        self.store_codes(sample);
        self.store_temperatures(sample);
        self.store_counts(sample);
        // The "real-time bit that the accepted sample before left", which step 5
        // writes over.
        let was_slow = self.real_time_fans();
        // 5, by the conditions of 4.
        self.set_real_time();
        // 6, 7, 8, 9.
        self.latch_rails_and_fans(was_slow);
        for sensor in 0..SENSORS {
            self.step_status(sensor);
            self.step_ovt(sensor);
            self.keep_quotient(sensor);
        }
        ACCEPTED
    }

    /// "Answered 4 exactly while 40h bit 0 (Start) is 0 or 40h bit 1 (INT_Clear)
    /// is 1." Bit 3 plays no part (K-20), nor does any disable bit (K-30).
    fn monitoring(&self) -> bool {
        self.start() && !self.int_clear()
    }

    /// 40h bit 0, Start.
    fn start(&self) -> bool {
        self.shown(CONFIGURATION) & 0x01 != 0
    }

    /// 40h bit 1, INT_Clear.
    pub(super) fn int_clear(&self) -> bool {
        self.shown(CONFIGURATION) & 0x02 != 0
    }

    // 1. "Stores the codes in 20h-23h."

    fn store_codes(&mut self, sample: &Sample) {
        for (rail, code) in sample.codes.iter().enumerate() {
            self.registers[VOLTAGE + rail] = *code;
        }
    }

    // 2. "Stores the temperatures."

    fn store_temperatures(&mut self, sample: &Sample) {
        for (sensor, degrees) in sample.degrees.iter().enumerate() {
            // "T = sample + signed byte of 8Fh+n, held within -128 to 127
            // (below: -128, above: 127; it never wraps)."
            let sum = i32::from(*degrees) + i32::from(self.offset(sensor));
            let held = sum.clamp(-128, 127) as i8;
            self.store_temperature(sensor, held);
        }
    }

    /// The offset of a sensor, a whole signed byte (K-22). `sensor` 0 is sensor
    /// 1, here and below.
    fn offset(&self, sensor: usize) -> i8 {
        self.shown(OFFSET + sensor) as i8
    }

    /// "27h is T's code. 00h of a set is T's code in bits 15-8, and 00h below
    /// (whole cells)." So the half degree is 0 (K-24).
    fn store_temperature(&mut self, sensor: usize, t: i8) {
        match set_of(sensor) {
            None => self.registers[INTERNAL_TEMPERATURE] = t as u8,
            Some(first) => {
                // Value high and value low are a set's first two cells.
                self.registers[first] = t as u8;
                self.registers[first + 1] = 0x00;
            }
        }
    }

    // 3. "Stores the counts."

    fn store_counts(&mut self, sample: &Sample) {
        for (fan, u) in sample.u.iter().enumerate() {
            // "u divided by 2^k, rounded down, at most 255"
            self.registers[FAN_COUNT + fan] = (u / self.divisor(fan)).min(255) as u8;
        }
    }

    /// 2^k; "k is 49h bits 2-0 for fan 1, bits 6-4 for fan 2, as they are now".
    /// `fan` 0 is fan 1, here and below.
    pub(super) fn divisor(&self, fan: usize) -> u32 {
        let (register, bit) = DIVISOR_BITS[fan];
        let k = (self.shown(register) >> bit) & 0x07;
        1 << k
    }

    // 4. "Conditions, all on the stored values."

    /// "Rail i outside when its code is above its high or below its low limit
    /// (equal is fine)." High and low limit of each rail stand in turn.
    fn outside(&self, rail: usize) -> bool {
        let code = self.shown(VOLTAGE + rail);
        let high = self.shown(VOLTAGE_HIGH + 2 * rail);
        let low = self.shown(VOLTAGE_LOW + 2 * rail);
        code > high || code < low
    }

    /// "Sensor n above when T is above its over limit".
    fn above(&self, sensor: usize) -> bool {
        self.temperature(sensor) > self.over_limit(sensor)
    }

    /// "below when T is below its hysteresis".
    fn below(&self, sensor: usize) -> bool {
        self.temperature(sensor) < self.hysteresis(sensor)
    }

    /// "Fan f slow when its count is above its limit (limit 255 never rings)."
    fn slow(&self, fan: usize) -> bool {
        self.shown(FAN_COUNT + fan) > self.shown(FAN_LIMIT + fan)
    }

    /// The stored temperature in half degrees, as the limits below: "sensors 2
    /// and 3: half degrees, 2T against the nine bits of 03h and 02h".
    fn temperature(&self, sensor: usize) -> i32 {
        self.half_degrees(sensor, INTERNAL_TEMPERATURE, SET_TEMPERATURE)
    }

    fn over_limit(&self, sensor: usize) -> i32 {
        self.half_degrees(sensor, INTERNAL_OVER_LIMIT, SET_OVER_LIMIT)
    }

    fn hysteresis(&self, sensor: usize) -> i32 {
        self.half_degrees(sensor, INTERNAL_HYSTERESIS, SET_HYSTERESIS)
    }

    /// A temperature register in half degrees: for sensor 1 a signed byte of
    /// whole degrees; for sensors 2 and 3 the nine upper bits of a word, two's
    /// complement (002, 6.4).
    fn half_degrees(&self, sensor: usize, internal: usize, in_set: usize) -> i32 {
        match set_of(sensor) {
            None => 2 * i32::from(self.shown(internal) as i8),
            Some(first) => {
                // Bits 6-0 are not shown, so that the division is exact.
                let word = self.shown_word(first, &SET_ROWS[in_set]);
                i32::from(word as i16) / 128
            }
        }
    }

    // 5. "Real-time bits, whole bytes."

    fn set_real_time(&mut self) {
        let mut byte_1 = 0x00;
        for (rail, bit) in RAIL_BIT.iter().enumerate() {
            byte_1 |= u8::from(self.outside(rail)) << bit;
        }
        for (sensor, bit) in SENSOR_BIT.iter().enumerate() {
            byte_1 |= u8::from(self.above(sensor)) << bit;
        }
        // 46h: "2 and 3 (target) zero (house), 7-4 zero".
        let mut byte_2 = 0x00;
        for (fan, bit) in FAN_BIT.iter().enumerate() {
            byte_2 |= u8::from(self.slow(fan)) << bit;
        }
        self.registers[REAL_TIME[0]] = byte_1;
        self.registers[REAL_TIME[1]] = byte_2;
    }

    /// The real-time bit of each fan.
    fn real_time_fans(&self) -> [bool; FANS] {
        FAN_BIT.map(|bit| (self.shown(REAL_TIME[1]) >> bit) & 1 != 0)
    }

    // 6. "Latches status: 41h and 42h become what they were or the latched bits,
    // same places." "Target bits and reserved bits never."

    fn latch_rails_and_fans(&mut self, was_slow: [bool; FANS]) {
        // "Rails: at each sample outside (01; K-12)."
        for (rail, bit) in RAIL_BIT.iter().enumerate() {
            if self.outside(rail) {
                self.latch(STATUS[0], *bit);
            }
        }
        // "Fans: when slow differs from the real-time bit that the accepted
        // sample before left [...] (C-14, both directions)" (K-13).
        for (fan, bit) in FAN_BIT.iter().enumerate() {
            if self.slow(fan) != was_slow[fan] {
                self.latch(STATUS[1], *bit);
            }
        }
    }

    fn latch(&mut self, status: usize, bit: u32) {
        self.registers[status] |= 1 << bit;
    }

    // 7. "Steps each sensor's status mark by 51h bits 3-2." "One step a sample."

    fn step_status(&mut self, sensor: usize) {
        let (above, below) = (self.above(sensor), self.below(sensor));
        let mode = self.status_mode();
        let mark = &mut self.status_mark[sensor];
        let was_armed = *mark == Mark::Armed;
        let latches = match mode {
            // "Latches: above. Mark after: hot exactly if above." It ignores
            // hysteresis (K-11).
            StatusMode::Comparator => {
                *mark = comparator_mark(above);
                above
            }
            // "Armed and above, or hot and below"; the mark is "turned by such a
            // step, else kept".
            StatusMode::TwoTimes => two_times(mark, above, below),
            // "The same steps as two-times; the fall re-arms and latches
            // nothing."
            StatusMode::OneTime => two_times(mark, above, below) && was_armed,
        };
        if latches {
            self.latch(STATUS[0], SENSOR_BIT[sensor]);
        }
    }

    /// 51h bits 3-2, TEMP_SMI_MD. "11: two-times (not listed; K-17)".
    fn status_mode(&self) -> StatusMode {
        match (self.shown(SMI_PROPERTY) >> 2) & 0x03 {
            0b00 => StatusMode::Comparator,
            0b10 => StatusMode::OneTime,
            _ => StatusMode::TwoTimes,
        }
    }

    // 8. "Steps each sensor's OVT output by 50h bits 5-4", each sensor "with an
    // OVT mark of its own apart from the status mark". All three have one (K-15).

    fn step_ovt(&mut self, sensor: usize) {
        let (above, below) = (self.above(sensor), self.below(sensor));
        match self.ovt_mode() {
            // "Above asserts, otherwise below releases, otherwise it stays."
            OvtMode::Comparator => {
                if above {
                    self.ovt_asserted[sensor] = true;
                } else if below {
                    self.ovt_asserted[sensor] = false;
                }
                // "Hot exactly if above."
                self.ovt_mark[sensor] = comparator_mark(above);
            }
            // "Armed and above asserts; hot and below asserts; otherwise it
            // stays." The mark is "turned by such a step, else kept".
            OvtMode::Interrupt => {
                if two_times(&mut self.ovt_mark[sensor], above, below) {
                    self.ovt_asserted[sensor] = true;
                }
            }
            // "Asserts exactly when the step is not 0 and q differs from the kept
            // quotient, else releases" (K-26).
            OvtMode::Acpi => {
                let moved = self.new_quotient(sensor) != self.quotient[sensor];
                self.ovt_asserted[sensor] = self.acpi_step() != 0 && moved;
                // "Hot exactly if above."
                self.ovt_mark[sensor] = comparator_mark(above);
            }
        }
    }

    /// 50h bits 5-4, OVT_MD. "10, 11: ACPI": bit 5 decides, for ACPI comes
    /// "before the other two" (C-16; K-16).
    fn ovt_mode(&self) -> OvtMode {
        match (self.shown(OVT_PROPERTY) >> 4) & 0x03 {
            0b00 => OvtMode::Comparator,
            0b01 => OvtMode::Interrupt,
            _ => OvtMode::Acpi,
        }
    }

    /// Section 5 asks for it: 50h bits 5-4 are 01.
    pub(super) fn ovt_interrupt_mode(&self) -> bool {
        self.ovt_mode() == OvtMode::Interrupt
    }

    /// 4Fh bits 6-0, DIFFREG.
    fn acpi_step(&self) -> i32 {
        i32::from(self.shown(ACPI_INCREMENT))
    }

    /// "q is T divided by the step (4Fh bits 6-0), rounded down: -1 by 5 is -1.
    /// Step 0: q is 0." "q is within -128 to 127."
    fn new_quotient(&self, sensor: usize) -> i8 {
        // T is whole degrees.
        let t = self.temperature(sensor) / 2;
        match self.acpi_step() {
            0 => 0,
            step => t.div_euclid(step) as i8,
        }
    }

    // 9. "Keeps the quotient: in every mode the kept quotient of each sensor
    // becomes q."

    fn keep_quotient(&mut self, sensor: usize) {
        self.quotient[sensor] = self.new_quotient(sensor);
    }
}

/// The divisor bits of fans 1 and 2: register and lowest of three bits.
pub(super) const DIVISOR_BITS: [(usize, u32); FANS] = [(FAN_DIVISOR, 0), (FAN_DIVISOR, 4)];

/// The first cell of a sensor's set; sensor 1, at place 0, has none.
fn set_of(sensor: usize) -> Option<usize> {
    match sensor {
        0 => None,
        _ => Some(set(sensor as u8 + 1)),
    }
}
