//! "What a sample does" of document 01. For the status of fans request C-14
//! amends it.

use super::map::cell;
use super::monitor::{Monitor, CONFIGURATION, REAL_TIME, STATUS};
use crate::answer::{ACCEPTED, BAD_TEMPERATURE, NOT_MONITORING};
use crate::sensor::{comparator_mark, two_times};
use crate::status::set_bits;

/// "It stores seven codes, three temperatures and three fan counts."
#[derive(Clone, Copy, Debug, PartialEq, Eq)]
pub struct Sample {
    /// VCOREA, VINR0, +3.3, +5, +12, -12, -5.
    pub codes: [u8; 7],
    /// Sensor 1 in whole degrees.
    pub t1: i8,
    /// Sensor 2 in half degrees.
    pub t2: i16,
    /// Sensor 3 in half degrees.
    pub t3: i16,
    /// "A sample carries for each fan an undivided count u, any 32-bit number."
    pub u: [u32; 3],
}

impl Sample {
    /// Sensors 2 and 3 lie in "-256 to 255 half degrees".
    pub(super) fn temperatures_fit(&self) -> bool {
        [self.t2, self.t3].iter().all(|t| (-256..=255).contains(t))
    }
}

/// "Bits of 41h and of real-time 59h, from 0: VCOREA, VINR0, +3.3, +5, sensor
/// 1, sensor 2, fan 1, fan 2. Of 42h and 5Ah: +12, -12, -5, fan 3, chassis,
/// sensor 3." Here both bytes are one number: bits 0 to 7 are 41h and 59h, bits
/// 8 to 15 are 42h and 5Ah.
const VOLTAGE_BIT: [u16; 7] = [0, 1, 2, 3, 8, 9, 10];
const SENSOR_BIT: [u16; 3] = [4, 5, 13];
const FAN_BIT: [u16; 3] = [6, 7, 11];

const VOLTAGE: usize = cell(0, 0x20);
const VOLTAGE_HIGH: usize = cell(0, 0x2B);
const VOLTAGE_LOW: usize = cell(0, 0x2C);
pub(super) const FAN_COUNT: usize = cell(0, 0x28);
pub(super) const FAN_LIMIT: usize = cell(0, 0x3B);

/// A temperature register: high byte, and the low byte whose bit 7 is the half
/// degree. "Sensor 1 whole degrees; 2 and 3 nine bits, high byte and bit 7 of
/// the low byte."
type Temperature = (usize, Option<usize>);

const VALUE: [Temperature; 3] = [
    (cell(0, 0x27), None),
    (cell(1, 0x50), Some(cell(1, 0x51))),
    (cell(2, 0x50), Some(cell(2, 0x51))),
];
const OVER_LIMIT: [Temperature; 3] = [
    (cell(0, 0x39), None),
    (cell(1, 0x55), Some(cell(1, 0x56))),
    (cell(2, 0x55), Some(cell(2, 0x56))),
];
const HYSTERESIS: [Temperature; 3] = [
    (cell(0, 0x3A), None),
    (cell(1, 0x53), Some(cell(1, 0x54))),
    (cell(2, 0x53), Some(cell(2, 0x54))),
];
const SMI_MASK: [usize; 2] = [cell(0, 0x43), cell(0, 0x44)];
const OVT_CONFIGURATION: [usize; 2] = [cell(1, 0x52), cell(2, 0x52)];
const IRQ_OVT_PROPERTY: usize = cell(0, 0x4C);

impl Monitor {
    /// Sample.
    pub fn sample(&mut self, sample: &Sample) -> u8 {
        // "3 before 4"
        if !sample.temperatures_fit() {
            return BAD_TEMPERATURE;
        }
        if !self.monitoring() {
            return NOT_MONITORING;
        }
        // The "real-time bit that the sample before left" (C-14), which this
        // sample writes over.
        let fans_before = self.real_time_fans();
        // "It stores seven codes, three temperatures and three fan counts, sets
        // the real-time bits, then latches status."
        self.store(sample);
        let (voltages, fans) = (self.voltages(), self.slow_fans());
        self.set_real_time(voltages, fans);
        self.latch_status(voltages, fans, fans_before);
        for sensor in 0..2 {
            self.step_ovt(sensor);
        }
        ACCEPTED
    }

    /// "SMI is asserted exactly when 40h bit 1 is 1, bit 3 is 0, and an unmasked
    /// bit of 41h or 42h is set." A mask bit at 1 disables its status bit
    /// (sections 7.6 and 7.7).
    pub fn smi(&self) -> bool {
        let configuration = self.shown(CONFIGURATION);
        let unmasked = (0..2).any(|n| self.shown(STATUS[n]) & !self.shown(SMI_MASK[n]) != 0);
        configuration & 0x02 != 0 && configuration & 0x08 == 0 && unmasked
    }

    /// "The number of standing alarms is the count of set bits in 41h and 42h."
    pub fn standing_alarms(&self) -> u32 {
        set_bits(STATUS.map(|status| self.shown(status)))
    }

    /// The OVT output of sensor 2 or 3; no other sensor has one.
    pub fn ovt(&self, sensor: u8) -> bool {
        match sensor {
            2 | 3 => self.ovt_asserted[usize::from(sensor) - 2],
            _ => false,
        }
    }

    /// Not "40h bit 0 is 0 or bit 3 is 1".
    fn monitoring(&self) -> bool {
        let configuration = self.shown(CONFIGURATION);
        configuration & 0x01 != 0 && configuration & 0x08 == 0
    }

    /// "It stores seven codes, three temperatures and three fan counts".
    fn store(&mut self, sample: &Sample) {
        for (channel, code) in sample.codes.iter().enumerate() {
            self.registers[VOLTAGE + channel] = *code;
        }
        let half_degrees = [
            2 * i32::from(sample.t1),
            i32::from(sample.t2),
            i32::from(sample.t3),
        ];
        for (sensor, value) in half_degrees.iter().enumerate() {
            // "Temperatures are two's complement."
            let (high, low) = VALUE[sensor];
            self.registers[high] = (value >> 1) as u8;
            if let Some(low) = low {
                self.registers[low] = ((value & 1) << 7) as u8;
            }
        }
        // "The stored count is u divided by the divisor, rounded down, at most
        // 255."
        for (fan, u) in sample.u.iter().enumerate() {
            self.registers[FAN_COUNT + fan] = (u / self.divisor(fan)).min(255) as u8;
        }
    }

    /// The real-time bit of each fan.
    fn real_time_fans(&self) -> [bool; 3] {
        let bits = u16::from_le_bytes(REAL_TIME.map(|cell| self.shown(cell)));
        FAN_BIT.map(|bit| (bits >> bit) & 1 != 0)
    }

    /// "Sets the real-time bits."
    fn set_real_time(&mut self, voltages: u16, fans: [bool; 3]) {
        let mut bits = voltages;
        for (fan, bit) in FAN_BIT.iter().enumerate() {
            bits |= u16::from(fans[fan]) << bit;
        }
        for (sensor, bit) in SENSOR_BIT.iter().enumerate() {
            bits |= u16::from(self.above(sensor)) << bit;
        }
        for (n, byte) in bits.to_le_bytes().iter().enumerate() {
            self.registers[REAL_TIME[n]] = *byte;
        }
    }

    /// "Then latches status."
    fn latch_status(&mut self, voltages: u16, fans: [bool; 3], fans_before: [bool; 3]) {
        // "Voltages [...] latch their bit at each sample where the condition
        // holds."
        let mut bits = voltages;
        // "A fan's status bit is latched at a sample when its condition differs
        // from the real-time bit that the sample before left (0 after power-on
        // or reset)" (C-14). What 41h and 42h hold plays no part (D-55).
        for (fan, bit) in FAN_BIT.iter().enumerate() {
            bits |= u16::from(fans[fan] != fans_before[fan]) << bit;
        }
        for (sensor, bit) in SENSOR_BIT.iter().enumerate() {
            bits |= u16::from(self.step_status(sensor)) << bit;
        }
        for (n, byte) in bits.to_le_bytes().iter().enumerate() {
            self.registers[STATUS[n]] |= *byte;
        }
    }

    /// The conditions of voltages, each at its bit.
    fn voltages(&self) -> u16 {
        let mut bits = 0;
        for (channel, bit) in VOLTAGE_BIT.iter().enumerate() {
            bits |= u16::from(self.voltage_outside(channel)) << bit;
        }
        bits
    }

    /// "Conditions: voltage above high or below low (equal is fine, house)." The
    /// limits are "high, low limit of each voltage in that order".
    fn voltage_outside(&self, channel: usize) -> bool {
        let code = self.shown(VOLTAGE + channel);
        let high = self.shown(VOLTAGE_HIGH + 2 * channel);
        let low = self.shown(VOLTAGE_LOW + 2 * channel);
        code > high || code < low
    }

    /// The condition of each fan.
    fn slow_fans(&self) -> [bool; 3] {
        [0, 1, 2].map(|fan| self.count_above_limit(fan))
    }

    /// "Count above its limit": the stored count.
    fn count_above_limit(&self, fan: usize) -> bool {
        self.shown(FAN_COUNT + fan) > self.shown(FAN_LIMIT + fan)
    }

    /// "Temperature above its over limit."
    fn above(&self, sensor: usize) -> bool {
        self.value(sensor) > self.half_degrees(OVER_LIMIT[sensor])
    }

    /// Temperature "below hysteresis".
    fn below(&self, sensor: usize) -> bool {
        self.value(sensor) < self.half_degrees(HYSTERESIS[sensor])
    }

    /// The stored temperature in half degrees; `sensor` 0 is sensor 1.
    pub(super) fn value(&self, sensor: usize) -> i32 {
        self.half_degrees(VALUE[sensor])
    }

    /// "Temperatures are two's complement: sensor 1 whole degrees; 2 and 3 nine
    /// bits, high byte and bit 7 of the low byte, in half degrees."
    fn half_degrees(&self, (high, low): Temperature) -> i32 {
        let degrees = i32::from(self.shown(high) as i8);
        let half = low.map_or(0, |low| i32::from(self.shown(low) >> 7));
        2 * degrees + half
    }

    /// "Sensor 1 is in comparator mode when 3Ah is 127, else two-times. For
    /// sensors 2 and 3 it is 4Ch bit 6, its sense from section 7.16": 1 is
    /// comparator mode.
    fn status_comparator_mode(&self, sensor: usize) -> bool {
        match sensor {
            0 => self.shown(HYSTERESIS[0].0) == 127,
            _ => self.shown(IRQ_OVT_PROPERTY) & 0x40 != 0,
        }
    }

    /// "Temperature status". Moves the mark and says whether the bit latches.
    fn step_status(&mut self, sensor: usize) -> bool {
        let (above, below) = (self.above(sensor), self.below(sensor));
        if self.status_comparator_mode(sensor) {
            // "In comparator mode it latches at each sample above the over
            // limit." "In comparator mode hot means above at the last sample."
            self.status_mark[sensor] = comparator_mark(above);
            above
        } else {
            two_times(&mut self.status_mark[sensor], above, below)
        }
    }

    /// "OVT, for sensors 2 and 3 each by its own 52h bit 1." `sensor` 0 is
    /// sensor 2.
    pub(super) fn ovt_interrupt_mode(&self, sensor: usize) -> bool {
        self.shown(OVT_CONFIGURATION[sensor]) & 0x02 != 0
    }

    /// What a sample does to the OVT output and its mark; `sensor` 0 is sensor 2.
    fn step_ovt(&mut self, sensor: usize) {
        let (above, below) = (self.above(sensor + 1), self.below(sensor + 1));
        if self.ovt_interrupt_mode(sensor) {
            // "1, interrupt: armed and above asserts, then hot; hot and below
            // hysteresis asserts, then armed."
            if two_times(&mut self.ovt_mark[sensor], above, below) {
                self.ovt_asserted[sensor] = true;
            }
        } else {
            // "0, comparator: above over limit asserts, otherwise below
            // hysteresis releases, otherwise it stays."
            if above {
                self.ovt_asserted[sensor] = true;
            } else if below {
                self.ovt_asserted[sensor] = false;
            }
            // "It keeps an armed/hot mark of its own, set in comparator mode as
            // above."
            self.ovt_mark[sensor] = comparator_mark(above);
        }
    }
}
