//! The monitor's state, bus write, bus read, look, reset and chassis opened.

use super::map::{cell, find, Register, CELLS, POWER_ON, REGISTERS};
use crate::answer::{ACCEPTED, NO_REGISTER, READ_ONLY};
use crate::sensor::Mark;

pub(super) const CONFIGURATION: usize = cell(0, 0x40);
const STATUS_2: usize = cell(0, 0x42);
/// Interrupt status 41h, 42h.
pub(super) const STATUS: [usize; 2] = [cell(0, 0x41), STATUS_2];
const CHASSIS_CLEAR: usize = cell(0, 0x46);
const DIVISOR_AND_VID: usize = cell(0, 0x47);
const DEVICE_ID: usize = cell(0, 0x49);
const BANK_SELECT: usize = cell(0, 0x4E);
const VENDOR_ID: usize = cell(0, 0x4F);
const CHIP_ID: usize = cell(0, 0x58);
/// Sensor 2, 3 value, high byte.
const SENSOR_VALUE: [usize; 2] = [cell(1, 0x50), cell(2, 0x50)];
const REAL_TIME_2: usize = cell(4, 0x5A);
/// Real-time status 59h, 5Ah.
pub(super) const REAL_TIME: [usize; 2] = [cell(4, 0x59), REAL_TIME_2];

/// The monitor's state. Every value of every field is allowed as a start.
#[derive(Clone, Copy, Debug, PartialEq, Eq)]
pub struct Monitor {
    /// Bank 0 20h to 5Fh, then 50h to 5Fh of banks 1, 2 and 4.
    pub registers: [u8; CELLS],
    /// The chassis latch.
    pub chassis: bool,
    /// Temperature status mark of sensors 1 to 3.
    pub status_mark: [Mark; 3],
    /// OVT mark of sensors 2 and 3.
    pub ovt_mark: [Mark; 2],
    /// OVT output of sensors 2 and 3.
    pub ovt_asserted: [bool; 2],
}

impl Monitor {
    /// "Power-on: each section's value, and 00h where it has none." "Values
    /// 20h-2Ah and sensor 2 and 3 start at 0." "Power-on and reset leave
    /// armed." "Power-on or reset releases and arms." Power-on clears the
    /// chassis latch.
    pub fn power_on() -> Monitor {
        Monitor {
            registers: POWER_ON,
            chassis: false,
            status_mark: [Mark::Armed; 3],
            ovt_mark: [Mark::Armed; 2],
            ovt_asserted: [false; 2],
        }
    }

    /// Bus write.
    pub fn write(&mut self, index: u8, value: u8) -> u8 {
        // "1 before 2"
        let Some((cell, register)) = self.reached(index) else {
            return NO_REGISTER;
        };
        if register.writable == 0 {
            return READ_ONLY;
        }
        let bit_7 = value & 0x80 != 0;
        match cell {
            // "Writing 40h with bit 7 set restores [...]; the byte's other bits
            // are ignored"
            CONFIGURATION if bit_7 => self.reset(),
            // The chassis latch is "cleared by writing 46h with bit 7".
            CHASSIS_CLEAR => self.chassis = self.chassis && !bit_7,
            // "An accepted write, reset and 46h apart, gives each writable bit
            // the byte's bit; unwritable bits keep their value."
            _ => {
                // Bit 7 of 40h is a command and never stored: an odd cell
                // keeps it.
                let stored = match cell {
                    CONFIGURATION => register.writable & 0x7F,
                    _ => register.writable,
                };
                let kept = self.registers[cell] & !stored;
                self.registers[cell] = kept | (value & stored);
            }
        }
        ACCEPTED
    }

    /// Bus read: the answer and the byte.
    pub fn read(&mut self, index: u8) -> (u8, u8) {
        let Some((cell, _)) = self.reached(index) else {
            // "byte 0; state unchanged"
            return (NO_REGISTER, 0);
        };
        let byte = self.shown(cell);
        self.after_read(cell);
        (ACCEPTED, byte)
    }

    /// What a bus read would show, without its effect.
    pub fn look(&self, index: u8) -> (u8, u8) {
        match self.reached(index) {
            Some((cell, _)) => (ACCEPTED, self.shown(cell)),
            None => (NO_REGISTER, 0),
        }
    }

    /// Chassis opened: the latch is "set by a chassis event even in standby".
    pub fn chassis_opened(&mut self) -> u8 {
        self.chassis = true;
        ACCEPTED
    }

    /// The byte that a read of this cell shows. Every rule uses it, never the
    /// cell.
    pub(super) fn shown(&self, cell: usize) -> u8 {
        let byte = self.registers[cell];
        match cell {
            // "40h bit 7 always reads 0."
            CONFIGURATION => byte & 0x7F,
            // "The chassis bit, which there and in 5Ah is the latch itself."
            STATUS_2 | REAL_TIME_2 => (byte & 0x2F) | (u8::from(self.chassis) << 4),
            // "46h reads 00h."
            CHASSIS_CLEAR => 0x00,
            // "VID bits (47h bits 3-0, 49h bit 0) read 0."
            DIVISOR_AND_VID => byte & 0xF0,
            DEVICE_ID => 0x02,
            // "4Fh reads 5Ch when 4Eh bit 7 is 1, else A3h."
            VENDOR_ID if self.registers[BANK_SELECT] & 0x80 != 0 => 0x5C,
            VENDOR_ID => 0xA3,
            // "58h reads 30h."
            CHIP_ID => 0x30,
            _ => byte,
        }
    }

    /// The cell that a bus index reaches and what its row says, or `None`:
    /// "index below 20h or above 7Fh, reserved index, or absent bank".
    fn reached(&self, index: u8) -> Option<(usize, Register)> {
        // "For 50h to 5Fh the bank is 4Eh bits 2-0"
        let bank = self.registers[BANK_SELECT] & 0x07;
        let cell = find(bank, index)?;
        let register = REGISTERS[cell]?;
        Some((cell, register))
    }

    /// What an accepted bus read leaves.
    fn after_read(&mut self, cell: usize) {
        // "Reading 41h or 42h returns the byte and clears it, except the
        // chassis bit": that one is the latch and no bit of the cell.
        if STATUS.contains(&cell) {
            self.registers[cell] = 0x00;
        }
        // "1, interrupt: [...] reading that bank's 50h releases."
        for (place, value) in SENSOR_VALUE.iter().enumerate() {
            if cell == *value && self.ovt_interrupt_mode(place) {
                self.ovt_asserted[place] = false;
            }
        }
    }

    /// "Writing 40h with bit 7 set restores all of this except 48h, the stored
    /// readings and the chassis latch (house)."
    fn reset(&mut self) {
        let before = *self;
        *self = Monitor::power_on();
        self.chassis = before.chassis;
        for (bank, first, last) in KEPT_BY_RESET {
            for index in first..=last {
                let cell = cell(bank, index);
                self.registers[cell] = before.registers[cell];
            }
        }
    }
}

/// Bank, first and last index of what reset keeps: the stored readings of bank
/// 0, the bus address, and the values of sensors 2 and 3.
const KEPT_BY_RESET: [(u8, u8, u8); 4] = [
    (0, 0x20, 0x2A),
    (0, 0x48, 0x48),
    (1, 0x50, 0x51),
    (2, 0x50, 0x51),
];
