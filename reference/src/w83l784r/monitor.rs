//! The monitor's state, power-on and reset (section 3), bus accesses to the main
//! device and to the sets, looks (section 5), and commissioning (section 7).

use super::map::{cell, find, set, Kind, Register, SetRow};
use super::map::{CELLS, POWER_ON, REGISTERS, SET_ROWS};
use crate::answer::{ACCEPTED, NO_CHANNEL, NO_REGISTER, OFFSET_LOCKED, READ_ONLY};
use crate::sensor::Mark;

pub(super) const CONFIGURATION: usize = cell(0x40);
/// 40h bit 7, INITIALIZATION.
const INITIALIZATION: u8 = 0x80;
/// Interrupt status 41h, 42h.
pub(super) const STATUS: [usize; 2] = [cell(0x41), cell(0x42)];
/// The value of sensor 1.
pub(super) const INTERNAL_TEMPERATURE: usize = cell(0x27);
/// The offset of sensor 1; those of 2 and 3 follow.
pub(super) const OFFSET: usize = cell(0x90);

/// The monitor's state. Every value of every field is allowed as a start. The
/// registers are whole cells; what they show, and what every rule uses, is
/// `shown`.
#[derive(Clone, Copy, Debug, PartialEq, Eq)]
pub struct Monitor {
    /// 20h to 5Fh, 80h to 9Fh, the sets of sensors 2 and 3.
    pub registers: [u8; CELLS],
    /// Status mark of sensors 1 to 3.
    pub status_mark: [Mark; 3],
    /// OVT mark of sensors 1 to 3.
    pub ovt_mark: [Mark; 3],
    /// OVT output of sensors 1 to 3.
    pub ovt_asserted: [bool; 3],
    /// The quotient that the last accepted sample kept, of sensors 1 to 3.
    pub quotient: [i8; 3],
}

impl Monitor {
    /// "Power-on: every register as above, the offsets 00h; status and OVT marks
    /// armed, OVT released, quotients 0 for all three sensors."
    pub fn power_on() -> Monitor {
        Monitor {
            registers: POWER_ON,
            status_mark: [Mark::Armed; 3],
            ovt_mark: [Mark::Armed; 3],
            ovt_asserted: [false; 3],
            quotient: [0; 3],
        }
    }

    /// Bus write to the main device.
    pub fn write(&mut self, index: u8, value: u8) -> u8 {
        // "1 comes before 2 and 9; 2 and 9 never meet."
        let Some((cell, register)) = reached(index) else {
            return NO_REGISTER;
        };
        // "90h, 91h, 92h, whatever the byte (also the byte that is there)."
        if register.kind == Kind::Offset {
            return OFFSET_LOCKED;
        }
        if register.writable == 0x00 {
            return READ_ONLY;
        }
        // "Reset is a write to 40h with bit 7 set, whatever its other bits."
        if cell == CONFIGURATION && value & INITIALIZATION != 0 {
            self.reset();
            return ACCEPTED;
        }
        let stored = match cell {
            // Bit 7 is "a command, never stored".
            CONFIGURATION => register.writable & !INITIALIZATION,
            _ => register.writable,
        };
        self.store(cell, stored, value);
        ACCEPTED
    }

    /// Bus read of the main device: the answer and the byte, which is 0 for a
    /// refusal.
    pub fn read(&mut self, index: u8) -> (u8, u8) {
        let answer_and_byte = self.look(index);
        if let Some((cell, _)) = reached(index) {
            // "Reading 41h or 42h returns the byte shown and sets that register
            // to 00h (the whole cell), in standby too; each clears itself alone
            // (K-14)."
            if STATUS.contains(&cell) {
                self.registers[cell] = 0x00;
            }
            // "reading 27h or 67h releases OVT of sensor 1"
            if cell == INTERNAL_TEMPERATURE {
                self.release_by_read(0);
            }
        }
        answer_and_byte
    }

    /// Look at the main device (C-15): the "same answer and byte" as a read, and
    /// nothing changes.
    pub fn look(&self, index: u8) -> (u8, u8) {
        match reached(index) {
            Some((cell, _)) => (ACCEPTED, self.shown(cell)),
            None => (NO_REGISTER, 0x00),
        }
    }

    /// Bus write to the set of sensor 2 or 3.
    pub fn write_sensor(&mut self, sensor: u8, index: u8, word: u16) -> u8 {
        let (first, row) = match reached_in_set(sensor, index) {
            Ok(reached) => reached,
            Err(refusal) => return refusal,
        };
        // "A write to 00h answers 2."
        if row.writable == 0x0000 {
            return READ_ONLY;
        }
        let [stored_high, stored_low] = row.writable.to_be_bytes();
        let [value_high, value_low] = word.to_be_bytes();
        // 01h: "bits 15-8 are not looked at".
        if let Some(high) = row.high {
            self.store(first + high, stored_high, value_high);
        }
        self.store(first + row.low, stored_low, value_low);
        ACCEPTED
    }

    /// Bus read of the set of sensor 2 or 3: the answer and the word, which is 0
    /// for a refusal.
    pub fn read_sensor(&mut self, sensor: u8, index: u8) -> (u8, u16) {
        let (answer, word) = self.look_sensor(sensor, index);
        // "reading 00h of set 2 or 3 releases OVT of that sensor"
        if answer == ACCEPTED && index == 0x00 {
            self.release_by_read(usize::from(sensor) - 1);
        }
        (answer, word)
    }

    /// Look at the set of sensor 2 or 3 (C-15).
    pub fn look_sensor(&self, sensor: u8, index: u8) -> (u8, u16) {
        match reached_in_set(sensor, index) {
            Ok((first, row)) => (ACCEPTED, self.shown_word(first, &row)),
            Err(refusal) => (refusal, 0x0000),
        }
    }

    /// Commissioning: "It sets that byte of 90h-92h and changes that alone." "It
    /// works in standby." The whole byte is the offset (K-22).
    pub fn commission(&mut self, sensor: u8, offset: i8) -> u8 {
        // "A sensor other than 1 to 3 answers 7 and changes nothing; else 0."
        let Some(place) = sensor_place(sensor) else {
            return NO_CHANNEL;
        };
        self.registers[OFFSET + place] = offset as u8;
        ACCEPTED
    }

    /// The byte that a read of this cell shows: the bits of "Shows", "every other
    /// bit reads 0 from every state"; an identity "always that byte". Every rule
    /// uses it, never the cell.
    pub(super) fn shown(&self, cell: usize) -> u8 {
        match REGISTERS[cell] {
            Some(register) if register.kind == Kind::Identity => register.power_on,
            Some(register) => self.registers[cell] & register.shows,
            // A reserved cell: no access reaches it, and no rule asks for it.
            None => 0x00,
        }
    }

    /// The word that a read of a set's register shows; `first` is the set's first
    /// cell. Of 01h bits 15-8 "read 0".
    pub(super) fn shown_word(&self, first: usize, row: &SetRow) -> u16 {
        let high = row.high.map_or(0x00, |high| self.shown(first + high));
        let low = self.shown(first + row.low);
        u16::from_be_bytes([high, low])
    }

    /// An accepted write gives each of these bits of a cell the byte's bit. Every
    /// other bit of the cell keeps its value, so that a write of unwritable bits
    /// only changes nothing (01's practice, D-09).
    pub(super) fn store(&mut self, cell: usize, bits: u8, value: u8) {
        let kept = self.registers[cell] & !bits;
        self.registers[cell] = kept | (value & bits);
    }

    /// Section 5: "In the OVT mode now set being interrupt". "The marks and
    /// quotients stay, and it also releases what was asserted in another mode
    /// before. In comparator and ACPI mode a read releases nothing." `sensor` 0
    /// is sensor 1.
    fn release_by_read(&mut self, sensor: usize) {
        if self.ovt_interrupt_mode() {
            self.ovt_asserted[sensor] = false;
        }
    }

    /// Section 3: "everything its power-on value except 4Ah, the stored readings
    /// [...] and the three offsets". "Kept cells keep all eight bits; every other
    /// cell, reserved ones 00h, gets its whole power-on byte."
    fn reset(&mut self) {
        let before = *self;
        *self = Monitor::power_on();
        for (cell, register) in REGISTERS.iter().enumerate() {
            if register.is_some_and(|register| register.kind.kept_by_reset()) {
                self.registers[cell] = before.registers[cell];
            }
        }
    }
}

/// The cell that an index of the main device reaches and what its row says, or
/// `None`: "an index this part lacks or reserves" (C-16).
fn reached(index: u8) -> Option<(usize, Register)> {
    let cell = find(index)?;
    let register = REGISTERS[cell]?;
    Some((cell, register))
}

/// The first cell of a sensor's set and the row of an index, or the refusal. "A
/// sensor other than 2 or 3 in such an access answers 7, before 1." "04h-FFh
/// answer 1." 4Bh disables no set (K-30).
fn reached_in_set(sensor: u8, index: u8) -> Result<(usize, SetRow), u8> {
    if sensor != 2 && sensor != 3 {
        return Err(NO_CHANNEL);
    }
    match SET_ROWS.get(usize::from(index)) {
        Some(row) => Ok((set(sensor), *row)),
        None => Err(NO_REGISTER),
    }
}

/// Sensor 1 to 3 as a place 0 to 2.
pub(super) fn sensor_place(sensor: u8) -> Option<usize> {
    match sensor {
        1..=3 => Some(usize::from(sensor) - 1),
        _ => None,
    }
}
