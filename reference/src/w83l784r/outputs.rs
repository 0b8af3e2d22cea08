//! Section 6: outputs and the speed reading.

use super::map::cell;
use super::monitor::{sensor_place, Monitor, STATUS};
use super::plan::fan_place;
use super::sample::{FAN_COUNT, OVT_PROPERTY, SMI_PROPERTY};
use crate::speed::Speed;
use crate::status::set_bits;

const SMI_MASK: [usize; 2] = [cell(0x43), cell(0x44)];

impl Monitor {
    /// "SMI is asserted exactly when 51h bit 1 is 1, 40h bit 1 is 0, and an
    /// unmasked bit of 41h or 42h (as shown) is set" (K-19). "40h bit 0 plays no
    /// part: standby keeps SMI."
    pub fn smi(&self) -> bool {
        // "A mask bit at 1 keeps the status bit of the same place out" (K-08).
        let unmasked = (0..2).any(|n| self.shown(STATUS[n]) & !self.shown(SMI_MASK[n]) != 0);
        self.en_smi() && !self.int_clear() && unmasked
    }

    /// "OVT of sensor n is its own state [...], whatever 50h bits 3-1 say." No
    /// other sensor has one.
    pub fn ovt(&self, sensor: u8) -> bool {
        match sensor_place(sensor) {
            Some(place) => self.ovt_asserted[place],
            None => false,
        }
    }

    /// "The OVT pin is asserted exactly when some sensor is asserted whose EN_OVT
    /// bit is 1 (bit 1 sensor 1, bit 2 sensor 2, bit 3 sensor 3; 7.16 "wire
    /// OR")." Polarity is left out (K-35).
    pub fn ovt_pin(&self) -> bool {
        (1..=3).any(|sensor| self.ovt(sensor) && self.en_ovt(sensor))
    }

    /// "Standing alarms: the set bits of 41h and 42h as shown".
    pub fn standing_alarms(&self) -> u32 {
        set_bits(STATUS.map(|status| self.shown(status)))
    }

    /// "Speed of fan 1 or 2: tenths of rpm (C-12) from the stored count and the
    /// divisor now set; another fan answers 7."
    pub fn speed(&self, fan: u8) -> Speed {
        match fan_place(fan) {
            Some(place) => Speed::of(self.shown(FAN_COUNT + place), self.divisor(place)),
            None => Speed::Refused,
        }
    }

    /// 51h bit 1, EN_SMI#.
    fn en_smi(&self) -> bool {
        self.shown(SMI_PROPERTY) & 0x02 != 0
    }

    /// 50h bits 1 to 3, EN_OVT1 to EN_OVT3.
    fn en_ovt(&self, sensor: u8) -> bool {
        (self.shown(OVT_PROPERTY) >> sensor) & 1 == 1
    }
}
