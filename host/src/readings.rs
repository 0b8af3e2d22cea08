//! What is seen of a monitor without changing it.

use crate::raw;
use crate::refusal::{self, Refusal};
use crate::{Monitor, IMAGE_SIZE};

/// Alarms and output pins.
#[derive(Clone, Copy, Debug, PartialEq, Eq)]
pub struct Outputs {
    /// The bits of 41h and 42h that a read shows as 1, masked or not: 0 to 14.
    pub standing_alarms: u8,
    /// SMI is asserted.
    pub smi: bool,
    /// OVT of sensor 2 is asserted.
    pub ovt2: bool,
    /// OVT of sensor 3 is asserted.
    pub ovt3: bool,
}

/// The speed of a fan, from its stored count and the divisor now set.
#[derive(Clone, Copy, Debug, PartialEq, Eq)]
pub enum Speed {
    /// Tenths of rpm, 415 to 13,500,000. Plans are in whole rpm.
    Tenths(u32),
    /// Count 0.
    TooFast,
    /// Count 255.
    TooSlow,
}

impl Monitor {
    /// Standing alarms and output pins.
    #[must_use]
    pub fn outputs(&self) -> Outputs {
        // SAFETY: pointer and length are those of the image, which is lent for the call.
        let word = unsafe { raw::w83782d_outputs(self.image.as_ptr(), IMAGE_SIZE) };
        let [_, answer, standing_alarms, pins] = word.to_be_bytes();
        debug_assert_eq!(answer, 0, "refused only for an image of another length");
        Outputs {
            standing_alarms,
            smi: pins & 0x01 != 0,
            ovt2: pins & 0x02 != 0,
            ovt3: pins & 0x04 != 0,
        }
    }

    /// The speed of fan 1, 2 or 3 in tenths of rpm; any other is
    /// [`Refusal::NoChannel`].
    pub fn speed(&self, fan: u8) -> Result<Speed, Refusal> {
        // SAFETY: pointer and length are those of the image, which is lent for the call.
        let word = unsafe { raw::w83782d_speed(self.image.as_ptr(), IMAGE_SIZE, fan) };
        match word >> 24 {
            0 => Ok(Speed::Tenths(word)),
            1 => Ok(Speed::TooFast),
            2 => Ok(Speed::TooSlow),
            // 80h + answer; anything else is an answer that there is not.
            kind => Err(Refusal::from_number(kind as u8 ^ 0x80)),
        }
    }

    /// The stored temperature of sensor 1, 2 or 3 in half degrees, sensor 1's
    /// doubled; any other is [`Refusal::NoChannel`].
    pub fn temperature(&self, sensor: u8) -> Result<i16, Refusal> {
        // SAFETY: pointer and length are those of the image, which is lent for the call.
        let word = unsafe { raw::w83782d_temperature(self.image.as_ptr(), IMAGE_SIZE, sensor) };
        let [_, answer, high, low] = word.to_be_bytes();
        refusal::accepted(answer)?;
        Ok(i16::from_be_bytes([high, low]))
    }
}
