//! Why a call is refused.

use core::error::Error;
use core::fmt::{Display, Formatter, Result as Written};

/// Why a call was refused. A refused call changes nothing;
/// [`Monitor::replay`](crate::Monitor::replay) is many calls.
///
/// ```
/// use w83782d::{Monitor, Refusal};
///
/// let refusal = Monitor::power_on().read(0x45).unwrap_err();
/// assert_eq!(refusal, Refusal::NoRegister);
/// assert_eq!(refusal.number(), 1);
/// ```
#[derive(Clone, Copy, Debug, PartialEq, Eq, Hash)]
#[non_exhaustive]
#[repr(u8)]
pub enum Refusal {
    /// Index below 20h or above 7Fh, reserved index, or absent bank.
    NoRegister = 1,
    /// Write to a read-only register.
    ReadOnly = 2,
    /// Sample with sensor 2 or 3 outside -256 to 255 half degrees.
    BadTemperature = 3,
    /// Sample while 40h bit 0 is 0 or bit 3 is 1.
    NotMonitoring = 4,
    /// Record not of 32 bytes, of unknown kind or with a byte not zero that
    /// should be; or that record is not whole in the log.
    BadRecord = 5,
    /// Planned speed 0 or above 1,350,000 rpm.
    BadSpeed = 6,
    /// Fan or temperature sensor not 1 to 3, voltage channel not 0 to 6, or, for
    /// channels 5 and 6 only, a resistor not 1 to 1,000 kilo-ohm.
    NoChannel = 7,
    /// Buffer of another length than the call needs.
    BadLength = 8,
    /// A whole record after the 100,000 of a day's report. No call of this crate
    /// answers it: it is in the last line of the report of a log, which the program
    /// `day_report` prints.
    DayFull = 12,
}

impl Refusal {
    /// The answer number, 1 to 8 or 12.
    #[must_use]
    pub const fn number(self) -> u8 {
        self as u8
    }

    /// # Panics
    ///
    /// No call of the proved library answers another number. One that does is of another
    /// edition than this crate.
    pub(crate) fn from_number(number: u8) -> Refusal {
        match number {
            1 => Refusal::NoRegister,
            2 => Refusal::ReadOnly,
            3 => Refusal::BadTemperature,
            4 => Refusal::NotMonitoring,
            5 => Refusal::BadRecord,
            6 => Refusal::BadSpeed,
            7 => Refusal::NoChannel,
            8 => Refusal::BadLength,
            _ => panic!("answer {number} of libw83782d_c.a is unknown to this crate"),
        }
    }
}

impl Display for Refusal {
    fn fmt(&self, f: &mut Formatter<'_>) -> Written {
        f.write_str(match self {
            Refusal::NoRegister => "no such register",
            Refusal::ReadOnly => "register is read-only",
            Refusal::BadTemperature => "temperature out of range",
            Refusal::NotMonitoring => "monitoring is stopped",
            Refusal::BadRecord => "no such record or not a record",
            Refusal::BadSpeed => "speed out of range",
            Refusal::NoChannel => "no such fan, sensor, channel or resistor",
            Refusal::BadLength => "buffer of the wrong length",
            Refusal::DayFull => "more records than a day holds",
        })
    }
}

impl Error for Refusal {}

/// The byte of a word of answer and byte.
pub(crate) fn byte(word: u16) -> Result<u8, Refusal> {
    let [answer, byte] = word.to_be_bytes();
    accepted(answer)?;
    Ok(byte)
}

/// What an answer number says.
pub(crate) fn accepted(answer: u8) -> Result<(), Refusal> {
    match answer {
        0 => Ok(()),
        number => Err(Refusal::from_number(number)),
    }
}
