//! Event records.

use crate::raw;
use crate::refusal::{self, Refusal};
use crate::{Monitor, IMAGE_SIZE};

/// Bytes of an event record.
pub const RECORD_SIZE: usize = 32;

/// What one sample carries.
#[derive(Clone, Copy, Debug, PartialEq, Eq)]
pub struct Sample {
    /// Codes of VCOREA, VINR0, +3.3, +5, +12, -12, -5.
    pub codes: [u8; 7],
    /// Sensor 1 in whole degrees; a measurement beyond -128 to 127 is held at the
    /// nearer end.
    pub sensor_1: i8,
    /// Sensor 2 in half degrees, -256 to 255.
    pub sensor_2: i16,
    /// Sensor 3 in half degrees, -256 to 255.
    pub sensor_3: i16,
    /// Undivided counts of fans 1 to 3: 1,350,000 / rpm rounded down, `u32::MAX`
    /// for a fan that doesn't turn.
    pub counts: [u32; 3],
}

/// The record of one event. Every value of this type holds an event.
///
/// ```
/// use w83782d::{record_at, Record, Refusal};
///
/// let log = [*Record::chassis_opened().bytes(), *Record::write(0x47, 0x50).bytes()].concat();
/// let bytes = record_at(&log, 1)?;
/// assert_eq!(bytes[..4], [0x01, 0x47, 0x50, 0x00]);
/// assert_eq!(Record::decode(bytes), Ok(Record::write(0x47, 0x50)));
/// assert_eq!(record_at(&log, 2), Err(Refusal::BadRecord));
/// # Ok::<(), Refusal>(())
/// ```
#[derive(Clone, Copy, Debug, PartialEq, Eq)]
pub struct Record([u8; RECORD_SIZE]);

impl Record {
    /// The record of a bus write.
    #[must_use]
    pub fn write(index: u8, value: u8) -> Record {
        Record::whole(|out| {
            // SAFETY: pointer and length are those of `out`, which is lent for the call.
            unsafe { raw::w83782d_record_write(index, value, out.as_mut_ptr(), RECORD_SIZE) }
        })
    }

    /// The record of a bus read.
    #[must_use]
    pub fn read(index: u8) -> Record {
        Record::whole(|out| {
            // SAFETY: pointer and length are those of `out`, which is lent for the call.
            unsafe { raw::w83782d_record_read(index, out.as_mut_ptr(), RECORD_SIZE) }
        })
    }

    /// The record of an opened chassis.
    #[must_use]
    pub fn chassis_opened() -> Record {
        Record::whole(|out| {
            // SAFETY: pointer and length are those of `out`, which is lent for the call.
            unsafe { raw::w83782d_record_chassis(out.as_mut_ptr(), RECORD_SIZE) }
        })
    }

    /// The record of a sample, or [`Refusal::BadTemperature`].
    pub fn sample(sample: &Sample) -> Result<Record, Refusal> {
        let [u1, u2, u3] = sample.counts;
        Record::made(|out| {
            // SAFETY: each pointer and the length after it are those of an array, which is lent
            // for the call; the two arrays are different ones.
            unsafe {
                raw::w83782d_record_sample(
                    sample.codes.as_ptr(),
                    sample.codes.len(),
                    sample.sensor_1,
                    sample.sensor_2,
                    sample.sensor_3,
                    u1,
                    u2,
                    u3,
                    out.as_mut_ptr(),
                    RECORD_SIZE,
                )
            }
        })
    }

    /// The record in these bytes, if they hold an event. [`Refusal::BadRecord`]
    /// if they don't; [`Refusal::BadTemperature`] for a well-formed sample with a
    /// bad temperature.
    pub fn decode(bytes: &[u8]) -> Result<Record, Refusal> {
        // SAFETY: pointer and length are those of `bytes`, which is lent for the call.
        let answer = unsafe { raw::w83782d_decode(bytes.as_ptr(), bytes.len()) };
        refusal::accepted(answer)?;
        bytes.try_into().map(Record).map_err(|_| Refusal::BadRecord)
    }

    /// The record's bytes.
    #[must_use]
    pub const fn bytes(&self) -> &[u8; RECORD_SIZE] {
        &self.0
    }

    /// The record that a call leaves in the buffer that it is lent.
    fn made(call: impl FnOnce(&mut [u8; RECORD_SIZE]) -> u8) -> Result<Record, Refusal> {
        let mut out = [0; RECORD_SIZE];
        refusal::accepted(call(&mut out))?;
        Ok(Record(out))
    }

    /// As `made`, of a call that a whole buffer leaves nothing to refuse.
    fn whole(call: impl FnOnce(&mut [u8; RECORD_SIZE]) -> u8) -> Record {
        Record::made(call).expect("refused only for a buffer of another length")
    }
}

/// How far a log was carried out.
#[derive(Clone, Copy, Debug, PartialEq, Eq)]
#[must_use]
pub struct Replay {
    /// Records that were accepted.
    pub accepted: u64,
    /// Whether the log was carried out to its end, or why the record after the
    /// accepted ones was refused.
    pub end: Result<(), Refusal>,
}

impl Monitor {
    /// The event of a record, with what the call of that event does: the byte of a
    /// bus read, 0 of any other event. What [`Record::decode`] refuses and what
    /// the event is refused with leaves the monitor as it was.
    ///
    /// ```
    /// use w83782d::{Monitor, Record, Refusal};
    ///
    /// let mut monitor = Monitor::power_on();
    /// assert_eq!(monitor.apply(Record::read(0x58).bytes()), Ok(0x30));
    /// assert_eq!(monitor.apply(Record::write(0x58, 0xFF).bytes()), Err(Refusal::ReadOnly));
    /// assert_eq!(monitor.apply(&[0xFF; 32]), Err(Refusal::BadRecord));
    /// ```
    pub fn apply(&mut self, record: &[u8]) -> Result<u8, Refusal> {
        // SAFETY: each pointer and the length after it are those of bytes that are lent for
        // the call; nothing else is in the image, which is borrowed alone.
        let word = unsafe {
            raw::w83782d_event(
                self.image.as_mut_ptr(),
                IMAGE_SIZE,
                record.as_ptr(),
                record.len(),
            )
        };
        refusal::byte(word)
    }

    /// The events of a log, record by record, up to the first that is refused; a
    /// part of a record at the end is [`Refusal::BadRecord`]. The monitor is as the
    /// accepted records leave it.
    ///
    /// ```
    /// use w83782d::{Monitor, Record, Refusal, Replay};
    ///
    /// let log = [Record::chassis_opened(), Record::write(0x58, 0xFF)].map(|record| *record.bytes());
    /// let mut monitor = Monitor::power_on();
    /// let replay = monitor.replay(log.as_flattened());
    /// assert_eq!(replay, Replay { accepted: 1, end: Err(Refusal::ReadOnly) });
    /// // The chassis bit of 42h.
    /// assert_eq!(monitor.read(0x42), Ok(0x10));
    /// ```
    pub fn replay(&mut self, log: &[u8]) -> Replay {
        // SAFETY: each pointer and the length after it are those of bytes that are lent for
        // the call; nothing else is in the image, which is borrowed alone.
        let word = unsafe {
            raw::w83782d_replay(self.image.as_mut_ptr(), IMAGE_SIZE, log.as_ptr(), log.len())
        };
        Replay {
            accepted: word % (1 << 60),
            end: refusal::accepted((word >> 60) as u8),
        }
    }
}

/// Record k of a log, counted from 0: the log's own bytes. [`Refusal::BadRecord`]
/// if it is not whole in the log.
pub fn record_at(log: &[u8], k: u64) -> Result<&[u8; RECORD_SIZE], Refusal> {
    // SAFETY: pointer and length are those of `log`, which is lent for the call.
    let offset = unsafe { raw::w83782d_record_at(log.as_ptr(), log.len(), k) };
    // All ones, for no such record, is the start of no part of a log either.
    usize::try_from(offset)
        .ok()
        .and_then(|start| log.get(start..)?.first_chunk())
        .ok_or(Refusal::BadRecord)
}
