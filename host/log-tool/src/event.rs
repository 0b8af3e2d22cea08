//! An event, into a record and out of one.

use w83782d::{Record, Refusal, Sample};

/// What a record holds.
#[derive(Clone, Copy, Debug, PartialEq, Eq)]
pub enum Event {
    Write { index: u8, value: u8 },
    Read { index: u8 },
    Chassis,
    Sample(Sample),
}

impl Event {
    /// The record of this event, or why the library makes none.
    pub fn record(&self) -> Result<Record, Refusal> {
        match self {
            Event::Write { index, value } => Ok(Record::write(*index, *value)),
            Event::Read { index } => Ok(Record::read(*index)),
            Event::Chassis => Ok(Record::chassis_opened()),
            Event::Sample(sample) => Record::sample(sample),
        }
    }

    /// The event of a record. That it holds one, its type says.
    pub fn of(record: &Record) -> Event {
        let bytes = record.bytes();
        match bytes[0] {
            1 => Event::Write {
                index: bytes[1],
                value: bytes[2],
            },
            2 => Event::Read { index: bytes[1] },
            4 => Event::Chassis,
            _ => Event::Sample(Sample {
                codes: part(bytes, 1),
                sensor_1: i8::from_be_bytes(part(bytes, 8)),
                sensor_2: i16::from_be_bytes(part(bytes, 9)),
                sensor_3: i16::from_be_bytes(part(bytes, 11)),
                counts: [13, 17, 21].map(|at| u32::from_be_bytes(part(bytes, at))),
            }),
        }
    }
}

/// So many bytes as are asked for, from this one on.
fn part<const N: usize>(bytes: &[u8], at: usize) -> [u8; N] {
    *bytes[at..].first_chunk().expect("lies in a record")
}
