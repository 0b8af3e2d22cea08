//! What is wrong with a script or a log, and where.

use std::error::Error;
use std::fmt::{Display, Formatter, Result as Written};
use w83782d::{Refusal, RECORD_SIZE};

/// The first thing that is wrong: place and reason.
#[derive(Clone, Debug, PartialEq, Eq)]
pub enum Fault {
    /// A line of a script, counted from 1.
    Line(usize, String),
    /// A record of a log, counted from 0 as the library counts them.
    Record(usize, String),
}

impl Display for Fault {
    fn fmt(&self, f: &mut Formatter<'_>) -> Written {
        match self {
            Fault::Line(n, reason) => write!(f, "line {n}: {reason}"),
            Fault::Record(n, reason) => {
                write!(f, "record {n} (at byte {}): {reason}", n * RECORD_SIZE)
            }
        }
    }
}

impl Error for Fault {}

/// Why an event has no record.
pub fn of_event(refusal: Refusal) -> String {
    in_words(refusal, &why(refusal))
}

/// Why a part of a log is no record.
pub fn of_record(part: &[u8], refusal: Refusal) -> String {
    let reason = match refusal {
        Refusal::BadRecord => damage(part),
        _ => why(refusal),
    };
    in_words(refusal, &reason)
}

fn in_words(refusal: Refusal, reason: &str) -> String {
    format!("answer {}, {reason}", refusal.number())
}

fn why(refusal: Refusal) -> String {
    match refusal {
        Refusal::BadTemperature => "sensor 2 or 3 is outside -128.0 to 127.5 degrees".into(),
        _ => refusal.to_string(),
    }
}

/// What a person should look at in a part that the library has refused.
fn damage(part: &[u8]) -> String {
    if part.len() != RECORD_SIZE {
        return format!("cut after {} of {RECORD_SIZE} bytes", part.len());
    }
    // Bytes that a record of this kind uses; the rest is zero.
    let used = match part[0] {
        1 => 3,
        2 => 2,
        3 => 25,
        4 => 1,
        kind => return format!("unknown kind {kind:02X}h"),
    };
    let mut rest = part.iter().enumerate().skip(used);
    match rest.find(|(_, &byte)| byte != 0) {
        Some((at, byte)) => format!("its byte {at} is {byte:02X}h and not zero"),
        None => Refusal::BadRecord.to_string(),
    }
}
