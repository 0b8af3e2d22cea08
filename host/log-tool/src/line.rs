//! An event as a line of a script.

use crate::event::Event;
use std::fmt::{Display, Formatter, Result as Written};
use std::str::FromStr;
use w83782d::Sample;

/// The rails of a sample's codes, in their order.
const RAILS: [&str; 7] = ["VCOREA", "VINR0", "+3.3", "+5", "+12", "-12", "-5"];

const SAMPLE_TAKES: &str =
    "sample takes 'codes' and seven numbers, 'temps' and three, 'counts' and three";

/// The event of a line, or why it has none; blanks and comment are no event.
pub fn parse(line: &str) -> Result<Option<Event>, String> {
    let words = line.split('#').next().unwrap_or_default();
    let words: Vec<&str> = words.split_ascii_whitespace().collect();
    let Some((name, arguments)) = words.split_first() else {
        return Ok(None);
    };
    let event = match *name {
        "write" => write(arguments)?,
        "read" => read(arguments)?,
        "chassis" if arguments.is_empty() => Event::Chassis,
        "chassis" => return Err("chassis takes nothing".into()),
        "sample" => sample(arguments)?,
        _ => {
            return Err(format!(
                "'{name}' is no event: write, read, chassis or sample"
            ))
        }
    };
    Ok(Some(event))
}

fn write(arguments: &[&str]) -> Result<Event, String> {
    let [index, value] = arguments else {
        return Err("write takes an index and a value, in hex".into());
    };
    Ok(Event::Write {
        index: hex("index", index)?,
        value: hex("value", value)?,
    })
}

fn read(arguments: &[&str]) -> Result<Event, String> {
    let [index] = arguments else {
        return Err("read takes an index, in hex".into());
    };
    Ok(Event::Read {
        index: hex("index", index)?,
    })
}

/// Each word has one place, so that a number too many or too few in one part is
/// never taken for one of the next.
fn sample(arguments: &[&str]) -> Result<Event, String> {
    let ["codes", c0, c1, c2, c3, c4, c5, c6, "temps", t1, t2, t3, "counts", u1, u2, u3] =
        arguments
    else {
        return Err(SAMPLE_TAKES.into());
    };
    let mut codes = [0; RAILS.len()];
    for (n, word) in [c0, c1, c2, c3, c4, c5, c6].into_iter().enumerate() {
        codes[n] = code(RAILS[n], word)?;
    }
    let mut counts = [0; 3];
    for (n, word) in [u1, u2, u3].into_iter().enumerate() {
        counts[n] = count(n + 1, word)?;
    }
    Ok(Event::Sample(Sample {
        codes,
        sensor_1: degrees(t1)?,
        sensor_2: half_degrees(2, t2)?,
        sensor_3: half_degrees(3, t3)?,
        counts,
    }))
}

/// Two digits always: half a byte is more likely a slip than a number.
fn hex(what: &str, word: &str) -> Result<u8, String> {
    let two_digits = word.len() == 2 && word.bytes().all(|byte| byte.is_ascii_hexdigit());
    let byte = two_digits.then(|| u8::from_str_radix(word, 16).ok());
    byte.flatten()
        .ok_or_else(|| format!("{what} '{word}' is not two hex digits"))
}

fn code(rail: &str, word: &str) -> Result<u8, String> {
    decimal(word).ok_or_else(|| format!("code '{word}' of {rail} is not 0 to 255"))
}

fn count(fan: usize, word: &str) -> Result<u32, String> {
    decimal(word).ok_or_else(|| format!("count '{word}' of fan {fan} is not 0 to {}", u32::MAX))
}

fn degrees(word: &str) -> Result<i8, String> {
    decimal(word).ok_or_else(|| {
        format!("sensor 1 at '{word}' is not a whole number of degrees, -128 to 127")
    })
}

/// Half degrees, of degrees with .0, .5 or neither.
fn half_degrees(sensor: u8, word: &str) -> Result<i16, String> {
    let (whole, half) = match word.split_once('.') {
        Some((whole, "5")) => (whole, 1),
        Some((whole, "0")) => (whole, 0),
        Some(_) => ("", 0),
        None => (word, 0),
    };
    let magnitude = whole.strip_prefix('-').unwrap_or(whole);
    if magnitude.is_empty() || !digits_only(magnitude) {
        return Err(format!(
            "sensor {sensor} at '{word}' is not a number of degrees with .0 or .5"
        ));
    }
    // What is too large for a record is far outside the sensor's range, and so is
    // the largest number of a record: the library refuses either alike.
    let magnitude = magnitude.parse().unwrap_or(u32::MAX);
    let twice = magnitude.saturating_mul(2).saturating_add(half);
    let twice = i16::try_from(twice).unwrap_or(i16::MAX);
    // The sign is before the whole number, so that -0.5 has one too.
    Ok(if whole.starts_with('-') {
        -twice
    } else {
        twice
    })
}

/// A number of digits with at most a minus sign.
fn decimal<T: FromStr>(word: &str) -> Option<T> {
    let number = digits_only(word.strip_prefix('-').unwrap_or(word));
    number.then(|| word.parse().ok()).flatten()
}

fn digits_only(word: &str) -> bool {
    word.bytes().all(|byte| byte.is_ascii_digit())
}

impl Display for Event {
    /// The line of this event, in the one form that a log is written in.
    fn fmt(&self, f: &mut Formatter<'_>) -> Written {
        match self {
            Event::Write { index, value } => write!(f, "write {index:02X} {value:02X}"),
            Event::Read { index } => write!(f, "read {index:02X}"),
            Event::Chassis => f.write_str("chassis"),
            Event::Sample(sample) => {
                let codes = sample.codes.map(|code| code.to_string()).join(" ");
                let counts = sample.counts.map(|count| count.to_string()).join(" ");
                write!(
                    f,
                    "sample codes {codes} temps {} {} {} counts {counts}",
                    sample.sensor_1,
                    in_degrees(sample.sensor_2),
                    in_degrees(sample.sensor_3),
                )
            }
        }
    }
}

fn in_degrees(half_degrees: i16) -> String {
    let sign = if half_degrees < 0 { "-" } else { "" };
    let magnitude = half_degrees.unsigned_abs();
    let half = if magnitude % 2 == 1 { 5 } else { 0 };
    format!("{sign}{}.{half}", magnitude / 2)
}
