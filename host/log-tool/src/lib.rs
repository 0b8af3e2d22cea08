//! A readable script as a log of event records, and back.
//!
//! A script has an event on each line; `#` starts a comment.
//!
//! ```text
//! write 47 50      # index and value, two hex digits each
//! read 41          # index
//! chassis          # the chassis was opened
//! sample codes 100 94 206 186 197 35 54 temps 35 40.0 41.5 counts 270 540 1038
//! ```
//!
//! A sample has the codes of VCOREA, VINR0, +3.3, +5, +12, -12 and -5, then the
//! degrees of sensors 1 to 3 (sensor 1 whole, the others also with .5), then the
//! undivided counts of fans 1 to 3. All are decimal.
//!
//! Records are made and decoded by the proved library alone, so a script and its
//! log can't tell different events.

mod event;
mod fault;
mod line;

use event::Event;
pub use fault::Fault;
use w83782d::{record_at, Record, RECORD_SIZE};

/// The log of a script, or the first line that tells no event.
///
/// ```
/// use w83782d_log::{pack, unpack};
///
/// let log = pack(b"# fans 1 and 2: divisor 2\nwrite 47 50\n")?;
/// assert_eq!(log[..3], [0x01, 0x47, 0x50]);
/// assert_eq!(unpack(&log)?, "write 47 50\n");
/// assert_eq!(pack(b"write 47").unwrap_err().to_string(),
///     "line 1: write takes an index and a value, in hex");
/// # Ok::<(), w83782d_log::Fault>(())
/// ```
pub fn pack(script: &[u8]) -> Result<Vec<u8>, Fault> {
    let mut log = Vec::new();
    for (n, line) in script.split(|&byte| byte == b'\n').enumerate() {
        let record = record_of(line).map_err(|reason| Fault::Line(n + 1, reason))?;
        if let Some(record) = record {
            log.extend_from_slice(record.bytes());
        }
    }
    Ok(log)
}

/// The record of a line; a line of blanks and comment has none.
fn record_of(line: &[u8]) -> Result<Option<Record>, String> {
    let line = std::str::from_utf8(line).map_err(|_| "this is no text (UTF-8)")?;
    let Some(event) = line::parse(line)? else {
        return Ok(None);
    };
    let record = event.record().map_err(fault::of_event)?;
    Ok(Some(record))
}

/// The script of a log, one line a record, or the first record that holds no
/// event. Its [`pack`] is the log.
pub fn unpack(log: &[u8]) -> Result<String, Fault> {
    let mut script = String::new();
    for (n, part) in log.chunks(RECORD_SIZE).enumerate() {
        let event = event_at(log, n as u64)
            .map_err(|refusal| Fault::Record(n, fault::of_record(part, refusal)))?;
        script += &format!("{event}\n");
    }
    Ok(script)
}

/// The event of record n of a log.
fn event_at(log: &[u8], n: u64) -> Result<Event, w83782d::Refusal> {
    let record = Record::decode(record_at(log, n)?)?;
    let event = Event::of(&record);
    // The library says what a record holds, but not its numbers: what was taken
    // out of the bytes here must give them again.
    assert_eq!(event.record(), Ok(record), "record {n} reads as {event}");
    Ok(event)
}
