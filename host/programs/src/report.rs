//! What `day_report` prints for a log.

use crate::PART;
use reference::w83782d::Report;
use std::io::{self, ErrorKind, Read, Write};

/// The report of a day's log. It is written once the log has been read to its end, or
/// to the record that ends the report: a log that can't be read has no report, and
/// nothing of one is written.
pub fn report(mut log: impl Read, out: &mut impl Write) -> io::Result<()> {
    let mut report = Report::new();
    let mut part = vec![0; PART];
    while !report.is_over() {
        match log.read(&mut part) {
            Ok(0) => break,
            // Wherever it is cut: the report keeps the bytes of a record that has begun.
            Ok(length) => report.feed(&part[..length]),
            Err(error) if error.kind() == ErrorKind::Interrupted => {}
            Err(error) => return Err(error),
        }
    }
    report.write(out)
}
