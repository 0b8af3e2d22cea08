//! The report of a log by the library alone: no built program is run.
//!
//! Records are put together here byte by byte, as document 01 lays them out, and what
//! is expected of them is worked out from document 01 and request C-11.

use programs::report;
use std::fs;
use std::io::{self, ErrorKind, Read};
use std::path::Path;

/// "32 bytes each."
const RECORD: usize = 32;

/// "A day holds 100,000 records."
const DAY: usize = 100_000;

/// "By parts of at most 64 KiB."
const PART: usize = 65_536;

type Record = [u8; RECORD];

/// The bytes of a record; "the rest is zero".
fn record(bytes: &[u8]) -> Record {
    let mut record = [0; RECORD];
    record[..bytes.len()].copy_from_slice(bytes);
    record
}

/// "1 write (index, value)."
fn write(index: u8, value: u8) -> Record {
    record(&[1, index, value])
}

/// "2 read (index)."
fn read(index: u8) -> Record {
    record(&[2, index])
}

/// "3 sample": "bytes 1-7 voltages, 8 sensor 1, 9-10 and 11-12 sensors 2 and 3 in half
/// degrees (two's complement), 13-16, 17-20, 21-24 the three u; big end first".
fn sample(codes: [u8; 7], t1: i8, [t2, t3]: [i16; 2], u: [u32; 3]) -> Record {
    let mut bytes = vec![3];
    bytes.extend(codes);
    bytes.extend(t1.to_be_bytes());
    bytes.extend(t2.to_be_bytes());
    bytes.extend(t3.to_be_bytes());
    bytes.extend(u.map(u32::to_be_bytes).as_flattened());
    record(&bytes)
}

/// "4 chassis."
fn chassis() -> Record {
    record(&[4])
}

/// What `report` gives for what can be read without a failure.
fn text(log: impl Read) -> String {
    let mut out = Vec::new();
    report(log, &mut out).expect("it is read, and memory is written");
    String::from_utf8(out).expect("text")
}

/// What comes after a name in a report.
fn line<'a>(report: &'a str, name: &str) -> &'a str {
    report
        .lines()
        .find_map(|line| line.strip_prefix(name)?.strip_prefix(' '))
        .expect("the report has the line")
}

// ---- Whole reports

/// "So an empty log gives .."
const EMPTY: &str = "20 0 - - 0\n21 0 - - 0\n22 0 - - 0\n23 0 - - 0\n24 0 - - 0\n\
    25 0 - - 0\n26 0 - - 0\n27 0 - - 0\n28 0 - - 0\n29 0 - - 0\n2A 0 - - 0\n\
    1.50 0 - - 0\n2.50 0 - - 0\n\
    41.0 0\n41.1 0\n41.2 0\n41.3 0\n41.4 0\n41.5 0\n41.6 0\n41.7 0\n\
    42.0 0\n42.1 0\n42.2 0\n42.3 0\n42.4 0\n42.5 0\nend 0 0\n";

#[test]
fn an_empty_log_gives_the_lines_of_the_request() {
    assert_eq!(EMPTY.lines().count(), 28);
    assert_eq!(text(io::empty()), EMPTY);
}

/// Eighteen records, all accepted: limits, three samples, a poll, the chassis. Rails
/// from VINR0 on have the limits of power-on, which are 0: a code above 0 is high.
fn some_hours() -> Vec<u8> {
    [
        // Samples are taken; VCOREA from 100 to 200.
        write(0x40, 0x01),
        write(0x2B, 200),
        write(0x2C, 100),
        // Sensor 1: over limit 60, hysteresis 55; two-times mode, since 3Ah isn't 127.
        write(0x39, 60),
        write(0x3A, 55),
        // Fan 1 with divisor 2 and limit 152: "u 306 rings and 305 doesn't".
        write(0x47, 0x50),
        write(0x3B, 152),
        // No count is above 255: fans 2 and 3 never ring.
        write(0x3C, 255),
        write(0x3D, 255),
        // Sensor 2, in bank 1: over limit 80, which is 160 half degrees.
        write(0x4E, 1),
        write(0x55, 80),
        // Latched: VINR0, +5, -12; sensor 1, which is hot from here on; fan 1.
        sample(
            [150, 1, 0, 3, 0, 5, 0],
            61,
            [-256, 0],
            [306, 4_294_967_295, 7],
        ),
        // Latched: VCOREA, which is low; +5, +12; fan 1, which is no longer slow. Sensor
        // 1 is as hot as before.
        sample([99, 0, 0, 3, 4, 0, 0], 61, [-256, -1], [305, 0, 9]),
        // The second finds the bit set already, and latches it as well.
        chassis(),
        chassis(),
        // It clears what was latched, and no count.
        read(0x41),
        // Latched: VCOREA, which is high; VINR0, -12, -5; sensor 1, which is below its
        // hysteresis; sensor 2; fan 1, slow again. Not the chassis bit, which is still set.
        sample(
            [201, 2, 0, 0, 0, 5, 6],
            -1,
            [255, 1],
            [4_294_967_295, 306, 0],
        ),
        write(0x46, 0x80),
    ]
    .concat()
}

/// All lines of that log but the last.
const SOME_HOURS: &str = "20 3 99 201 450\n21 3 0 2 3\n22 3 0 0 0\n23 3 0 3 6\n24 3 0 4 4\n\
    25 3 0 5 10\n26 3 0 6 6\n27 3 -1 61 121\n28 3 305 4294967295 4294967906\n\
    29 3 0 4294967295 4294967601\n2A 3 0 9 16\n1.50 3 -256 255 -257\n2.50 3 -1 1 0\n\
    41.0 2\n41.1 2\n41.2 0\n41.3 2\n41.4 2\n41.5 1\n41.6 3\n41.7 0\n\
    42.0 1\n42.1 2\n42.2 1\n42.3 0\n42.4 2\n42.5 0\n";

/// A sample and a chassis event, both good, that would change every figure.
fn good_records() -> Vec<u8> {
    let sample = sample([255; 7], 127, [-256, -256], [4_294_967_295; 3]);
    [sample, chassis()].concat()
}

/// What may end those hours, and the last line then. Behind a refused record are good
/// ones, which change nothing.
fn ends() -> Vec<(Vec<u8>, &'static str)> {
    let calm = sample([0; 7], 0, [0, 0], [0; 3]);
    let too_hot = sample([0; 7], 0, [256, 0], [0; 3]);
    let too_cold = sample([0; 7], 0, [0, -257], [0; 3]);
    let mut damaged = chassis();
    damaged[RECORD - 1] = 1;
    // 40h bit 0 is 0, or bit 3 is 1.
    let [stopped, standby] = [0x00, 0x09].map(|value| write(0x40, value));
    let refused: [(&[Record], &str); 11] = [
        (&[write(0x00, 0)], "end 1 18\n"),
        (&[read(0x80)], "end 1 18\n"),
        (&[write(0x41, 0)], "end 2 18\n"),
        (&[too_hot], "end 3 18\n"),
        (&[too_cold], "end 3 18\n"),
        // The write that stops samples is accepted. "3 before 4."
        (&[stopped, calm], "end 4 19\n"),
        (&[standby, calm], "end 4 19\n"),
        (&[stopped, too_hot], "end 3 19\n"),
        (&[record(&[0])], "end 5 18\n"),
        (&[record(&[5])], "end 5 18\n"),
        (&[damaged], "end 5 18\n"),
    ];
    let followed = |(records, last): (&[Record], _)| {
        let bytes = [records.concat(), good_records()].concat();
        (bytes, last)
    };
    let mut ends = vec![(vec![], "end 0 18\n")];
    // A piece of a record, good as far as it goes or not.
    for piece in [&chassis()[..1], &calm[..31], &[9; 17]] {
        ends.push((piece.to_vec(), "end 5 18\n"));
    }
    ends.extend(refused.map(followed));
    ends
}

#[test]
fn a_log_is_reported_up_to_what_ends_it() {
    for (end, last) in ends() {
        let log = [some_hours(), end].concat();
        let expected = [SOME_HOURS, last].concat();
        assert_eq!(text(&log[..]), expected, "{last}");
    }
}

/// The gate runs `day_report` on those hours and a refused record, and these are the
/// lines that it expects.
#[test]
fn the_gates_lines_are_those_of_these_hours() {
    let folder = Path::new(env!("CARGO_MANIFEST_DIR")).join("../../crates/day_report");
    let log = fs::read(folder.join("stdin")).expect("the gate's log");
    let lines = fs::read_to_string(folder.join("stdout")).expect("the gate's lines");
    assert!(log.starts_with(&some_hours()));
    assert_eq!(log[some_hours().len()..][..RECORD], read(0x1F));
    assert_eq!(lines, [SOME_HOURS, "end 1 18\n"].concat());
}

#[test]
fn a_piece_of_a_record_alone_is_5() {
    for length in 1..RECORD {
        assert_eq!(line(&text(&chassis()[..length]), "end"), "5 0");
    }
}

/// The bundled log, its samples taken out of it by their places.
#[test]
fn the_bundled_days_figures_are_those_of_its_samples() {
    let top = Path::new(env!("CARGO_MANIFEST_DIR")).join("../..");
    let log = fs::read(top.join("examples/cabinet-day.log")).expect("the bundled log");
    let samples: Vec<&[u8]> = log.chunks(RECORD).filter(|record| record[0] == 3).collect();
    let found = text(&log[..]);
    let hold = |name: &str, value: &dyn Fn(&[u8]) -> i64| {
        let values = || samples.iter().map(|sample| value(sample));
        let (least, greatest) = (values().min().expect("one"), values().max().expect("one"));
        let (samples, sum) = (samples.len(), values().sum::<i64>());
        let expected = format!("{samples} {least} {greatest} {sum}");
        assert_eq!(line(&found, name), expected, "{name}");
    };
    for (at, name) in (1..).zip(["20", "21", "22", "23", "24", "25", "26"]) {
        hold(name, &|sample| sample[at].into());
    }
    hold("27", &|sample| (sample[8] as i8).into());
    for (at, name) in [(9, "1.50"), (11, "2.50")] {
        hold(name, &|sample| {
            i16::from_be_bytes([sample[at], sample[at + 1]]).into()
        });
    }
    for (at, name) in [(13, "28"), (17, "29"), (21, "2A")] {
        hold(name, &|sample| {
            let bytes = sample[at..at + 4].try_into().expect("four bytes");
            u32::from_be_bytes(bytes).into()
        });
    }
    // README: 133 records, and the chassis is opened at one of them.
    assert_eq!(line(&found, "end"), "0 133");
    assert_eq!(line(&found, "42.4"), "1");
}

// ---- However it is read

/// Hands out a log in pieces of these lengths by turns, each after so many
/// interruptions.
struct Pieces<'a> {
    rest: &'a [u8],
    lengths: &'a [usize],
    interruptions: usize,
    reads: usize,
}

impl Pieces<'_> {
    fn text(log: &[u8], lengths: &[usize], interruptions: usize) -> String {
        text(Pieces {
            rest: log,
            lengths,
            interruptions,
            reads: 0,
        })
    }
}

impl Read for Pieces<'_> {
    fn read(&mut self, part: &mut [u8]) -> io::Result<usize> {
        assert!((1..=PART).contains(&part.len()), "{} bytes", part.len());
        let turns = self.interruptions + 1;
        let (piece, turn) = (self.reads / turns, self.reads % turns);
        self.reads += 1;
        if turn < self.interruptions {
            return Err(ErrorKind::Interrupted.into());
        }
        let length = self.lengths[piece % self.lengths.len()].min(part.len());
        self.rest.read(&mut part[..length])
    }
}

/// Good ends, refused records and pieces.
#[test]
fn any_cutting_gives_the_report_of_the_whole() {
    for (end, last) in ends() {
        let log = [some_hours(), end].concat();
        let expected = [SOME_HOURS, last].concat();
        for length in 1..=97 {
            for interruptions in [0, 1, 3] {
                let found = Pieces::text(&log, &[length], interruptions);
                assert_eq!(found, expected, "{last}: {length}, {interruptions}");
            }
        }
        for lengths in [&[1, 64, 3, 95][..], &[31, 33, 1], &[RECORD, 1]] {
            let found = Pieces::text(&log, lengths, 1);
            assert_eq!(found, expected, "{last}: {lengths:?}");
        }
    }
}

// ---- A whole day

/// 100,000 records, each of a chassis event.
fn day() -> Vec<u8> {
    chassis().repeat(DAY)
}

/// The report of that day with this answer at its end.
fn report_of_day(answer: u8) -> String {
    EMPTY
        .replace("42.4 0\n", "42.4 100000\n")
        .replace("end 0 0\n", &format!("end {answer} 100000\n"))
}

/// What a day's 100,000 records may be followed by, and the answer then.
fn after_a_day() -> Vec<(Vec<u8>, u8)> {
    let mut ends = vec![(vec![], 0)];
    // A piece, whatever is in it.
    for length in 1..RECORD {
        ends.push((chassis()[..length].to_vec(), 5));
    }
    ends.push((vec![9; 31], 5));
    // A whole one: good, no event, refused by decoder and by monitor.
    for record in [
        chassis(),
        [9; RECORD],
        sample([0; 7], 0, [256, 0], [0; 3]),
        write(0x41, 0),
        write(0x00, 0),
    ] {
        ends.push((record.to_vec(), 12));
        ends.push(([&record[..], &[0]].concat(), 12));
        ends.push(([record, chassis()].concat(), 12));
    }
    ends
}

#[test]
fn a_day_has_100_000_records() {
    let day = day();
    for (more, answer) in after_a_day() {
        let found = text(day.chain(&more[..]));
        assert_eq!(found, report_of_day(answer), "{more:02X?}");
    }
}

/// A part may end in the record after the day's last, and bring nothing of it.
#[test]
fn any_cutting_of_a_day_gives_the_report_of_the_whole() {
    for (more, answer) in [(0, 0), (1, 5), (31, 5), (32, 12), (33, 12), (100, 12)] {
        let log = [day(), vec![4; more]].concat();
        let expected = report_of_day(answer);
        for lengths in [&[33][..], &[4_095, 1, 4_097], &[PART - 1], &[PART + 1]] {
            let found = Pieces::text(&log, lengths, 0);
            assert_eq!(found, expected, "{more} more by {lengths:?}");
        }
    }
}

#[test]
fn a_days_last_record_is_refused_by_its_own_number() {
    let before = chassis().repeat(DAY - 1);
    for (last, answer) in [(write(0x00, 0), 1), (write(0x41, 0), 2), ([9; RECORD], 5)] {
        let found = text(before.chain(&last[..]).chain(&last[..]));
        assert_eq!(line(&found, "end"), format!("{answer} 99999"));
        assert_eq!(line(&found, "42.4"), "99999");
    }
}

// ---- Values

/// "u" and not the count that is stored, which is 255; -256 half degrees are -128.
#[test]
fn values_are_raw() {
    let start = write(0x40, 0x01);
    let sample = sample(
        [1, 2, 3, 4, 5, 6, 7],
        -128,
        [-256, 255],
        [4_294_967_295, 0, 1],
    );
    let found = text(&[start, sample].concat()[..]);
    for (name, expected) in [
        ("20", "1 1 1 1"),
        ("26", "1 7 7 7"),
        ("27", "1 -128 -128 -128"),
        ("28", "1 4294967295 4294967295 4294967295"),
        ("29", "1 0 0 0"),
        ("2A", "1 1 1 1"),
        ("1.50", "1 -256 -256 -256"),
        ("2.50", "1 255 255 255"),
        ("end", "0 2"),
    ] {
        assert_eq!(line(&found, name), expected, "{name}");
    }
}

/// A day of samples, but for the write that starts them: 99,999 times each value.
#[test]
fn the_largest_sums_of_a_day_are_told() {
    let start = write(0x40, 0x01);
    let samples = sample([255; 7], -128, [-256, 255], [4_294_967_295; 3]).repeat(DAY - 1);
    let found = text(start.chain(&samples[..]));
    for (name, expected) in [
        ("20", "99999 255 255 25499745"),
        ("26", "99999 255 255 25499745"),
        ("27", "99999 -128 -128 -12799872"),
        ("28", "99999 4294967295 4294967295 429492434532705"),
        ("2A", "99999 4294967295 4294967295 429492434532705"),
        ("1.50", "99999 -256 -256 -25599744"),
        ("2.50", "99999 255 255 25499745"),
        // Limits are 0: every code is high, every fan gets slow at the first sample and
        // stays slow, sensor 1 is never hot.
        ("41.0", "99999"),
        ("41.4", "0"),
        ("41.6", "1"),
        ("42.2", "99999"),
        ("42.3", "1"),
        ("42.4", "0"),
        ("end", "0 100000"),
    ] {
        assert_eq!(line(&found, name), expected, "{name}");
    }
}

// ---- What fails

/// A log that can't be read from here on.
struct Fails;

impl Read for Fails {
    fn read(&mut self, _: &mut [u8]) -> io::Result<usize> {
        Err(ErrorKind::TimedOut.into())
    }
}

#[test]
fn a_log_that_cannot_be_read_to_its_end_has_no_report() {
    let hours = some_hours();
    let long = chassis().repeat(PART / RECORD + 1);
    for log in [&[][..], &hours[..1], &hours[..100], &hours, &long, &day()] {
        let mut out = Vec::new();
        let found = report(log.chain(Fails), &mut out);
        let error = found.expect_err("a failed read");
        assert_eq!(error.kind(), ErrorKind::TimedOut);
        assert_eq!(out, b"", "after {} bytes", log.len());
    }
}

/// What fails, or never ends, behind the record that ends the report is not read.
#[test]
fn nothing_is_read_behind_the_end_of_a_report() {
    let refused = [some_hours(), write(0x41, 0).to_vec()].concat();
    assert_eq!(
        text(refused.chain(Fails)),
        [SOME_HOURS, "end 2 18\n"].concat()
    );
    let full = [day(), chassis().to_vec()].concat();
    assert_eq!(text(full.chain(Fails)), report_of_day(12));
    assert_eq!(line(&text(io::repeat(4)), "end"), "5 0");
    assert_eq!(text(day().chain(io::repeat(0))), report_of_day(12));
}

#[test]
fn a_report_that_cannot_be_written_is_told() {
    // One byte too few.
    let mut room = vec![0; EMPTY.len() - 1];
    let found = report(io::empty(), &mut &mut room[..]);
    assert_eq!(found.expect_err("no room").kind(), ErrorKind::WriteZero);
}
