//! The report of a day (request C-11), figure by figure.

mod common;

use common::{any_sample, at_temperature, Rng, CALM};
use reference::w83782d::{write_record, Event, Report, Sample, DAY, RECORD_LENGTH};

fn record(event: Event) -> [u8; RECORD_LENGTH] {
    let mut bytes = [0; RECORD_LENGTH];
    assert_eq!(write_record(&event, &mut bytes), 0);
    bytes
}

fn log(events: &[Event]) -> Vec<u8> {
    events.iter().flat_map(|event| record(*event)).collect()
}

fn text(report: &Report) -> String {
    let mut lines = Vec::new();
    report.write(&mut lines).expect("a Vec takes every byte");
    String::from_utf8(lines).expect("the report is ASCII")
}

fn report(log: &[u8]) -> String {
    let mut report = Report::new();
    report.feed(log);
    text(&report)
}

/// What stands behind a name in a report.
fn line<'a>(report: &'a str, name: &str) -> &'a str {
    report
        .lines()
        .find_map(|line| line.strip_prefix(&format!("{name} ")))
        .expect("the report has the line")
}

/// 40h bit 0: the monitor takes samples.
const START: Event = Event::Write {
    index: 0x40,
    value: 0x01,
};

fn write(index: u8, value: u8) -> Event {
    Event::Write { index, value }
}

#[test]
fn an_empty_log_gives_28_lines() {
    assert_eq!(
        report(b""),
        "20 0 - - 0\n21 0 - - 0\n22 0 - - 0\n23 0 - - 0\n24 0 - - 0\n25 0 - - 0\n\
         26 0 - - 0\n27 0 - - 0\n28 0 - - 0\n29 0 - - 0\n2A 0 - - 0\n1.50 0 - - 0\n\
         2.50 0 - - 0\n41.0 0\n41.1 0\n41.2 0\n41.3 0\n41.4 0\n41.5 0\n41.6 0\n41.7 0\n\
         42.0 0\n42.1 0\n42.2 0\n42.3 0\n42.4 0\n42.5 0\nend 0 0\n"
    );
}

#[test]
fn a_piece_of_a_record_is_5() {
    assert_eq!(line(&report(&[1; 31]), "end"), "5 0");
    let mut bytes = log(&[START]);
    bytes.push(0);
    assert_eq!(line(&report(&bytes), "end"), "5 1");
}

#[test]
fn figures_are_of_raw_values() {
    let first = Sample {
        codes: [1, 2, 3, 4, 5, 6, 7],
        t1: -128,
        t2: -256,
        t3: 255,
        u: [u32::MAX, 0, 9],
    };
    let second = Sample {
        codes: [255, 0, 3, 4, 5, 6, 9],
        t1: 127,
        t2: 0,
        t3: -1,
        u: [7, 1, 8],
    };
    let found = report(&log(&[START, Event::Sample(first), Event::Sample(second)]));
    for (name, expected) in [
        ("20", "2 1 255 256"),
        ("21", "2 0 2 2"),
        ("26", "2 7 9 16"),
        ("27", "2 -128 127 -1"),
        // The undivided count, whatever the divisor.
        ("28", "2 7 4294967295 4294967302"),
        ("29", "2 0 1 1"),
        ("2A", "2 8 9 17"),
        ("1.50", "2 -256 0 -256"),
        ("2.50", "2 -1 255 254"),
        ("end", "0 3"),
    ] {
        assert_eq!(line(&found, name), expected, "{name}");
    }
}

#[test]
fn one_sample_is_its_own_least_and_greatest() {
    let sample = Sample {
        t1: -5,
        ..at_temperature(2, -20)
    };
    let found = report(&log(&[START, Event::Sample(sample)]));
    assert_eq!(line(&found, "27"), "1 -5 -5 -5");
    assert_eq!(line(&found, "1.50"), "1 -20 -20 -20");
}

#[test]
fn a_bit_is_latched_at_each_event_that_sets_it() {
    // The high limit of VCOREA is 0 at power-on: each of these samples is above.
    let high = Sample {
        codes: [1, 0, 0, 0, 0, 0, 0],
        ..CALM
    };
    let events = [START, Event::Sample(high), Event::Sample(high)];
    assert_eq!(line(&report(&log(&events)), "41.0"), "2");
    // Read in between or not, and reset after it.
    let read = Event::Read { index: 0x41 };
    let events = [
        START,
        Event::Sample(high),
        read,
        Event::Sample(high),
        write(0x40, 0x80),
    ];
    assert_eq!(line(&report(&log(&events)), "41.0"), "2");
    assert_eq!(line(&report(&log(&events)), "20"), "2 1 1 2");
}

/// C-14.
#[test]
fn a_fans_bit_is_latched_at_each_crossing() {
    // The limit of fan 1 is 0 at power-on, and its divisor 2.
    let [fast, slow] = [0, 2].map(|u| {
        Event::Sample(Sample {
            u: [u, 0, 0],
            ..CALM
        })
    });
    let read = Event::Read { index: 0x41 };
    let events = [START, slow, read, slow, fast, fast, slow];
    assert_eq!(line(&report(&log(&events)), "41.6"), "3");
}

#[test]
fn the_chassis_bit_is_latched_by_chassis_events_alone() {
    let events = [
        Event::Chassis,
        Event::Chassis,
        START,
        Event::Sample(CALM),
        Event::Read { index: 0x42 },
        write(0x46, 0x80),
    ];
    let found = report(&log(&events));
    assert_eq!(line(&found, "42.4"), "2");
    assert_eq!(line(&found, "end"), "0 6");
}

#[test]
fn a_refused_record_ends_the_report_and_counts_for_nothing() {
    let cold = Event::Sample(CALM);
    // 4: 40h bit 0 is 0; 2: read-only; 1: no register.
    for (refused, answer) in [(cold, 4), (write(0x41, 0), 2), (write(0x00, 0), 1)] {
        let events = [write(0x40, 0x00), refused, START, cold, Event::Chassis];
        let found = report(&log(&events));
        assert_eq!(line(&found, "end"), format!("{answer} 1"));
        assert_eq!(line(&found, "20"), "0 - - 0");
        assert_eq!(line(&found, "42.4"), "0");
    }
    // The decoder's: 5 an unknown kind, 3 a bad temperature.
    let mut unknown = [0; RECORD_LENGTH];
    unknown[0] = 9;
    let mut hot = record(cold);
    hot[9..=10].copy_from_slice(&256i16.to_be_bytes());
    for (refused, answer) in [(unknown, 5), (hot, 3)] {
        let bytes = [&record(START)[..], &refused, &record(cold)].concat();
        assert_eq!(line(&report(&bytes), "end"), format!("{answer} 1"));
    }
}

#[test]
fn any_cutting_gives_the_report_of_the_whole() {
    let rng = &mut Rng::new(11);
    let events = [START, Event::Sample(any_sample(rng)), Event::Chassis];
    let bytes = log(&events);
    let whole = report(&bytes);
    for first in 0..=bytes.len() {
        for second in first..=bytes.len() {
            let mut cut = Report::new();
            cut.feed(&bytes[..first]);
            cut.feed(&bytes[first..second]);
            cut.feed(&bytes[second..]);
            assert_eq!(text(&cut), whole, "cut at {first} and {second}");
        }
    }
    let mut by_bytes = Report::new();
    for byte in &bytes {
        by_bytes.feed(&[*byte]);
        by_bytes.feed(&[]);
    }
    assert_eq!(text(&by_bytes), whole);
}

#[test]
fn a_day_has_100_000_records() {
    let mut day = Report::new();
    day.feed(&log(&[START]).repeat(DAY as usize));
    assert_eq!(line(&text(&day), "end"), "0 100000");
    // Up to 31 bytes more are a piece; a whole record more is 12, good or bad.
    for bytes in 1..RECORD_LENGTH {
        let mut more = day.clone();
        more.feed(&[9; RECORD_LENGTH][..bytes]);
        assert_eq!(line(&text(&more), "end"), "5 100000");
    }
    for record in [record(START), [9; RECORD_LENGTH], record(write(0x41, 0))] {
        let mut more = day.clone();
        more.feed(&record);
        assert_eq!(line(&text(&more), "end"), "12 100000");
        more.feed(&record);
        assert_eq!(line(&text(&more), "end"), "12 100000");
    }
}

#[test]
fn the_bad_record_that_is_the_days_last_has_its_own_number() {
    let mut day = Report::new();
    day.feed(&log(&[START]).repeat(DAY as usize - 1));
    day.feed(&record(write(0x41, 0)));
    assert_eq!(line(&text(&day), "end"), "2 99999");
}

/// Bytes of a record that has begun may still become one.
#[test]
fn it_is_over_at_a_refused_record_and_not_before() {
    for (refused, answer) in [(write(0x41, 0), 2), (write(0x00, 0), 1)] {
        let mut fed = Report::new();
        assert!(!fed.is_over());
        fed.feed(&record(START));
        assert!(!fed.is_over());
        let refused = record(refused);
        let (begun, last) = refused.split_at(RECORD_LENGTH - 1);
        fed.feed(begun);
        assert!(!fed.is_over());
        fed.feed(last);
        assert!(fed.is_over());
        let ended = text(&fed);
        assert_eq!(line(&ended, "end"), format!("{answer} 1"));
        fed.feed(&log(&[START, Event::Chassis]));
        fed.feed(&[1]);
        assert!(fed.is_over());
        assert_eq!(text(&fed), ended);
    }
}

/// The day's last record doesn't end it: a piece after it would be 5.
#[test]
fn it_is_over_at_the_record_after_the_days_last() {
    let mut day = Report::new();
    day.feed(&log(&[START]).repeat(DAY as usize));
    assert!(!day.is_over());
    day.feed(&[9; RECORD_LENGTH - 1]);
    assert!(!day.is_over());
    day.feed(&[9]);
    assert!(day.is_over());
}
