//! Random events, and what the second program makes of them.
#![allow(dead_code)]

#[path = "../../../tests/common/rng.rs"]
pub mod rng;

use reference::w83782d::{write_record, Event, Sample, RECORD_LENGTH};
use rng::Rng;

/// The record of an event by the second program.
pub fn record(event: &Event) -> [u8; RECORD_LENGTH] {
    let mut bytes = [0xEE; RECORD_LENGTH];
    assert_eq!(write_record(event, &mut bytes), 0);
    bytes
}

/// The log of events by the second program.
pub fn log(events: &[Event]) -> Vec<u8> {
    events.iter().flat_map(record).collect()
}

pub fn any_event(rng: &mut Rng) -> Event {
    match rng.below(4) {
        0 => Event::Write {
            index: rng.byte(),
            value: rng.byte(),
        },
        1 => Event::Read { index: rng.byte() },
        2 => Event::Chassis,
        _ => Event::Sample(any_sample(rng)),
    }
}

/// Sensors 2 and 3 in their range, its ends often; counts of every length.
pub fn any_sample(rng: &mut Rng) -> Sample {
    Sample {
        codes: [0; 7].map(|_| rng.byte()),
        t1: rng.byte() as i8,
        t2: any_half_degrees(rng),
        t3: any_half_degrees(rng),
        u: [0; 3].map(|_| ((rng.next() >> 32) >> rng.below(33)) as u32),
    }
}

fn any_half_degrees(rng: &mut Rng) -> i16 {
    if rng.one_in(4) {
        return rng.pick(&[-256, -255, -2, -1, 0, 1, 254, 255]);
    }
    rng.below(512) as i16 - 256
}

/// The line of an event as the head of the tool's library says, made here by
/// floating-point degrees: each half degree is exact in them.
pub fn line(event: &Event) -> String {
    match event {
        Event::Write { index, value } => format!("write {index:02X} {value:02X}"),
        Event::Read { index } => format!("read {index:02X}"),
        Event::Chassis => "chassis".into(),
        Event::Sample(Sample {
            codes: c,
            t1,
            t2,
            t3,
            u,
        }) => format!(
            "sample codes {} {} {} {} {} {} {} temps {t1} {:.1} {:.1} counts {} {} {}",
            c[0],
            c[1],
            c[2],
            c[3],
            c[4],
            c[5],
            c[6],
            f64::from(*t2) / 2.0,
            f64::from(*t3) / 2.0,
            u[0],
            u[1],
            u[2]
        ),
    }
}

/// The script of events, one line each.
pub fn script(events: &[Event]) -> String {
    events.iter().map(|event| line(event) + "\n").collect()
}
