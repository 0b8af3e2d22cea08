//! The rows: each call in both programs, on usual inputs and on any.
//!
//! Both programs are reached in the same way, by a pointer that the optimiser
//! can't see through, so that neither is inlined into the loop or freed of work
//! that its caller doesn't use.

use crate::calls::{row, About, Measure, Own, Row, Run, Text};
use crate::common::rng::Rng;
use crate::image::Image;
use crate::inputs::{self, Part, Record, Size};
use crate::raw;
use programs::direct_plan;
use reference::w83782d::{cell, decode, Event, Monitor, Report, Sample};
use reference::Plan;
use std::hint::black_box;
use std::rc::Rc;
use w83782d::IMAGE_SIZE;

/// Goals for a single call through the image, for a replay and for a report.
const CALL: f64 = 2.0;
const REPLAY: f64 = 1.25;
const REPORT: f64 = 1.25;
/// Goal for the time of a report beside the library's own replay of the same log.
const OWN_REPLAY: f64 = 1.15;
/// Goal for the instructions of a look beside the library's own read, which does more.
const OWN_READ: f64 = 1.0;

pub fn rows(size: Size) -> Vec<Row> {
    let mut rng = Rng::new(1);
    let rng = &mut rng;
    let usual = inputs::usual_states(size);
    let any = inputs::any_states(size, rng);
    let (day_start, day) = inputs::usual_log(size, rng);
    let (any_start, any_day) = inputs::any_log(size, rng);
    let days = inputs::days(size);
    let part = (size.starts * size.calls) as usize;
    let (some, any_some) = (&day[..part.min(day.len())], &any_day[..part.min(day.len())]);

    let usual_writes = runs(&usual, size, |_| inputs::usual_write(rng));
    let any_writes = runs(&any, size, |_| inputs::any_write(rng));
    // Looks are at the indexes of the reads, from the same states.
    let usual_reads = runs(&usual, size, |monitor| {
        inputs::usual_read(rng, monitor.registers[cell(0, 0x4E)])
    });
    let any_reads = runs(&any, size, |_| inputs::any_index(rng));

    vec![
        write(Mix::Usual("write, usual"), usual_writes),
        write(Mix::Any("write, any"), any_writes),
        read(Mix::Usual("read, usual"), usual_reads.clone()),
        read(Mix::Any("read, any"), any_reads.clone()),
        sample(
            Mix::Usual("sample, usual"),
            runs(&usual, size, |_| inputs::usual_sample(rng)),
        ),
        sample(
            Mix::Any("sample, any"),
            runs(&any, size, |_| inputs::any_sample(rng)),
        ),
        set_plan(
            Mix::Usual("set_plan, usual"),
            runs(&usual, size, |_| {
                (1 + rng.below(3) as u8, inputs::usual_speed(rng))
            }),
        ),
        set_plan(
            Mix::Any("set_plan, any"),
            runs(&any, size, |_| {
                (rng.below(5) as u8, inputs::any_number(rng))
            }),
        ),
        event(
            Mix::Usual("event, usual"),
            vec![run(day_start, inputs::usual_parts(some))],
        ),
        event(
            Mix::Any("event, any"),
            vec![run(any_start, inputs::any_parts(any_some, rng))],
        ),
        decoding(
            Mix::Usual("decode, usual"),
            vec![pure(inputs::usual_parts(some))],
        ),
        decoding(
            Mix::Any("decode, any"),
            vec![pure(inputs::any_parts(any_some, rng))],
        ),
        plan(
            Mix::Usual("plan, usual"),
            (0..part).map(|_| inputs::usual_speed(rng)).collect(),
        ),
        plan(
            Mix::Any("plan, any"),
            (0..part).map(|_| inputs::any_number(rng)).collect(),
        ),
        plan_by_search((0..part).map(|_| inputs::usual_speed(rng)).collect()),
        outputs(
            Mix::Usual("outputs, usual"),
            runs(&usual, size, |_| inputs::usual_status(rng)),
        ),
        outputs(
            Mix::Any("outputs, any"),
            runs(&any, size, |_| [rng.byte(), rng.byte()]),
        ),
        look(Mix::Usual("look, usual"), "read, usual", usual_reads),
        look(Mix::Any("look, any"), "read, any", any_reads),
        replay("replay, usual day", &days.usual),
        replay("replay, any day", &days.any),
        report("report, usual day", "replay, usual day", &days.usual),
        report("report, any day", "replay, any day", &days.any),
    ]
}

// ---- Where calls start

type MonitorRun<I> = Run<Image, Monitor, I>;
type PureRun<I> = Run<(), (), I>;

fn run<I>(start: Monitor, inputs: Vec<I>) -> MonitorRun<I> {
    Run {
        library: inputs::image(&start),
        second: start,
        inputs: inputs.into(),
    }
}

/// Inputs for calls from each of the states.
fn runs<I>(
    starts: &[Monitor],
    size: Size,
    mut input: impl FnMut(&Monitor) -> I,
) -> Vec<MonitorRun<I>> {
    let mut from = |start: &Monitor| {
        let inputs = (0..size.calls).map(|_| input(start)).collect();
        run(*start, inputs)
    };
    starts.iter().map(&mut from).collect()
}

fn pure<I>(inputs: Vec<I>) -> PureRun<I> {
    Run {
        library: (),
        second: (),
        inputs: inputs.into(),
    }
}

/// Usual calls are all accepted.
enum Mix {
    Usual(&'static str),
    Any(&'static str),
}

impl Mix {
    fn about(self, second: &'static str) -> About {
        let (name, all_accepted) = match self {
            Mix::Usual(name) => (name, true),
            Mix::Any(name) => (name, false),
        };
        About {
            name,
            second,
            goal: Some(CALL),
            own: None,
            all_accepted,
            weight: 1,
        }
    }
}

// ---- Bus accesses and samples

fn write(mix: Mix, runs: Vec<MonitorRun<(u8, u8)>>) -> Row {
    type Library = unsafe extern "C" fn(*mut u8, usize, u8, u8) -> u8;
    let library = black_box(raw::w83782d_write as Library);
    let second = black_box(Monitor::write as fn(&mut Monitor, u8, u8) -> u8);
    row(
        mix.about("Monitor::write"),
        runs,
        // SAFETY: pointer and length are those of the image.
        move |image, &(index, value)| unsafe {
            library(image.as_mut_ptr(), IMAGE_SIZE, index, value)
        },
        move |monitor, &(index, value)| second(monitor, index, value),
    )
}

fn read(mix: Mix, runs: Vec<MonitorRun<u8>>) -> Row {
    type Library = unsafe extern "C" fn(*mut u8, usize, u8) -> u16;
    let library = black_box(raw::w83782d_read as Library);
    let second = black_box(Monitor::read as fn(&mut Monitor, u8) -> (u8, u8));
    row(
        mix.about("Monitor::read"),
        runs,
        // SAFETY: pointer and length are those of the image.
        move |image, &index| unsafe { library(image.as_mut_ptr(), IMAGE_SIZE, index) },
        move |monitor, &index| second(monitor, index),
    )
}

fn look(mix: Mix, read: &'static str, runs: Vec<MonitorRun<u8>>) -> Row {
    type Library = unsafe extern "C" fn(*const u8, usize, u8) -> u16;
    let library = black_box(raw::w83782d_look as Library);
    let second = black_box(Monitor::look as fn(&Monitor, u8) -> (u8, u8));
    let about = About {
        own: Some(Own {
            row: read,
            goal: OWN_READ,
            measure: Measure::Instructions,
        }),
        ..mix.about("Monitor::look")
    };
    row(
        about,
        runs,
        // SAFETY: pointer and length are those of the image.
        move |image, &index| unsafe { library(image.as_ptr(), IMAGE_SIZE, index) },
        move |monitor, &index| second(monitor, index),
    )
}

fn sample(mix: Mix, runs: Vec<MonitorRun<Sample>>) -> Row {
    type Library =
        unsafe extern "C" fn(*mut u8, usize, *const u8, usize, i8, i16, i16, u32, u32, u32) -> u8;
    let library = black_box(raw::w83782d_sample as Library);
    let second = black_box(Monitor::sample as fn(&mut Monitor, &Sample) -> u8);
    row(
        mix.about("Monitor::sample"),
        runs,
        // SAFETY: each pointer and the length after it are those of an array.
        move |image, sample| unsafe {
            library(
                image.as_mut_ptr(),
                IMAGE_SIZE,
                sample.codes.as_ptr(),
                sample.codes.len(),
                sample.t1,
                sample.t2,
                sample.t3,
                sample.u[0],
                sample.u[1],
                sample.u[2],
            )
        },
        second,
    )
}

/// What a host asks after every event: alarms, SMI and OVT, with status bytes of its own
/// each time. Storing these is part of both columns.
fn outputs(mix: Mix, runs: Vec<MonitorRun<[u8; 2]>>) -> Row {
    type Library = unsafe extern "C" fn(*const u8, usize) -> u32;
    let library = black_box(raw::w83782d_outputs as Library);
    let second = black_box(all_outputs as fn(&Monitor) -> Outputs);
    row(
        mix.about("Monitor::standing_alarms, smi, ovt"),
        runs,
        // SAFETY: pointer and length are those of the image.
        move |image, &[first, second]| unsafe {
            image[STATUS] = first;
            image[STATUS + 1] = second;
            library(image.as_ptr(), IMAGE_SIZE)
        },
        move |monitor, &[first, other]| {
            monitor.registers[STATUS] = first;
            monitor.registers[STATUS + 1] = other;
            second(monitor)
        },
    )
}

/// 41h, before 42h.
const STATUS: usize = cell(0, 0x41);

/// Alarms, SMI, OVT of sensors 2 and 3.
type Outputs = (u32, bool, bool, bool);

fn all_outputs(monitor: &Monitor) -> Outputs {
    (
        monitor.standing_alarms(),
        monitor.smi(),
        monitor.ovt(2),
        monitor.ovt(3),
    )
}

// ---- Plans
//
// The second program's planner tries 2,040 plans: it is there to be believed, and
// no measure of what a plan costs. So the rows that count use its other one,
// `Plan::of`, which tries the best limit of each divisor.

const LIMIT: [usize; 3] = [cell(0, 0x3B), cell(0, 0x3C), cell(0, 0x3D)];
/// The divisor's low two bits, and the cell of its top one: a cell and a bit.
const LOW: [(usize, u8); 3] = [(cell(0, 0x47), 4), (cell(0, 0x47), 6), (cell(0, 0x4B), 6)];
const TOP: usize = cell(0, 0x5D);

/// `Monitor::set_plan` with `Plan::of` in place of the search.
fn direct_set_plan(monitor: &mut Monitor, fan: u8, rpm: u32) -> u8 {
    if !(1..=3).contains(&fan) {
        return 7;
    }
    let Some(plan) = direct_plan(rpm) else {
        return 6;
    };
    let place = usize::from(fan) - 1;
    let registers = &mut monitor.registers;
    registers[LIMIT[place]] = plan.limit;
    let (low, bit) = LOW[place];
    registers[low] = registers[low] & !(0x03 << bit) | (plan.k & 0x03) << bit;
    registers[TOP] = registers[TOP] & !(0x20 << place) | (plan.k >> 2) << (5 + place);
    0
}

fn plan(mix: Mix, speeds: Vec<u32>) -> Row {
    let library = black_box(raw::w83782d_plan as unsafe extern "C" fn(u32) -> u32);
    let second = black_box(direct_plan as fn(u32) -> Option<Plan>);
    row(
        mix.about("Plan::of, one limit tried for each divisor"),
        vec![pure(speeds)],
        // SAFETY: takes and returns numbers only.
        move |(), &rpm| unsafe { library(rpm) },
        move |(), &rpm| second(rpm),
    )
}

fn plan_by_search(speeds: Vec<u32>) -> Row {
    let library = black_box(raw::w83782d_plan as unsafe extern "C" fn(u32) -> u32);
    let second = black_box(reference::plan as fn(u32) -> (u8, u32, u8));
    let about = About {
        goal: None,
        ..Mix::Usual("plan, by search").about("plan, all 255 limits tried for each divisor")
    };
    row(
        about,
        vec![pure(speeds)],
        // SAFETY: takes and returns numbers only.
        move |(), &rpm| unsafe { library(rpm) },
        move |(), &rpm| second(rpm),
    )
}

fn set_plan(mix: Mix, runs: Vec<MonitorRun<(u8, u32)>>) -> Row {
    type Library = unsafe extern "C" fn(*mut u8, usize, u8, u32) -> u8;
    let library = black_box(raw::w83782d_set_plan as Library);
    let second = black_box(direct_set_plan as fn(&mut Monitor, u8, u32) -> u8);
    row(
        mix.about("as Monitor::set_plan, with Plan::of"),
        runs,
        // SAFETY: pointer and length are those of the image.
        move |image, &(fan, rpm)| unsafe { library(image.as_mut_ptr(), IMAGE_SIZE, fan, rpm) },
        move |monitor, &(fan, rpm)| second(monitor, fan, rpm),
    )
}

// ---- Records

fn decoding(mix: Mix, runs: Vec<PureRun<Part>>) -> Row {
    let library = black_box(raw::w83782d_decode as unsafe extern "C" fn(*const u8, usize) -> u8);
    let second = black_box(decode as fn(&[u8]) -> Result<Event, u8>);
    row(
        mix.about("decode, its event left in memory"),
        runs,
        // SAFETY: the bytes are as many as the length, or more.
        move |(), part| unsafe { library(part.bytes.as_ptr(), part.length) },
        move |(), part| second(&part.bytes[..part.length]),
    )
}

/// `decode`, then `Monitor::apply`.
fn decode_and_apply(monitor: &mut Monitor, record: &[u8]) -> (u8, u8) {
    match decode(record) {
        Ok(event) => match monitor.apply(&event) {
            (0, byte) => (0, byte),
            (answer, _) => (answer, 0),
        },
        Err(answer) => (answer, 0),
    }
}

fn event(mix: Mix, runs: Vec<MonitorRun<Part>>) -> Row {
    type Library = unsafe extern "C" fn(*mut u8, usize, *const u8, usize) -> u16;
    let library = black_box(raw::w83782d_event as Library);
    let second = black_box(decode_and_apply as fn(&mut Monitor, &[u8]) -> (u8, u8));
    row(
        mix.about("decode, then Monitor::apply"),
        runs,
        // SAFETY: as many bytes as each length says, or more.
        move |image, part| unsafe {
            library(
                image.as_mut_ptr(),
                IMAGE_SIZE,
                part.bytes.as_ptr(),
                part.length,
            )
        },
        move |monitor, part| second(monitor, &part.bytes[..part.length]),
    )
}

/// A day's log from power-on, in one call.
fn replay(name: &'static str, records: &[Record]) -> Row {
    type Library = unsafe extern "C" fn(*mut u8, usize, *const u8, usize) -> u64;
    let library = black_box(raw::w83782d_replay as Library);
    let second = black_box(Monitor::replay as fn(&mut Monitor, &[u8]) -> (u8, u64));
    let about = About {
        goal: Some(REPLAY),
        weight: records.len() as u64,
        ..Mix::Usual(name).about("Monitor::replay")
    };
    let log: Rc<[u8]> = records.as_flattened().into();
    row(
        about,
        vec![run(Monitor::power_on(), vec![log])],
        // SAFETY: each pointer and the length after it are those of a slice.
        move |image, log| unsafe {
            library(image.as_mut_ptr(), IMAGE_SIZE, log.as_ptr(), log.len())
        },
        move |monitor, log| second(monitor, log),
    )
}

// ---- Reports

extern "C" {
    /// From crates/w83782d_report_c: no header has it.
    fn w83782d_report(log: *const u8, length: usize, text: *mut u8, room: usize) -> usize;
}

/// The second program's report of a whole log, as text.
fn report_of(log: &[u8], text: &mut [u8]) -> usize {
    let room = text.len();
    let mut rest = text;
    let mut report = Report::new();
    report.feed(log);
    report
        .write(&mut rest)
        .expect("there is room for its lines");
    room - rest.len()
}

/// A day's log from power-on, in one call.
fn report(name: &'static str, replay: &'static str, records: &[Record]) -> Row {
    type Library = unsafe extern "C" fn(*const u8, usize, *mut u8, usize) -> usize;
    let library = black_box(w83782d_report as Library);
    let second = black_box(report_of as fn(&[u8], &mut [u8]) -> usize);
    let about = About {
        goal: Some(REPORT),
        own: Some(Own {
            row: replay,
            goal: OWN_REPLAY,
            measure: Measure::Time,
        }),
        weight: records.len() as u64,
        ..Mix::Usual(name).about("Report, fed with the whole log")
    };
    let text: Text = [0; 4096];
    let log: Rc<[u8]> = records.as_flattened().into();
    let run = Run {
        library: text,
        second: text,
        inputs: vec![log].into(),
    };
    row(
        about,
        vec![run],
        // SAFETY: each pointer and the length after it are those of a slice.
        move |text: &mut Text, log| unsafe {
            library(log.as_ptr(), log.len(), text.as_mut_ptr(), text.len())
        },
        move |text: &mut Text, log| second(log, text),
    )
}
