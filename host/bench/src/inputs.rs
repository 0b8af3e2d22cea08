//! What both programs are given, from a generator with fixed seeds.
//!
//! "Usual" is what a cabinet sees: limits set, readings near their middle, a host
//! that polls. "Any" is any number from any state, refused calls among them.

use crate::common::rng::Rng;
use crate::image::{image_of, random, state_in};
use reference::w83782d::{cell, write_record, Event, Monitor, Sample, RECORD_LENGTH};

/// How much of it.
#[derive(Clone, Copy)]
pub struct Size {
    /// States that a row starts from, and calls from each.
    pub starts: u64,
    pub calls: u64,
    /// Records of a log.
    pub records: usize,
}

impl Size {
    /// What is measured: a day is 100,000 records.
    pub const WHOLE: Size = Size {
        starts: 16,
        calls: 1024,
        records: 100_000,
    };
    /// Enough to see that both programs agree.
    #[cfg(test)]
    pub const SMALL: Size = Size {
        starts: 8,
        calls: 256,
        records: 4_000,
    };
}

pub type Record = [u8; RECORD_LENGTH];

/// Bytes lent to the decoder, of any length up to 40.
#[derive(Debug)]
pub struct Part {
    pub bytes: [u8; 40],
    pub length: usize,
}

// ---- States

/// Codes of a cabinet's rails in order, and speeds of its fans.
const MIDDLE: [u8; 7] = [112, 150, 206, 186, 197, 35, 90];
const SPEEDS: [u32; 3] = [4_400, 3_000, 2_200];

/// A cabinet's monitor: limits around the middle of each reading, alarms on the
/// fans, SMI on, a bank selected.
fn cabinet(bank: u8) -> Monitor {
    let mut monitor = Monitor::power_on();
    let mut write = |index, value| assert_eq!(monitor.write(index, value), 0);
    for (channel, code) in (0..).zip(MIDDLE) {
        write(0x2B + 2 * channel, code + code / 10);
        write(0x2C + 2 * channel, code - code / 10);
    }
    write(0x39, 60);
    write(0x3A, 55);
    for sensor in 1..=2 {
        write(0x4E, sensor);
        // Interrupt mode of OVT on sensor 3.
        write(0x52, sensor & 0x02);
        write(0x53, 70);
        write(0x55, 75);
    }
    write(0x40, 0x03);
    write(0x4E, bank);
    for (fan, speed) in (1..).zip(SPEEDS) {
        assert_eq!(monitor.set_plan(fan, speed - speed / 5), 0);
    }
    monitor
}

/// The banks that have registers.
const BANKS: [u8; 4] = [0, 1, 2, 4];

pub fn usual_states(size: Size) -> Vec<Monitor> {
    let bank = |n| BANKS[n as usize % BANKS.len()];
    (0..size.starts).map(|n| cabinet(bank(n))).collect()
}

/// Any cells, any marks; mostly monitoring, in a bank that has registers.
pub fn any_states(size: Size, rng: &mut Rng) -> Vec<Monitor> {
    let mut any = |n| {
        let mut image = random(rng);
        if n % 4 != 3 {
            let configuration = &mut image[cell(0, 0x40)];
            *configuration = *configuration & 0xF7 | 0x01;
            let select = &mut image[cell(0, 0x4E)];
            *select = *select & 0xF8 | rng.pick(&BANKS);
        }
        state_in(&image)
    };
    (0..size.starts).map(&mut any).collect()
}

// ---- Accesses

/// A limit, a divisor, a mask, a duty, a bank.
pub fn usual_write(rng: &mut Rng) -> (u8, u8) {
    match rng.below(8) {
        0..=2 => (0x4E, rng.pick(&BANKS)),
        3..=5 => (0x2B + rng.below(19) as u8, rng.byte()),
        6 => (rng.pick(&[0x47, 0x4B]), rng.byte()),
        _ => (rng.pick(&[0x43, 0x44, 0x46, 0x4A, 0x4D]), rng.byte()),
    }
}

pub fn any_write(rng: &mut Rng) -> (u8, u8) {
    (any_index(rng), rng.byte())
}

/// A reading, a status, a limit; a sensor's or a real-time byte of the bank.
pub fn usual_read(rng: &mut Rng, bank: u8) -> u8 {
    match rng.below(8) {
        0..=2 => 0x20 + rng.below(11) as u8,
        3 | 4 => rng.pick(&[0x41, 0x42]),
        5 => 0x2B + rng.below(19) as u8,
        _ => match bank {
            0 => rng.pick(&[0x58, 0x5A, 0x5B, 0x5D]),
            4 => rng.pick(&[0x59, 0x5A]),
            _ => 0x50 + rng.below(7) as u8,
        },
    }
}

/// Mostly where there are registers.
pub fn any_index(rng: &mut Rng) -> u8 {
    if rng.one_in(4) {
        return rng.byte();
    }
    0x20 + rng.below(0x60) as u8
}

// ---- Samples

/// Readings near their middle; one in a hundred is out of its limits.
pub fn usual_sample(rng: &mut Rng) -> Sample {
    let codes = MIDDLE.map(|code| match rng.below(100) {
        0 => code + 30,
        _ => code - 2 + rng.below(5) as u8,
    });
    let mut degrees = |middle: i16| match rng.below(100) {
        0 => middle + 40,
        _ => middle + rng.below(9) as i16,
    };
    let (t1, t2, t3) = (degrees(40) as i8, degrees(100), degrees(105));
    let u = SPEEDS.map(|speed| match rng.below(100) {
        0 => u32::MAX,
        _ => 1_350_000 / speed + rng.below(9) as u32,
    });
    Sample {
        codes,
        t1,
        t2,
        t3,
        u,
    }
}

/// One in eight may have a bad temperature.
pub fn any_sample(rng: &mut Rng) -> Sample {
    let mut codes = [0; 7];
    codes.fill_with(|| rng.byte());
    let mut half_degrees = || match rng.below(16) {
        0 => rng.next() as i16,
        _ => rng.below(512) as i16 - 256,
    };
    let (t2, t3) = (half_degrees(), half_degrees());
    Sample {
        codes,
        t1: rng.byte() as i8,
        t2,
        t3,
        u: [(); 3].map(|()| any_number(rng)),
    }
}

// ---- Status

/// 41h and 42h: mostly no alarm, else one.
pub fn usual_status(rng: &mut Rng) -> [u8; 2] {
    match rng.below(8) {
        0 => [1 << rng.below(8), 0],
        1 => [0, 1 << rng.below(6)],
        _ => [0, 0],
    }
}

// ---- Speeds

pub fn usual_speed(rng: &mut Rng) -> u32 {
    300 + rng.below(11_701) as u32
}

/// Of every size: 0 and above 1,350,000 among them.
pub fn any_number(rng: &mut Rng) -> u32 {
    rng.next() as u32 >> rng.below(32)
}

// ---- Records

fn record(event: &Event) -> Record {
    let mut record = [0; RECORD_LENGTH];
    assert_eq!(write_record(event, &mut record), 0);
    record
}

/// A log, all of it accepted from the state that it is written for.
struct Log {
    monitor: Monitor,
    records: Vec<Record>,
}

impl Log {
    fn from(monitor: Monitor) -> Log {
        Log {
            monitor,
            records: Vec::new(),
        }
    }

    /// Adds an event, if the monitor takes it.
    fn add(&mut self, event: Event) -> bool {
        let accepted = self.monitor.apply(&event).0 == 0;
        if accepted {
            self.records.push(record(&event));
        }
        accepted
    }

    fn read(&mut self, index: u8) {
        assert!(self.add(Event::Read { index }));
    }

    fn write(&mut self, index: u8, value: u8) {
        assert!(self.add(Event::Write { index, value }));
    }

    /// What a host reads: status, readings, the two sensors in their banks.
    fn poll(&mut self) {
        (0x41..=0x42).for_each(|index| self.read(index));
        (0x20..=0x2A).for_each(|index| self.read(index));
        for bank in 1..=2 {
            self.write(0x4E, bank);
            (0x50..=0x51).for_each(|index| self.read(index));
        }
        self.write(0x4E, 0);
    }
}

/// A cabinet's day and where it starts: a sample every two seconds, a poll every
/// half minute, now and then a limit written anew or the chassis opened.
pub fn usual_log(size: Size, rng: &mut Rng) -> (Monitor, Vec<Record>) {
    let start = cabinet(0);
    let mut log = Log::from(start);
    while log.records.len() < size.records {
        for _ in 0..15 {
            assert!(log.add(Event::Sample(usual_sample(rng))));
        }
        log.poll();
        if rng.one_in(10) {
            let channel = rng.below(7) as u8;
            log.write(0x2B + 2 * channel, MIDDLE[usize::from(channel)] + 10);
        }
        if rng.one_in(500) {
            log.add(Event::Chassis);
            log.write(0x46, 0x80);
        }
    }
    log.records.truncate(size.records);
    (start, log.records)
}

/// Days of which a replay and a report are measured, all of them accepted from power-on.
pub struct Days {
    pub usual: Vec<Record>,
    pub any: Vec<Record>,
}

pub fn days(size: Size) -> Days {
    let mut rng = Rng::new(2);
    let usual = usual_day(size, &mut rng);
    let any = any_log(size, &mut rng).1;
    for day in [&usual, &any] {
        let answer = Monitor::power_on().replay(day.as_flattened());
        assert_eq!(answer, (0, size.records as u64));
    }
    Days { usual, any }
}

/// A cabinet's day from power-on: what sets the cabinet up comes first.
fn usual_day(size: Size, rng: &mut Rng) -> Vec<Record> {
    let (start, records) = usual_log(size, rng);
    let mut day = set_up(&start);
    day.extend(records);
    day.truncate(size.records);
    day
}

/// The writes that bring a monitor from power-on to this one.
fn set_up(wanted: &Monitor) -> Vec<Record> {
    let mut log = Log::from(Monitor::power_on());
    // Bank 0 last: it stays selected.
    for (bank, indexes) in [(1, 0x50..=0x56), (2, 0x50..=0x56), (0, 0x20..=0x5F)] {
        log.write(0x4E, bank);
        for index in indexes {
            let cell = cell(bank, index);
            if log.monitor.registers[cell] != wanted.registers[cell] {
                log.write(index, wanted.registers[cell]);
            }
        }
    }
    assert_eq!(log.monitor, *wanted);
    log.records
}

/// Any events that are accepted; few of them chassis events, which cost next to
/// nothing. A write to 40h may stop the samples until the next.
pub fn any_log(size: Size, rng: &mut Rng) -> (Monitor, Vec<Record>) {
    let start = Monitor::power_on();
    let mut log = Log::from(start);
    while log.records.len() < size.records {
        let event = match rng.below(16) {
            0..=4 => {
                let (index, value) = any_write(rng);
                // Three in four go on monitoring.
                let value = match index {
                    0x40 if !rng.one_in(4) => value & 0xF7 | 0x01,
                    _ => value,
                };
                Event::Write { index, value }
            }
            5..=9 => Event::Read {
                index: any_index(rng),
            },
            10..=14 => Event::Sample(any_sample(rng)),
            _ => Event::Chassis,
        };
        log.add(event);
    }
    (start, log.records)
}

/// Records as they are.
pub fn usual_parts(records: &[Record]) -> Vec<Part> {
    records.iter().map(|record| part(record, 32)).collect()
}

/// Half of the records damaged in a byte, one in sixteen of another length.
pub fn any_parts(records: &[Record], rng: &mut Rng) -> Vec<Part> {
    let mut damaged = |record: &Record| {
        let mut record = *record;
        if rng.one_in(2) {
            record[rng.below(32) as usize] = rng.byte();
        }
        let length = match rng.below(16) {
            0 => rng.below(41) as usize,
            _ => 32,
        };
        part(&record, length)
    };
    records.iter().map(&mut damaged).collect()
}

fn part(record: &Record, length: usize) -> Part {
    let mut bytes = [0; 40];
    bytes[..RECORD_LENGTH].copy_from_slice(record);
    Part { bytes, length }
}

/// The library's image of a state.
pub fn image(monitor: &Monitor) -> crate::image::Image {
    image_of(monitor, &[0; 8])
}
