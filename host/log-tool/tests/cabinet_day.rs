//! The bundled day of a cabinet, `examples/cabinet-day.script` and its log: what
//! its comments say is what the second program does.

use reference::w83782d::{decode, Event, Monitor};
use std::fs;
use std::path::Path;
use w83782d_log::{pack, unpack};

/// Bits of 41h with those of 42h above them.
const SENSOR_2: u16 = 1 << 5;
const FAN_1: u16 = 1 << 6;
const OTHER_FANS: u16 = 1 << 7 | 1 << 11;
const CHASSIS: u16 = 1 << 12;

fn bundled(name: &str) -> Vec<u8> {
    let examples = Path::new(env!("CARGO_MANIFEST_DIR")).join("../../examples");
    fs::read(examples.join(name)).expect(name)
}

fn script() -> String {
    String::from_utf8(bundled("cabinet-day.script")).unwrap()
}

fn log() -> Vec<u8> {
    bundled("cabinet-day.log")
}

/// What the second program shows of one record.
struct Step {
    event: Event,
    answer: u8,
    byte: u8,
    after: Monitor,
}

fn steps() -> Vec<Step> {
    let mut monitor = Monitor::power_on();
    let step = |record: &[u8]| {
        let event = decode(record).expect("every record holds an event");
        let (answer, byte) = monitor.apply(&event);
        Step {
            event,
            answer,
            byte,
            after: monitor,
        }
    };
    log().chunks(32).map(step).collect()
}

/// Event and comment of each line with an event; the record's number is its place.
fn lines() -> Vec<(String, String)> {
    let script = script();
    let parts = script.lines().map(|line| {
        let (event, comment) = line.split_once('#').unwrap_or((line, ""));
        (event.trim().to_string(), comment.trim().to_string())
    });
    parts.filter(|(event, _)| !event.is_empty()).collect()
}

/// 41h and 42h, or the real-time bits, as one number.
fn status(monitor: &Monitor) -> u16 {
    u16::from_le_bytes([monitor.look(0x41).1, monitor.look(0x42).1])
}

fn real_time(monitor: &Monitor) -> u16 {
    let mut monitor = *monitor;
    assert_eq!(monitor.write(0x4E, 0x84), 0);
    u16::from_le_bytes([monitor.look(0x59).1, monitor.look(0x5A).1])
}

/// The records after which this holds and before which it didn't.
fn starts(steps: &[Step], holds: impl Fn(&Monitor) -> bool) -> Vec<usize> {
    let mut before = false;
    let mut starts = Vec::new();
    for (n, step) in steps.iter().enumerate() {
        let now = holds(&step.after);
        if now && !before {
            starts.push(n);
        }
        before = now;
    }
    starts
}

#[test]
fn the_log_is_the_script_packed() {
    let log = log();
    assert_eq!(pack(script().as_bytes()).unwrap(), log);
    assert_eq!(pack(unpack(&log).unwrap().as_bytes()).unwrap(), log);
    assert_eq!(lines().len(), log.len() / 32);
}

#[test]
fn every_record_is_accepted() {
    let steps = steps();
    assert!(steps.iter().all(|step| step.answer == 0));
    // By the proved library too.
    let replay = w83782d::Monitor::power_on().replay(&log());
    assert_eq!((replay.end, replay.accepted), (Ok(()), steps.len() as u64));
}

#[test]
fn the_planned_alarm_rings_first_at_the_record_that_the_comment_says() {
    let script = script();
    let (_, said) = script.split_once("rings first here, at record ").unwrap();
    let digits: String = said.chars().take_while(char::is_ascii_digit).collect();
    let n: usize = digits.parse().unwrap();
    let steps = steps();
    // It recovers at 17:40, and is slow again eight records after the first.
    assert_eq!(starts(&steps, |m| real_time(m) & FAN_1 != 0), [n, n + 8]);
    // The comment stands above the line of that record.
    let next = said
        .lines()
        .find(|line| line.starts_with("sample"))
        .unwrap();
    assert!(next.starts_with(&lines()[n].0), "{next}");
    // "d 2, L 152, u 306 rings and 305 doesn't."
    let u_of_fan_1 = |step: &Step| match step.event {
        Event::Sample(sample) => sample.u[0],
        _ => panic!("no sample"),
    };
    assert_eq!([n - 1, n].map(|n| u_of_fan_1(&steps[n])), [305, 306]);
    assert!(!steps[n - 1].after.smi() && steps[n].after.smi());
    assert_eq!(status(&steps[n].after), FAN_1);
}

#[test]
fn no_other_fan_rings_all_day() {
    for step in steps() {
        assert_eq!(status(&step.after) & OTHER_FANS, 0);
        assert_eq!(real_time(&step.after) & OTHER_FANS, 0);
    }
}

/// The writes before the first sample set what setting each plan would set.
#[test]
fn the_writes_set_the_plans_of_the_three_fans() {
    let steps = steps();
    let sample = |step: &Step| matches!(step.event, Event::Sample(_));
    let first = steps.iter().position(sample).unwrap();
    let written = steps[first - 1].after;
    let mut planned = written;
    for (fan, rpm) in [(1, 4_400), (2, 2_000), (3, 1_000)] {
        assert_eq!(planned.set_plan(fan, rpm), 0);
    }
    assert_eq!(planned, written);
    // Fan 1's bits are written last, and fan 2's beside them stay.
    let last = |line: &(String, String)| line.0.starts_with("write 47 ");
    let n = lines().iter().rposition(last).unwrap();
    let [before, after] = [n - 1, n].map(|n| steps[n].after.look(0x47).1);
    assert_eq!(before & 0xC0, after & 0xC0);
}

#[test]
fn each_read_gives_the_byte_of_its_comment() {
    let (lines, steps) = (lines(), steps());
    let mut reads = 0;
    for ((line, comment), step) in lines.iter().zip(&steps) {
        if let Event::Read { .. } = step.event {
            let said = format!("{:02X}h", step.byte);
            assert!(comment.starts_with(&said), "{line} # {comment}: {said}");
            reads += 1;
        }
    }
    assert!(reads >= 10);
}

#[test]
fn a_sample_comes_every_ten_minutes_from_6_to_18() {
    let samples = lines();
    let times = samples
        .iter()
        .filter(|(event, _)| event.starts_with("sample"))
        .map(|(_, time)| time.clone());
    let expected = (6 * 60..=18 * 60)
        .step_by(10)
        .map(|minutes| format!("{:02}:{:02}", minutes / 60, minutes % 60));
    assert!(times.eq(expected));
}

/// Sensor 2 above and below again, the opened chassis, and at last fan 1: nothing
/// else rings, and OVT is asserted while sensor 2 is hot.
#[test]
fn what_rings_is_what_the_comments_tell() {
    let steps = steps();
    let rung = |bits: u16| starts(&steps, |m| status(m) & bits != 0).len();
    assert_eq!(rung(SENSOR_2), 2);
    assert_eq!(rung(CHASSIS), 1);
    // At 17:20; and at 17:40, after the poll, when the fan recovers. Not while it stays
    // slow.
    assert_eq!(rung(FAN_1), 2);
    let slow = starts(&steps, |m| real_time(m) & FAN_1 != 0);
    let recovered = starts(&steps[slow[0]..], |m| real_time(m) & FAN_1 == 0);
    let latched = starts(&steps, |m| status(m) & FAN_1 != 0);
    assert_eq!(latched, [slow[0], slow[0] + recovered[0]]);
    assert_eq!(rung(!(SENSOR_2 | CHASSIS | FAN_1)), 0);

    let hot = starts(&steps, |m| status(m) & SENSOR_2 != 0);
    assert_eq!(starts(&steps, |m| m.ovt(2)), [hot[0]]);
    let released = starts(&steps[hot[0]..], |m| !m.ovt(2));
    assert_eq!(released, [hot[1] - hot[0]]);
    assert!(steps.iter().all(|step| !step.after.ovt(3)));
}

#[test]
fn the_alarm_stands_at_the_end() {
    let last = steps().pop().unwrap().after;
    assert_eq!(status(&last), FAN_1);
    assert_eq!(last.standing_alarms(), 1);
    assert!(last.smi() && !last.ovt(2) && !last.ovt(3));
}
