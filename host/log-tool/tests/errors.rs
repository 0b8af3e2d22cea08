//! What is wrong with a script or a log is told with its place and its reason.

mod common;

use common::rng::Rng;
use common::{any_event, log, record};
use reference::w83782d::{decode, record_at, Event, RECORD_LENGTH};
use w83782d_log::{pack, unpack, Fault};

/// What is told of a line that stands third, below a comment and an event.
fn told_of(line: &str) -> String {
    let script = format!("# one\nread 41\n{line}\nread 42\n");
    pack(script.as_bytes()).unwrap_err().to_string()
}

#[test]
fn each_wrong_line_is_told_with_its_number_and_reason() {
    for (line, expected) in [
        (
            "writ 47 50",
            "'writ' is no event: write, read, chassis or sample",
        ),
        (
            "WRITE 47 50",
            "'WRITE' is no event: write, read, chassis or sample",
        ),
        ("write", "write takes an index and a value, in hex"),
        ("write 47", "write takes an index and a value, in hex"),
        ("write 47 # 50", "write takes an index and a value, in hex"),
        ("write 47 50 60", "write takes an index and a value, in hex"),
        ("write 4G 50", "index '4G' is not two hex digits"),
        ("write 147 50", "index '147' is not two hex digits"),
        ("write 47 5", "value '5' is not two hex digits"),
        ("write 47 50h", "value '50h' is not two hex digits"),
        ("write 47 0x50", "value '0x50' is not two hex digits"),
        ("write 47 +5", "value '+5' is not two hex digits"),
        ("write 47 é", "value 'é' is not two hex digits"),
        ("read", "read takes an index, in hex"),
        ("read 41 42", "read takes an index, in hex"),
        ("read 4", "index '4' is not two hex digits"),
        ("chassis opened", "chassis takes nothing"),
    ] {
        assert_eq!(told_of(line), format!("line 3: {expected}"), "{line}");
    }
}

/// A sample with one word of a good one changed.
fn sample_with(place: usize, word: &str) -> String {
    let good = "sample codes 100 94 206 186 197 35 54 temps 35 40.0 41.5 counts 270 540 1038";
    let mut words: Vec<&str> = good.split(' ').collect();
    assert!(pack(words.join(" ").as_bytes()).is_ok());
    words[place] = word;
    words.join(" ")
}

#[test]
fn each_wrong_number_of_a_sample_is_told_with_its_place() {
    let degrees = "is not a number of degrees with .0 or .5";
    for (place, word, expected) in [
        (2, "256", "code '256' of VCOREA is not 0 to 255".into()),
        (3, "-1", "code '-1' of VINR0 is not 0 to 255".into()),
        (4, "3.3", "code '3.3' of +3.3 is not 0 to 255".into()),
        (5, "BA", "code 'BA' of +5 is not 0 to 255".into()),
        (6, "+197", "code '+197' of +12 is not 0 to 255".into()),
        (7, "1000", "code '1000' of -12 is not 0 to 255".into()),
        (8, "-", "code '-' of -5 is not 0 to 255".into()),
        (10, "128", whole_degrees("128")),
        (10, "-129", whole_degrees("-129")),
        (10, "35.0", whole_degrees("35.0")),
        (11, "40.3", format!("sensor 2 at '40.3' {degrees}")),
        (11, "40.", format!("sensor 2 at '40.' {degrees}")),
        (11, ".5", format!("sensor 2 at '.5' {degrees}")),
        (11, "-.5", format!("sensor 2 at '-.5' {degrees}")),
        (12, "--1.5", format!("sensor 3 at '--1.5' {degrees}")),
        (12, "+1.5", format!("sensor 3 at '+1.5' {degrees}")),
        (12, "40.50", format!("sensor 3 at '40.50' {degrees}")),
        (12, "warm", format!("sensor 3 at 'warm' {degrees}")),
        (
            14,
            "-1",
            "count '-1' of fan 1 is not 0 to 4294967295".into(),
        ),
        (
            15,
            "4294967296",
            "count '4294967296' of fan 2 is not 0 to 4294967295".into(),
        ),
        (
            16,
            "1e3",
            "count '1e3' of fan 3 is not 0 to 4294967295".into(),
        ),
    ] {
        let line = sample_with(place, word);
        assert_eq!(told_of(&line), format!("line 3: {expected}"), "{line}");
    }
}

fn whole_degrees(word: &str) -> String {
    format!("sensor 1 at '{word}' is not a whole number of degrees, -128 to 127")
}

/// "The record writer gives 3 for such a sample."
#[test]
fn a_temperature_out_of_range_is_told_as_answer_3() {
    let out_of_range = "line 3: answer 3, sensor 2 or 3 is outside -128.0 to 127.5 degrees";
    for place in [11, 12] {
        for word in [
            "128",
            "-128.5",
            "16383.5",
            "-16384",
            "99999999999",
            "-99999999999.5",
        ] {
            assert_eq!(told_of(&sample_with(place, word)), out_of_range, "{word}");
        }
        for word in ["127.5", "-128", "-128.0"] {
            assert!(pack(sample_with(place, word).as_bytes()).is_ok(), "{word}");
        }
    }
}

#[test]
fn a_part_of_a_sample_too_long_or_too_short_is_told() {
    let takes =
        "line 3: sample takes 'codes' and seven numbers, 'temps' and three, 'counts' and three";
    for line in [
        "sample",
        "sample 100 94 206 186 197 35 54 35 40.0 41.5 270 540 1038",
        "sample codes 100 94 206 186 197 35 temps 35 40.0 41.5 counts 270 540 1038",
        "sample codes 100 94 206 186 197 35 54 0 temps 35 40.0 41.5 counts 270 540 1038",
        "sample codes 100 94 206 186 197 35 54 temps 35 40.0 counts 270 540 1038 0",
        "sample temps 35 40.0 41.5 codes 100 94 206 186 197 35 54 counts 270 540 1038",
        "sample codes 100 94 206 186 197 35 54 temps 35 40.0 41.5 counts 270 540 1038 7",
        "sample codes 100 94 206 186 197 35 54 temps 35 40.0 41.5 # counts 270 540 1038",
    ] {
        assert_eq!(told_of(line), takes, "{line}");
    }
}

#[test]
fn bytes_that_are_no_text_are_told() {
    let fault = pack(b"read 41\nread \xFF\xFE\n").unwrap_err();
    assert_eq!(fault.to_string(), "line 2: this is no text (UTF-8)");
    // A log given as a script, too.
    assert!(pack(&record(&Event::Write {
        index: 0x47,
        value: 0x90
    }))
    .is_err());
}

/// What is told of a record that stands third.
fn told_of_record(third: &[u8]) -> String {
    let mut log = log(&[Event::Chassis, Event::Read { index: 0x41 }]);
    log.extend_from_slice(third);
    unpack(&log).unwrap_err().to_string()
}

#[test]
fn each_damaged_record_is_told_with_its_number_and_reason() {
    let changed = |event: Event, at: usize, byte: u8| {
        let mut record = record(&event);
        record[at] = byte;
        told_of_record(&record)
    };
    let write = Event::Write {
        index: 0x47,
        value: 0x50,
    };
    let at = "record 2 (at byte 64): answer 5,";
    assert_eq!(changed(write, 0, 0), format!("{at} unknown kind 00h"));
    assert_eq!(changed(write, 0, 0xFF), format!("{at} unknown kind FFh"));
    let not_zero = |n: usize| format!("{at} its byte {n} is 07h and not zero");
    assert_eq!(changed(write, 3, 7), not_zero(3));
    assert_eq!(changed(Event::Read { index: 0x41 }, 2, 7), not_zero(2));
    assert_eq!(changed(Event::Chassis, 1, 7), not_zero(1));
    assert_eq!(changed(calm(), 31, 7), not_zero(31));
    // "The decoder gives 3 [..] for a well-formed sample with a bad temperature":
    // a byte 9 of 1 is 256 half degrees.
    let out_of_range = "sensor 2 or 3 is outside -128.0 to 127.5 degrees";
    for at in [9, 11] {
        let expected = format!("record 2 (at byte 64): answer 3, {out_of_range}");
        assert_eq!(changed(calm(), at, 1), expected);
    }
}

fn calm() -> Event {
    let sample = "sample codes 0 0 0 0 0 0 0 temps 0 0.0 0.0 counts 0 0 0";
    decode(&pack(sample.as_bytes()).unwrap()).unwrap()
}

#[test]
fn each_cut_record_is_told_with_what_is_left_of_it() {
    for left in 1..RECORD_LENGTH {
        let expected = format!("record 2 (at byte 64): answer 5, cut after {left} of 32 bytes");
        assert_eq!(told_of_record(&record(&Event::Chassis)[..left]), expected);
    }
}

/// Any byte of a random log changed, and its end cut: the first record that the
/// second program refuses is told, with its answer, or the log unpacks.
#[test]
fn a_log_is_refused_where_the_second_program_refuses_it() {
    let mut rng = Rng::new(3);
    let mut refused = [0; 6];
    for _ in 0..20_000 {
        let events: Vec<Event> = (0..1 + rng.below(6)).map(|_| any_event(&mut rng)).collect();
        let mut log = log(&events);
        let at = rng.below(log.len() as u64) as usize;
        log[at] = rng.byte();
        log.truncate(log.len() - rng.pick(&[0, 0, 0, 1, 31, 32]));
        let parts = log.len().div_ceil(RECORD_LENGTH);
        let first = (0..parts).find_map(|n| {
            let answer = record_at(&log, n as u64).and_then(decode).err()?;
            Some((n, answer))
        });
        match (unpack(&log), first) {
            (Ok(script), None) => assert_eq!(pack(script.as_bytes()).unwrap(), log),
            (Err(Fault::Record(n, reason)), Some((expected, answer))) => {
                assert_eq!(n, expected);
                assert!(
                    reason.starts_with(&format!("answer {answer}, ")),
                    "{reason}"
                );
                refused[usize::from(answer)] += 1;
            }
            (found, expected) => panic!("{found:?}, expected {expected:?}"),
        }
    }
    assert!(refused[3] > 100 && refused[5] > 1_000, "{refused:?}");
}
