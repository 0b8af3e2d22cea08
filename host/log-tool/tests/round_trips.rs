//! From scripts to logs and back, held to the second program.

mod common;

use common::rng::Rng;
use common::{any_event, log, script};
use reference::w83782d::{Event, Sample};
use w83782d_log::{pack, unpack};

fn any_events(rng: &mut Rng) -> Vec<Event> {
    (0..rng.below(40)).map(|_| any_event(rng)).collect()
}

/// "Record of writing 50h to 47h: 01 47 50, then 29 zeros."
#[test]
fn writing_50h_to_47h_is_the_papers_record() {
    let log = pack(b"write 47 50\n").unwrap();
    assert_eq!(log[..3], [0x01, 0x47, 0x50]);
    assert_eq!(log[3..], [0; 29]);
    assert_eq!(unpack(&log).unwrap(), "write 47 50\n");
}

#[test]
fn random_events_go_to_the_second_programs_log_and_back() {
    let mut rng = Rng::new(1);
    for _ in 0..2_000 {
        let events = any_events(&mut rng);
        let (script, log) = (script(&events), log(&events));
        assert_eq!(pack(script.as_bytes()).unwrap(), log);
        assert_eq!(unpack(&log).unwrap(), script);
    }
}

/// Blanks, comments, small letters, DOS line ends and degrees without .0: a
/// person's script packs as the canonical one.
#[test]
fn however_a_person_writes_it_the_log_is_the_same() {
    let mut rng = Rng::new(2);
    for _ in 0..2_000 {
        let events = any_events(&mut rng);
        let written = as_a_person_writes(&script(&events), &mut rng);
        let log = pack(written.as_bytes()).unwrap();
        assert_eq!(log, common::log(&events), "{written}");
        let canonical = unpack(&log).unwrap();
        assert_eq!(canonical, script(&events));
        assert_eq!(pack(canonical.as_bytes()).unwrap(), log);
    }
}

fn as_a_person_writes(script: &str, rng: &mut Rng) -> String {
    let mut written = String::new();
    for line in script.lines() {
        if rng.one_in(4) {
            written += rng.pick(&["\n", "   \t\n", "# write 47 50\n", "\r\n"]);
        }
        written += rng.pick(&["", " ", "\t"]);
        for word in line.split(' ') {
            written += &as_a_person_writes_a_word(word, rng);
            written += rng.pick(&[" ", "  ", "\t"]);
        }
        written += rng.pick(&["", "# read 41", "#", "# Lüfter 1"]);
        written += rng.pick(&["\n", "\r\n"]);
    }
    // The last line may lack its end.
    if rng.one_in(2) {
        written.truncate(written.trim_end_matches(['\r', '\n']).len());
    }
    written
}

fn as_a_person_writes_a_word(word: &str, rng: &mut Rng) -> String {
    match rng.below(4) {
        0 => word.to_lowercase(),
        1 => word.strip_suffix(".0").unwrap_or(word).into(),
        _ => word.into(),
    }
}

/// Each of the 512 temperatures of sensors 2 and 3 and the 256 of sensor 1.
#[test]
fn every_temperature_goes_round() {
    for half_degrees in -256..=255 {
        let event = Event::Sample(Sample {
            codes: [0; 7],
            t1: (half_degrees / 2) as i8,
            t2: half_degrees,
            t3: -1 - half_degrees,
            u: [0; 3],
        });
        let (script, log) = (script(&[event]), log(&[event]));
        assert_eq!(pack(script.as_bytes()).unwrap(), log);
        assert_eq!(unpack(&log).unwrap(), script);
    }
}

#[test]
fn half_a_degree_below_zero_keeps_its_sign() {
    let script = "sample codes 0 0 0 0 0 0 0 temps 0 -0.5 -1.5 counts 0 0 0\n";
    let log = pack(script.as_bytes()).unwrap();
    // "9-10 and 11-12 sensors 2 and 3 in half degrees (two's complement)"
    assert_eq!(log[9..=12], [0xFF, 0xFF, 0xFF, 0xFD]);
    assert_eq!(unpack(&log).unwrap(), script);
}

#[test]
fn a_script_without_events_is_an_empty_log() {
    for script in ["", "\n", "# nothing\n\n   # here"] {
        assert_eq!(pack(script.as_bytes()).unwrap(), []);
    }
    assert_eq!(unpack(&[]).unwrap(), "");
}
