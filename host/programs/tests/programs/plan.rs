//! `plan` on many arguments.

use crate::common::rng::Rng;
use crate::program::{hold_text, plan, top};
use programs::{searched_plan, LONGEST};
use reference::u_of_speed;
use std::ffi::OsStr;
use std::fs;
use std::os::unix::ffi::OsStrExt;

/// "A plan is for 1 to 1,350,000 rpm."
const FASTEST: u32 = 1_350_000;

/// What `plan` should print on standard output, and on standard error.
pub fn expected<W: AsRef<[u8]>>(arguments: &[W]) -> [Vec<u8>; 2] {
    let [mut output, mut errors] = [Vec::new(), Vec::new()];
    programs::plan(arguments, searched_plan, &mut output, &mut errors).expect("memory is written");
    [output, errors]
}

/// Holds all that `plan` prints to the second program.
fn hold<W: AsRef<[u8]>>(arguments: &[W], origin: &str) {
    let words: Vec<&OsStr> = arguments
        .iter()
        .map(|word| OsStr::from_bytes(word.as_ref()))
        .collect();
    let [output, errors] = expected(arguments);
    let found = plan(&words);
    hold_text(&found.stdout, &output, &format!("{origin}, output"));
    hold_text(&found.stderr, &errors, &format!("{origin}, errors"));
    assert!(found.status.success(), "{origin}: {}", found.status);
}

fn hold_speeds(speeds: impl IntoIterator<Item = u64>, origin: &str) {
    let words: Vec<String> = speeds.into_iter().map(|rpm| rpm.to_string()).collect();
    hold(&words, origin);
}

/// "w 4,400: d 2, L 152. 1,350,000: d 1, L 0. 1: d 128, L 254. 42: d 128, L 250.
/// 5,295: d 1, L 253. 2,641: d 2, L 254. 0 and 1,350,001: answer 6."
#[test]
fn the_papers_figures_are_planned() {
    let figures = [4_400, 1_350_000, 1, 42, 5_295, 2_641, 0, 1_350_001];
    hold_speeds(figures, "the paper's figures");
    let found = plan(&figures.map(|rpm| rpm.to_string()));
    let output = String::from_utf8(found.stdout).expect("text");
    let plans = [
        "2, limit 152,",
        "1, limit 0,",
        "128, limit 254,",
        "128, limit 250,",
    ];
    let plans = plans.iter().chain(&["1, limit 253,", "2, limit 254,"]);
    assert_eq!(output.lines().count(), 6);
    for (line, plan) in output.lines().zip(plans) {
        assert!(line.contains(&format!(": divisor {plan}")), "{line}");
    }
    let error = String::from_utf8(found.stderr).expect("text");
    assert_eq!(error.lines().filter(|line| line.contains("(6)")).count(), 2);
}

/// 1,350,000 / w rounded down decides: each of its numbers, at the slowest and the
/// fastest speed that gives it.
fn speeds_of_every_count() -> Vec<u64> {
    let mut speeds = Vec::new();
    let mut slowest = 1;
    while slowest <= FASTEST {
        let fastest = FASTEST / (FASTEST / slowest);
        speeds.extend([slowest, fastest].map(u64::from));
        slowest = fastest + 1;
    }
    assert!(speeds.len() > 4_000);
    speeds
}

#[test]
fn every_allowed_count_is_planned_alike() {
    hold_speeds(speeds_of_every_count(), "every count");
}

/// "Rings from count N, at X.Y rpm and below": at that speed the alarm rings, and a
/// tenth above it does not.
#[test]
fn the_printed_speed_is_the_last_tenth_that_rings() {
    for some in speeds_of_every_count().chunks(500) {
        let words: Vec<String> = some.iter().map(u64::to_string).collect();
        let output = String::from_utf8(plan(&words).stdout).expect("text");
        assert_eq!(output.lines().count(), some.len());
        for line in output.lines() {
            let (_, rings) = line.split_once("rings from count ").expect(line);
            let (count, speed) = rings.split_once(", at ").expect(line);
            let (whole, tenth) = speed
                .strip_suffix(" rpm and below")
                .and_then(|speed| speed.split_once('.'))
                .expect(line);
            assert_eq!(tenth.len(), 1, "{line}");
            let tenths: u64 = format!("{whole}{tenth}").parse().expect(line);
            let count: u32 = count.parse().expect(line);
            assert!(u_of_speed(tenths, 10) >= count, "{line}");
            assert!(u_of_speed(tenths + 1, 10) < count, "{line}");
        }
    }
}

#[test]
fn random_speeds_are_planned_alike() {
    for seed in 0..20 {
        let mut rng = Rng::new(seed);
        let speeds = (0..200).map(|_| match rng.below(4) {
            0 => 1 + rng.below(FASTEST.into()),
            1 => 1 + rng.below(10_000),
            // Of any length.
            2 => rng.next() >> rng.below(64),
            _ => u64::from(FASTEST) - 2 + rng.below(5),
        });
        hold_speeds(speeds, &format!("seed {seed}"));
    }
}

#[test]
fn speeds_at_the_ends_of_ranges_are_answered_alike() {
    let mut speeds = vec![0, 1, 2, 41, 42, 999_999_999, 1_000_000_000];
    for end in [FASTEST, i32::MAX as u32, u32::MAX] {
        speeds.extend([-1, 0, 1, 2].map(|more| (i64::from(end) + more) as u64));
    }
    speeds.extend([u64::MAX - 1, u64::MAX]);
    speeds.extend((0..64).map(|bit| 1 << bit));
    hold_speeds(speeds, "ends of ranges");
    // Beyond any of them: 2^64 and so on, which would come round to a speed.
    hold(
        &[
            "18446744073709551616",
            "18446744073709551617",
            "18446744073709556016",
            "340282366920938463463374607431768215856",
        ],
        "beyond 64 bits",
    );
}

#[test]
fn long_words_are_answered_alike() {
    for length in [10, 20, 100, LONGEST - 1, LONGEST, LONGEST + 1, 3 * LONGEST] {
        let nines = "9".repeat(length);
        let zeros = "0".repeat(length);
        let zeros_before = format!("{}4400", "0".repeat(length - 4));
        let letter_behind = format!("{}x", "1".repeat(length - 1));
        let words = [nines, zeros, zeros_before, letter_behind];
        hold(&words, &format!("words of {length} bytes"));
    }
}

/// The others are answered all the same.
#[test]
fn what_is_no_speed_is_told_alike() {
    hold(
        &[
            "", "fast", "4400rpm", "rpm4400", "44 00", " 4400", "4400 ", "\t4400", "4400\n",
            "+4400", "-1", "-0", "--", "-h", "4,400", "4400.0", "4.4e3", "0x1130", "/", ":", "4/4",
            "4:4", "٤٤٠٠", "4４00", "4400",
        ],
        "no speeds",
    );
    let bytes = [&b"\xFF"[..], b"44\xFF00", b"\xC3", b"4400\x80", b"\xB4\xB4"];
    hold(&bytes, "bytes that are no text");
    // Each byte but 0 alone, and between digits.
    let words = (1..=255).flat_map(|byte| [vec![byte], vec![b'4', byte, b'2']]);
    hold(&words.collect::<Vec<_>>(), "every byte");
}

/// Words of few characters: digits, and what comes beside them.
#[test]
fn random_words_are_answered_alike() {
    for seed in 0..40 {
        let mut rng = Rng::new(seed);
        let words: Vec<Vec<u8>> = (0..rng.below(60))
            .map(|_| {
                let letters = rng.pick(&[&b"0123456789"[..], b"0123456789/:-+ .x", b"0019"]);
                (0..rng.below(14)).map(|_| rng.pick(letters)).collect()
            })
            .collect();
        hold(&words, &format!("seed {seed}"));
    }
}

#[test]
fn no_argument_shows_the_usage() {
    hold::<&str>(&[], "no argument");
}

#[test]
fn many_arguments_are_answered_each() {
    let mut rng = Rng::new(1);
    hold_speeds((0..20_000).map(|_| rng.below(1_400_000)), "seed 1");
}

/// README's lines, and those that the gate holds `plan` to.
#[test]
fn readmes_and_the_gates_lines_are_expected_here_too() {
    let readme = fs::read_to_string(top().join("README.md")).expect("README");
    let mut shown = readme.lines().filter_map(|line| line.strip_prefix("    "));
    let command = shown.find_map(|line| line.strip_prefix("rt run -- "));
    let speeds: Vec<&str> = command.expect("README shows plan").split(' ').collect();
    let lines = shown.take(speeds.len()).map(|line| format!("{line}\n"));
    let lines: String = lines.collect();
    hold_text(lines.as_bytes(), &expected(&speeds)[0], "README");

    let folder = top().join("crates/plan");
    let words = fs::read_to_string(folder.join("args")).expect("the gate's words");
    let words: Vec<&str> = words.lines().collect();
    let lines = fs::read(folder.join("stdout")).expect("the gate's lines");
    hold_text(&lines, &expected(&words)[0], "the gate's words");
}
