//! Faults planted over the library: the comparison finds each, and shrinks its
//! list to the calls that show it. So silence elsewhere means something.

use crate::boundary::Answer;
use crate::calls::{library, Call, CarryOut, See, Subject, LIBRARY};
use crate::common::in_force::{self, breaks_a_plan};
use crate::common::lists::first_disagreement;
use crate::common::report::{explain, shrink};
use crate::events::record_of;
use crate::image::{power_on, Image, CHASSIS, SPARE};
use crate::in_force::aimed_list;
use crate::samples::with_divisor;
use crate::seen::{self, Seen};
use crate::sequences::{calls, start, AIMS};
use reference::w83782d::{cell, Event};

/// Sensor 3's OVT output.
const OVT_3: usize = 119;

fn bank(image: &Image) -> u8 {
    image[cell(0, 0x4E)] & 0x07
}

fn chassis_cleared_by_read(image: &mut Image, call: &Call) -> Answer {
    let answer = library(image, call);
    if *call == (Call::Read { index: 0x42 }) {
        image[CHASSIS] = 0;
    }
    answer
}

fn status_cleared_by_look(image: &mut Image, call: &Call) -> Answer {
    match call {
        Call::Look { index: 0x41 } => library(image, &Call::Read { index: 0x41 }),
        _ => library(image, call),
    }
}

fn flags_normalised_by_look(image: &mut Image, call: &Call) -> Answer {
    let answer = library(image, call);
    if matches!(call, Call::Look { .. }) {
        image[CHASSIS..SPARE]
            .iter_mut()
            .for_each(|flag| *flag = (*flag != 0).into());
    }
    answer
}

fn all_of_47h_stored(image: &mut Image, call: &Call) -> Answer {
    let answer = library(image, call);
    if let Call::Write { index: 0x47, value } = call {
        image[cell(0, 0x47)] = *value;
    }
    answer
}

/// 7Bh refused where 5Bh is: the bank is one of 3, 5, 6 and 7.
fn aliases_banked(image: &mut Image, call: &Call) -> Answer {
    match call {
        Call::Read { index: 0x7B } if [3, 5, 6, 7].contains(&bank(image)) => (1, 0),
        _ => library(image, call),
    }
}

fn resets(call: &Call) -> bool {
    matches!(call, Call::Write { index: 0x40, value } if *value >= 0x80)
}

fn address_lost_by_reset(image: &mut Image, call: &Call) -> Answer {
    let answer = library(image, call);
    if resets(call) {
        image[cell(0, 0x48)] = 0x2D;
    }
    answer
}

/// A read of this index in this bank releases OVT of sensor 3, whatever the mode.
fn released_by(index: u8, in_bank: u8, image: &mut Image, call: &Call) -> Answer {
    let answer = library(image, call);
    if *call == (Call::Read { index }) && bank(image) == in_bank {
        image[OVT_3] = 0;
    }
    answer
}

fn other_sensor_released(image: &mut Image, call: &Call) -> Answer {
    released_by(0x50, 1, image, call)
}

/// Reading the low byte releases too.
fn released_by_51h(image: &mut Image, call: &Call) -> Answer {
    released_by(0x51, 2, image, call)
}

fn released_in_comparator_mode(image: &mut Image, call: &Call) -> Answer {
    released_by(0x50, 2, image, call)
}

fn flags_tidied_by_refusal(image: &mut Image, call: &Call) -> Answer {
    let answer = library(image, call);
    for flag in &mut image[CHASSIS..SPARE] {
        *flag = u8::from(*flag != 0);
    }
    answer
}

fn odd_flags_kept(image: &mut Image, call: &Call) -> Answer {
    let before = *image;
    let answer = library(image, call);
    if *call == Call::ChassisOpened && before[113] != 0 {
        image[113] = before[113];
    }
    answer
}

fn spare_byte_cleared(image: &mut Image, call: &Call) -> Answer {
    let answer = library(image, call);
    image[SPARE] = 0;
    answer
}

fn byte_of_refused_read(image: &mut Image, call: &Call) -> Answer {
    match library(image, call) {
        (1, _) if matches!(call, Call::Read { .. }) => (1, 0xFF),
        answer => answer,
    }
}

/// Of a sample that was refused, the first code is stored all the same.
fn code_stored_by_refused_sample(image: &mut Image, call: &Call) -> Answer {
    let answer = library(image, call);
    if let (Call::Sample(sample), 4) = (call, answer.0) {
        image[cell(0, 0x20)] = sample.codes[0];
    }
    answer
}

/// A mark that is hot stays hot over a reset.
fn mark_kept_by_reset(image: &mut Image, call: &Call) -> Answer {
    let hot = image[113] == 1;
    let answer = library(image, call);
    if resets(call) && hot {
        image[113] = 1;
    }
    answer
}

/// An OVT mark that follows the status mark.
fn one_mark_for_both(image: &mut Image, call: &Call) -> Answer {
    let answer = library(image, call);
    if matches!(call, Call::Sample(_)) && answer.0 == 0 {
        image[115] = image[114];
    }
    answer
}

/// A mode write arms at once.
fn armed_by_mode_write(image: &mut Image, call: &Call) -> Answer {
    let answer = library(image, call);
    if matches!(call, Call::Write { index: 0x4C, .. }) && answer.0 == 0 {
        image[114] = 0;
    }
    answer
}

/// 51h bits 6-0 as they were before the sample.
fn low_bits_kept_by_sample(image: &mut Image, call: &Call) -> Answer {
    let before = image[cell(2, 0x51)];
    let answer = library(image, call);
    if matches!(call, Call::Sample(_)) && answer.0 == 0 {
        image[cell(2, 0x51)] |= before & 0x7F;
    }
    answer
}

/// 59h and 5Ah of bank 4, and 41h and 42h, with the bits of the fans there.
const FAN_BITS: [(usize, usize, u8); 2] = [
    (cell(4, 0x59), cell(0, 0x41), 0xC0),
    (cell(4, 0x5A), cell(0, 0x42), 0x08),
];

fn accepted_sample(call: &Call, answer: Answer) -> bool {
    matches!(call, Call::Sample(_)) && answer.0 == 0
}

fn fan_latched_at_every_slow_sample(image: &mut Image, call: &Call) -> Answer {
    let answer = library(image, call);
    if accepted_sample(call, answer) {
        for (real_time, status, fans) in FAN_BITS {
            image[status] |= image[real_time] & fans;
        }
    }
    answer
}

/// A fan that is no longer slow is not latched.
fn fan_latched_by_its_rise_alone(image: &mut Image, call: &Call) -> Answer {
    let before = *image;
    let answer = library(image, call);
    if accepted_sample(call, answer) {
        for (real_time, status, fans) in FAN_BITS {
            let fallen = before[real_time] & !image[real_time] & fans;
            image[status] &= !fallen | before[status];
        }
    }
    answer
}

/// A fan's condition is compared with its status bit.
fn fan_compared_with_status(image: &mut Image, call: &Call) -> Answer {
    let before = *image;
    let answer = library(image, call);
    if accepted_sample(call, answer) {
        for (real_time, status, fans) in FAN_BITS {
            let crossed = (image[real_time] ^ before[status]) & fans;
            image[status] = image[status] & !fans | before[status] & fans | crossed;
        }
    }
    answer
}

/// A fan's condition is compared with the bit that this sample leaves.
fn fan_never_latched(image: &mut Image, call: &Call) -> Answer {
    let before = *image;
    let answer = library(image, call);
    if accepted_sample(call, answer) {
        for (_, status, fans) in FAN_BITS {
            image[status] = image[status] & !fans | before[status] & fans;
        }
    }
    answer
}

fn real_time_bits_kept_by_reset(image: &mut Image, call: &Call) -> Answer {
    let before = *image;
    let answer = library(image, call);
    if resets(call) {
        for (real_time, _, fans) in FAN_BITS {
            image[real_time] |= before[real_time] & fans;
        }
    }
    answer
}

fn byte_of_recorded_write(image: &mut Image, call: &Call) -> Answer {
    let answer = library(image, call);
    match call {
        Call::Event { record } if answer.0 == 0 && record[0] == 1 => (0, record[2].into()),
        _ => answer,
    }
}

/// All of a log or nothing.
fn replay_taken_back(image: &mut Image, call: &Call) -> Answer {
    let before = *image;
    let answer = library(image, call);
    if matches!(call, Call::Replay { .. }) && answer.0 != 0 {
        *image = before;
    }
    answer
}

fn part_of_a_record_passed_over(image: &mut Image, call: &Call) -> Answer {
    let answer = library(image, call);
    match call {
        Call::Replay { log } if answer.1 == log.len() as u64 / 32 => (0, answer.1),
        _ => answer,
    }
}

fn refused_record_counted(image: &mut Image, call: &Call) -> Answer {
    let answer = library(image, call);
    match call {
        Call::Replay { .. } if answer.0 != 0 => (answer.0, answer.1 + 1),
        _ => answer,
    }
}

fn flags_tidied_by_empty_replay(image: &mut Image, call: &Call) -> Answer {
    let answer = library(image, call);
    if matches!(call, Call::Replay { log } if log.is_empty()) {
        image[113] = u8::from(image[113] != 0);
    }
    answer
}

/// The fan of an accepted plan, 0 being fan 1, and its speed.
fn planned(call: &Call, answer: Answer) -> Option<(usize, u32)> {
    match call {
        Call::SetPlan { fan, rpm } if answer.0 == 0 => Some((usize::from(*fan) - 1, *rpm)),
        _ => None,
    }
}

/// Only the bits of the planned fan are left in 47h.
fn all_of_47h_stored_by_plan(image: &mut Image, call: &Call) -> Answer {
    let answer = library(image, call);
    if let Some((fan @ 0..=1, _)) = planned(call, answer) {
        image[cell(0, 0x47)] &= [0x30, 0xC0][fan];
    }
    answer
}

fn top_bit_forgotten_by_plan(image: &mut Image, call: &Call) -> Answer {
    let before = image[cell(0, 0x5D)];
    let answer = library(image, call);
    if planned(call, answer).is_some() {
        image[cell(0, 0x5D)] = before;
    }
    answer
}

fn limit_of_the_wrong_fan(image: &mut Image, call: &Call) -> Answer {
    let limit = |fan: usize| cell(0, 0x3B) + fan % 3;
    let before = *image;
    let answer = library(image, call);
    if let Some((fan, _)) = planned(call, answer) {
        image[limit(fan + 1)] = image[limit(fan)];
        image[limit(fan)] = before[limit(fan)];
    }
    answer
}

fn real_time_bit_cleared_by_plan(image: &mut Image, call: &Call) -> Answer {
    let answer = library(image, call);
    if let Some((fan, _)) = planned(call, answer) {
        let (index, bit) = [(0x59, 6), (0x59, 7), (0x5A, 3)][fan];
        image[cell(4, index)] &= !(1 << bit);
    }
    answer
}

/// "Taking the smallest divisor with 255 d at least K."
fn smallest_divisor_taken(image: &mut Image, call: &Call) -> Answer {
    let answer = library(image, call);
    if let Some((fan, rpm)) = planned(call, answer) {
        let allowed = 1_350_000 / rpm;
        let k = (0..7).find(|k| 255 << k >= allowed).unwrap_or(7);
        *image = with_divisor(*image, fan, k);
        image[cell(0, 0x3B) + fan] = ((allowed >> k).min(255) - 1) as u8;
    }
    answer
}

/// 5Dh of the bank that is selected.
fn top_bit_banked(image: &mut Image, call: &Call) -> Answer {
    let before = image[cell(0, 0x5D)];
    let answer = library(image, call);
    if planned(call, answer).is_some() && bank(image) != 0 {
        image[cell(0, 0x5D)] = before;
    }
    answer
}

fn plan_refused_in_standby(image: &mut Image, call: &Call) -> Answer {
    let standby = image[cell(0, 0x40)] & 0x01 == 0;
    match call {
        Call::SetPlan { .. } if standby => (4, 0),
        _ => library(image, call),
    }
}

fn speed_tested_before_fan(image: &mut Image, call: &Call) -> Answer {
    match call {
        Call::SetPlan { rpm, .. } if *rpm == 0 || *rpm > 1_350_000 => (6, 0),
        _ => library(image, call),
    }
}

fn odd_flags_kept_by_plan(image: &mut Image, call: &Call) -> Answer {
    let before = *image;
    let answer = library(image, call);
    if planned(call, answer).is_some() {
        image[CHASSIS..SPARE].copy_from_slice(&before[CHASSIS..SPARE]);
    }
    answer
}

fn limit_cleared_by_refused_plan(image: &mut Image, call: &Call) -> Answer {
    let answer = library(image, call);
    if let (Call::SetPlan { fan, .. }, 6) = (call, answer.0) {
        image[cell(0, 0x3A + fan)] = 0;
    }
    answer
}

fn smi_dropped_by_stop(image: &Image) -> Seen {
    let mut seen = seen::library(image);
    if image[cell(0, 0x40)] & 0x01 == 0 {
        seen.outputs.2 &= !1;
    }
    seen
}

fn chassis_no_alarm(image: &Image) -> Seen {
    let mut seen = seen::library(image);
    seen.outputs.1 -= u32::from(image[CHASSIS] != 0);
    seen
}

fn count_255_a_number(image: &Image) -> Seen {
    let mut seen = seen::library(image);
    for speed in &mut seen.speeds {
        if *speed == (2, 0) {
            *speed = (0, 13_500_000 / 255);
        }
    }
    seen
}

fn speed_in_whole_rpm(image: &Image) -> Seen {
    let mut seen = seen::library(image);
    for (_, tenths) in &mut seen.speeds {
        *tenths /= 10;
    }
    seen
}

fn ten_times_the_rounded_rpm(image: &Image) -> Seen {
    let mut seen = seen::library(image);
    for (_, tenths) in &mut seen.speeds {
        *tenths = (*tenths + 5) / 10 * 10;
    }
    seen
}

fn half_degree_lost(image: &Image) -> Seen {
    let mut seen = seen::library(image);
    seen.temperatures[2].1 &= !1;
    seen
}

#[test]
fn every_planted_fault_is_found() {
    let faults: [(&str, CarryOut); 38] = [
        ("chassis_cleared_by_read", chassis_cleared_by_read),
        ("status_cleared_by_look", status_cleared_by_look),
        ("flags_normalised_by_look", flags_normalised_by_look),
        ("all_of_47h_stored", all_of_47h_stored),
        ("aliases_banked", aliases_banked),
        ("address_lost_by_reset", address_lost_by_reset),
        ("other_sensor_released", other_sensor_released),
        ("released_by_51h", released_by_51h),
        ("released_in_comparator_mode", released_in_comparator_mode),
        ("flags_tidied_by_refusal", flags_tidied_by_refusal),
        ("odd_flags_kept", odd_flags_kept),
        ("spare_byte_cleared", spare_byte_cleared),
        ("byte_of_refused_read", byte_of_refused_read),
        (
            "code_stored_by_refused_sample",
            code_stored_by_refused_sample,
        ),
        ("mark_kept_by_reset", mark_kept_by_reset),
        ("one_mark_for_both", one_mark_for_both),
        ("armed_by_mode_write", armed_by_mode_write),
        ("low_bits_kept_by_sample", low_bits_kept_by_sample),
        (
            "fan_latched_at_every_slow_sample",
            fan_latched_at_every_slow_sample,
        ),
        (
            "fan_latched_by_its_rise_alone",
            fan_latched_by_its_rise_alone,
        ),
        ("fan_compared_with_status", fan_compared_with_status),
        ("fan_never_latched", fan_never_latched),
        ("real_time_bits_kept_by_reset", real_time_bits_kept_by_reset),
        ("byte_of_recorded_write", byte_of_recorded_write),
        ("replay_taken_back", replay_taken_back),
        ("part_of_a_record_passed_over", part_of_a_record_passed_over),
        ("refused_record_counted", refused_record_counted),
        ("flags_tidied_by_empty_replay", flags_tidied_by_empty_replay),
        ("all_of_47h_stored_by_plan", all_of_47h_stored_by_plan),
        ("top_bit_forgotten_by_plan", top_bit_forgotten_by_plan),
        ("limit_of_the_wrong_fan", limit_of_the_wrong_fan),
        (
            "real_time_bit_cleared_by_plan",
            real_time_bit_cleared_by_plan,
        ),
        ("smallest_divisor_taken", smallest_divisor_taken),
        ("top_bit_banked", top_bit_banked),
        ("plan_refused_in_standby", plan_refused_in_standby),
        ("speed_tested_before_fan", speed_tested_before_fan),
        ("odd_flags_kept_by_plan", odd_flags_kept_by_plan),
        (
            "limit_cleared_by_refused_plan",
            limit_cleared_by_refused_plan,
        ),
    ];
    for (name, call) in faults {
        assert!(is_found(faulty(call)), "{name}");
    }
    let faults: [(&str, See); 6] = [
        ("smi_dropped_by_stop", smi_dropped_by_stop),
        ("chassis_no_alarm", chassis_no_alarm),
        ("count_255_a_number", count_255_a_number),
        ("speed_in_whole_rpm", speed_in_whole_rpm),
        ("ten_times_the_rounded_rpm", ten_times_the_rounded_rpm),
        ("half_degree_lost", half_degree_lost),
    ];
    for (name, seen) in faults {
        assert!(is_found(Subject { seen, ..LIBRARY }), "{name}");
    }
}

/// What a plan in force says is found broken without the second program's state.
#[test]
fn a_planted_fault_breaks_a_plan_in_force() {
    let faults: [(&str, CarryOut); 6] = [
        ("all_of_47h_stored_by_plan", all_of_47h_stored_by_plan),
        ("top_bit_forgotten_by_plan", top_bit_forgotten_by_plan),
        ("limit_of_the_wrong_fan", limit_of_the_wrong_fan),
        ("smallest_divisor_taken", smallest_divisor_taken),
        ("top_bit_banked", top_bit_banked),
        ("plan_refused_in_standby", plan_refused_in_standby),
    ];
    for (name, call) in faults {
        let broken = (0..200).any(|seed| {
            let (start, calls) = aimed_list(seed, 100);
            breaks_a_plan(faulty(call), &start, &calls)
        });
        assert!(broken, "{name}");
    }
}

/// The maintainer's accident: two plans and a sample.
#[test]
fn a_broken_plan_shrinks_to_the_calls_that_show_it() {
    let (_, list) = aimed_list(7, 2_000);
    let list = in_force::shrunk(faulty(all_of_47h_stored_by_plan), &power_on(), &list);
    assert!(
        matches!(
            list[..],
            [
                Call::SetPlan { fan: 1 | 2, .. },
                Call::SetPlan { fan: 1 | 2, .. },
                Call::Sample(_)
            ]
        ),
        "{list:?}"
    );
}

fn faulty(call: CarryOut) -> Subject {
    Subject { call, ..LIBRARY }
}

fn is_found(fault: Subject) -> bool {
    AIMS.into_iter().any(|aim| {
        (0..200)
            .any(|seed| first_disagreement(fault, &start(seed), &calls(aim, seed, 50)).is_some())
    })
}

/// The calls that are left of a list from power-on.
fn shrunk_list(call: CarryOut, list: &[Call]) -> Vec<Call> {
    let fails = |calls: &[Call]| first_disagreement(faulty(call), &power_on(), calls);
    shrink(&fails, list)
}

/// The calls that are left of a long random list from power-on.
fn shrunk(call: CarryOut) -> Vec<Call> {
    shrunk_list(call, &calls(AIMS[0], 7, 20_000))
}

#[test]
fn a_disagreement_shrinks_to_the_calls_that_show_it() {
    assert_eq!(
        shrunk(chassis_cleared_by_read),
        [Call::ChassisOpened, Call::Read { index: 0x42 }]
    );
    assert!(matches!(
        shrunk(all_of_47h_stored)[..],
        [Call::Write { index: 0x47, .. }]
    ));
    assert!(matches!(
        shrunk(aliases_banked)[..],
        [Call::Write { index: 0x4E, .. }, Call::Read { index: 0x7B }]
    ));
    assert!(matches!(
        shrunk(address_lost_by_reset)[..],
        [
            Call::Write { index: 0x48, .. },
            Call::Write { index: 0x40, .. }
        ]
    ));
    assert!(matches!(
        shrunk(code_stored_by_refused_sample)[..],
        [Call::Write { index: 0x40, .. }, Call::Sample(_)]
    ));
}

/// A log keeps the one record that changes the state and the one that is refused.
#[test]
fn a_replay_shrinks_to_the_records_that_show_it() {
    let read = record_of(&Event::Read { index: 0x20 });
    let write = |index| record_of(&Event::Write { index, value: 0x50 });
    let (accepted, refused) = (write(0x2B), write(0x41));
    let log = [read, read, accepted, read, refused, read, write(0x48)].concat();
    let other = Call::Read { index: 0x20 };
    let mut list = vec![other; 100];
    list[60] = Call::Replay { log };
    let list = shrunk_list(replay_taken_back, &list);
    let log = [accepted, refused].concat();
    assert_eq!(list, [Call::Replay { log }]);
    let fault = faulty(replay_taken_back);
    let text = explain(fault, &power_on(), &list, "a log");
    assert!(text.contains("\nreplay\n  ["), "{text}");
}

/// Of 100,000 records too, whose logs without one of them would not fit into memory.
#[test]
fn a_long_replay_shrinks_to_the_records_that_show_it() {
    let write = |index| record_of(&Event::Write { index, value: 0x50 });
    let (accepted, refused) = (write(0x2B), write(0x41));
    let mut records = vec![record_of(&Event::Read { index: 0x20 }); 100_000];
    records[33_333] = accepted;
    records[77_777] = refused;
    let log = records.concat();
    let list = shrunk_list(replay_taken_back, &[Call::Replay { log }]);
    let log = [accepted, refused].concat();
    assert_eq!(list, [Call::Replay { log }]);
}

#[test]
fn a_disagreement_is_told_with_its_seed_calls_and_places() {
    let list = shrunk(chassis_cleared_by_read);
    let fault = faulty(chassis_cleared_by_read);
    let text = explain(fault, &power_on(), &list, "seed 7");
    for line in [
        "seed 7: disagreement",
        "chassis opened",
        "read 42h",
        "chassis latch: expected 01h, found 00h",
    ] {
        assert!(text.contains(line), "{line:?} is not in:\n{text}");
    }
}
