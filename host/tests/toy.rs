//! The helpers of `common` on calls of another type: a toy chip with one fan, and a
//! fault planted in it. What they should give is worked out by hand.

mod common;

use common::in_force::{first_broken_plan, shrunk, Act, Fans, Refused, Seen};
use common::lists::{first_disagreement, Listed, Model, Subject};
use common::report::{explain, hold, shrink};
use common::rng::Rng;
use reference::answer::{ACCEPTED, NOT_MONITORING, NO_REGISTER, READ_ONLY};
use reference::{Plan, Rewrites};

/// Limit, power of the divisor, real-time bit, and a note that is only stored.
type Image = [u8; 4];

const LIMIT: u8 = 0;
const POWER: u8 = 1;
const RINGS: u8 = 2;
const NOTE: u8 = 3;

const START: Image = [0; 4];

#[derive(Clone, Debug, PartialEq, Eq)]
enum Call {
    Write {
        index: u8,
        value: u8,
    },
    /// A write of the note, so many times.
    Notes {
        times: u8,
        value: u8,
    },
    Plan {
        rpm: u32,
    },
    Sample {
        u: u32,
    },
}

impl Listed for Call {
    fn in_words(&self) -> String {
        match self {
            Call::Write { index, value } => format!("write {value:02X}h to {index}"),
            Call::Notes { times, value } => format!("note {value:02X}h {times} times"),
            Call::Plan { rpm } => format!("plan {rpm} rpm"),
            Call::Sample { u } => format!("sample {u}"),
        }
    }

    /// One time less, and in the end the write.
    fn simpler(&self) -> Box<dyn Iterator<Item = Call>> {
        let simpler = match *self {
            Call::Notes { times: 1, value } => Some(note(value)),
            Call::Notes { times, value } => Some(Call::Notes {
                times: times - 1,
                value,
            }),
            _ => None,
        };
        Box::new(simpler.into_iter())
    }
}

fn note(value: u8) -> Call {
    Call::Write { index: NOTE, value }
}

fn sound(image: &mut Image, call: &Call) -> u8 {
    match *call {
        Call::Write { index: 0x40, value } if value >= 0x80 => *image = START,
        Call::Write { index: RINGS, .. } => return READ_ONLY,
        Call::Write { index, value } => match image.get_mut(usize::from(index)) {
            Some(cell) => *cell = value,
            None => return NO_REGISTER,
        },
        Call::Notes { value, .. } => image[3] = value,
        Call::Plan { rpm } => match reference::plan(rpm) {
            (ACCEPTED, d, limit) => [image[0], image[1]] = [limit, d.trailing_zeros() as u8],
            (refusal, ..) => return refusal,
        },
        Call::Sample { .. } if image[3] == 0xFF => return NOT_MONITORING,
        Call::Sample { u } => image[2] = u8::from((u >> (image[1] & 7)).min(255) > image[0].into()),
    }
    ACCEPTED
}

/// An odd note clears the limit.
fn limit_cleared_by_note(image: &mut Image, call: &Call) -> u8 {
    let answer = sound(image, call);
    let noted = matches!(call, Call::Write { index: NOTE, .. } | Call::Notes { .. });
    if noted && image[3] % 2 == 1 {
        image[0] = 0;
    }
    answer
}

fn rings(image: &Image) -> bool {
    image[2] != 0
}

const SOUND: Subject<Toy> = Subject {
    call: sound,
    seen: rings,
};

const FAULTY: Subject<Toy> = Subject {
    call: limit_cleared_by_note,
    seen: rings,
};

#[derive(Clone)]
struct Toy(Image);

impl Model for Toy {
    type Image = Image;
    type Call = Call;
    type Answer = u8;
    type Seen = bool;

    const ANSWER: &'static str = "answer";

    fn of(image: &Image) -> Toy {
        Toy(*image)
    }

    fn call(&mut self, call: &Call) -> u8 {
        sound(&mut self.0, call)
    }

    fn seen(&self) -> bool {
        rings(&self.0)
    }

    fn image(&self) -> &Image {
        &self.0
    }

    fn place(at: usize) -> String {
        ["limit", "power", "real-time bit", "note"][at].into()
    }
}

impl Fans<1> for Toy {
    const REWRITES: Rewrites = rewrites;

    fn acts(call: &Call, answer: &u8) -> Vec<Act<1>> {
        let accepted = *answer == ACCEPTED;
        vec![match *call {
            Call::Write { index, value } if accepted => Act::Write { index, value },
            Call::Write { .. } => Act::Refused(Refused::Write),
            Call::Notes { .. } => Act::Other,
            Call::Plan { rpm } if accepted => Act::Plan { fan: 1, rpm },
            Call::Plan { .. } => Act::Refused(Refused::Plan),
            Call::Sample { u } if accepted => Act::Sample { u: [u] },
            Call::Sample { .. } => Act::Refused(Refused::Sample),
        }]
    }

    fn holds_plan(_: usize, index: u8) -> bool {
        index == LIMIT || index == POWER
    }

    fn ringing(subject: Subject<Toy>, image: &Image) -> [bool; 1] {
        [(subject.seen)(image)]
    }
}

fn rewrites(_: u8, plan: Plan, index: u8, value: u8) -> bool {
    match index {
        LIMIT => value != plan.limit,
        POWER => value & 7 != plan.k,
        _ => false,
    }
}

/// 1,350,000 / 4,400 is 306, which is 153 times 2: the limit is 152, 98h.
const PLAN: Call = Call::Plan { rpm: 4_400 };

/// Without the plan the limit is 0 already, and an even note does nothing.
fn failing_list() -> Vec<Call> {
    let noted = Call::Notes { times: 3, value: 7 };
    let sample = |u| Call::Sample { u };
    vec![
        sample(5),
        PLAN,
        note(2),
        sample(400),
        noted,
        sample(1),
        note(1),
    ]
}

#[test]
fn a_disagreement_shrinks_to_the_calls_that_show_it() {
    let fails = |calls: &[Call]| first_disagreement(FAULTY, &START, calls);
    assert_eq!(fails(&failing_list()), Some(4));
    let list = shrink(&fails, &failing_list());
    assert_eq!(list, [PLAN, note(7)]);
    assert_eq!(
        explain(FAULTY, &START, &list, "by hand"),
        "by hand: disagreement\n\
         start:\n    0: [00, 00, 00, 00]\n\
         plan 4400 rpm\n\
         write 07h to 3\n  limit: expected 98h, found 00h\n"
    );
}

/// One sample more shows in what is seen, too.
#[test]
fn an_explanation_tells_what_is_seen() {
    let list = [PLAN, note(7), Call::Sample { u: 305 }];
    let text = explain(FAULTY, &START, &list, "");
    let expected = "sample 305\n  limit: expected 98h, found 00h\n  \
                real-time bit: expected 00h, found 01h\n  expected false,\n  found    true\n";
    assert!(text.ends_with(expected), "{text}");
}

/// A refused plan that is answered 0, and a bit that is stored and not seen.
#[test]
fn an_answer_or_what_is_seen_is_enough_to_disagree() {
    let all_accepted = Subject {
        call: |image, call| {
            sound(image, call);
            ACCEPTED
        },
        ..SOUND
    };
    let list = [PLAN, Call::Plan { rpm: 0 }];
    assert_eq!(first_disagreement(all_accepted, &START, &list), Some(1));
    let expected = "plan 0 rpm\n  answer: expected 06, found 00\n";
    let text = explain(all_accepted, &START, &list, "");
    assert!(text.ends_with(expected), "{text}");
    let silent = Subject {
        seen: |_| false,
        ..SOUND
    };
    let list = [PLAN, Call::Sample { u: 305 }, Call::Sample { u: 306 }];
    assert_eq!(first_disagreement(silent, &START, &list), Some(2));
}

#[test]
#[should_panic(expected = "write 07h to 3\n  limit: expected 98h, found 00h")]
fn a_list_that_fails_is_told_at_its_shortest() {
    hold(FAULTY, &START, &failing_list(), "by hand");
}

/// What is left is always a limit other than 0 and an odd note.
#[test]
fn random_lists_shrink_to_two_calls() {
    for seed in 0..100 {
        let mut rng = Rng::new(seed);
        let any_call = |_| match rng.below(4) {
            0 => Call::Write {
                index: rng.below(5) as u8,
                value: rng.byte(),
            },
            1 => Call::Notes {
                times: 1 + rng.below(4) as u8,
                value: rng.byte(),
            },
            2 => Call::Plan {
                rpm: rng.below(10_000) as u32,
            },
            _ => Call::Sample {
                u: rng.below(1_000) as u32,
            },
        };
        let calls: Vec<Call> = (0..1_000).map(any_call).collect();
        hold(SOUND, &START, &calls, "no fault");
        let list = shrink(&|calls| first_disagreement(FAULTY, &START, calls), &calls);
        let two = matches!(
            list[..],
            [
                Call::Plan { .. } | Call::Write { index: LIMIT, value: 1.. },
                Call::Write { index: NOTE, value }
            ] if value % 2 == 1
        );
        assert!(two, "seed {seed}: {list:?}");
    }
}

/// With the limit at 0 and a divisor of 2 the fan rings from a count of 2 on. At 1
/// it is silent and at 400 it rings, as the plan says; at 305 it must not.
#[test]
fn a_broken_plan_shrinks_to_the_calls_that_show_it() {
    let sample = |u| Call::Sample { u };
    let list = [
        PLAN,
        sample(305),
        note(7),
        sample(1),
        sample(400),
        sample(305),
    ];
    let broken = first_broken_plan(FAULTY, &START, &list, &mut Seen::default());
    assert_eq!(broken, Some(5));
    let list = shrunk(FAULTY, &START, &list);
    assert_eq!(list, [PLAN, note(7), sample(305)]);
}

/// Each thing that is counted happens once, the reset last.
#[test]
fn what_a_list_has_met_is_counted() {
    let sample = |u| Call::Sample { u };
    let write = |index, value| Call::Write { index, value };
    let list = [
        PLAN,
        sample(305),
        sample(306),
        write(LIMIT, 152),
        Call::Plan { rpm: 0 },
        write(RINGS, 0),
        note(0xFF),
        sample(306),
        note(0),
        write(LIMIT, 151),
        // Nothing is in force now: neither checked nor counted.
        sample(306),
        write(RINGS, 0),
        PLAN,
        PLAN,
        write(0x40, 0x80),
    ];
    let met = |calls: &[Call]| {
        let mut seen = Seen::default();
        assert_eq!(first_broken_plan(SOUND, &START, calls, &mut seen), None);
        seen
    };
    let seen = met(&list);
    assert_eq!(
        format!("{seen:?}"),
        "Seen { rang: [1], silent: [1], resets: [1], rewrites: [1], next_plans: [1], \
         same_bits: [1], refused_plans: 1, refused_writes: 1, refused_samples: 1 }"
    );
    assert_eq!(seen.checks(), 2);
    assert!(seen.enough(1) && !seen.enough(2));
    assert!(!met(&list[..list.len() - 1]).enough(1));
}
