//! What `plan` prints for its arguments.

use reference::answer::{ACCEPTED, BAD_SPEED};
use reference::Plan;
use std::io::{self, Write};

/// The longest argument that is looked at.
pub const LONGEST: usize = 4_096;

/// "A plan is for 1 to 1,350,000 rpm."
const FASTEST: u32 = 1_350_000;

const REFUSED: &str = "refused (6): a plan is for 1 to 1,350,000 rpm";

/// The plan that the second program finds by trying all 2,040: the one to believe.
pub fn searched_plan(rpm: u32) -> Option<Plan> {
    let (answer, divisor, limit) = reference::plan(rpm);
    if answer != ACCEPTED {
        assert_eq!(answer, BAD_SPEED);
        return None;
    }
    let k = divisor.trailing_zeros() as u8;
    Some(Plan { k, limit })
}

/// The plan by the second program's other planner, which tries the best limit of
/// each divisor: the one to measure against. To be inlined where it is used, as it
/// would be were it written there.
#[inline]
pub fn direct_plan(rpm: u32) -> Option<Plan> {
    (1..=FASTEST).contains(&rpm).then(|| Plan::of(rpm))
}

/// A line for each argument in turn: plans on `out`, the rest on `errors`.
pub fn plan<W: AsRef<[u8]>>(
    arguments: &[W],
    planner: impl Fn(u32) -> Option<Plan>,
    out: &mut impl Write,
    errors: &mut impl Write,
) -> io::Result<()> {
    if arguments.is_empty() {
        return writeln!(
            errors,
            "usage: plan SPEED ..  (turns a minute, 1 to 1350000)"
        );
    }
    for (n, word) in (1..).zip(arguments) {
        let word = word.as_ref();
        match number(word) {
            _ if word.len() > LONGEST => writeln!(errors, "argument {n}: too long for a speed")?,
            Number::Of(rpm) => match planner(rpm) {
                Some(plan) => write_plan(rpm, plan, out)?,
                None => writeln!(errors, "{rpm} rpm: {REFUSED}")?,
            },
            // Printed as it was written.
            Number::TooLarge => {
                errors.write_all(word)?;
                writeln!(errors, " rpm: {REFUSED}")?;
            }
            Number::None => {
                errors.write_all(word)?;
                let reason = "not a speed: write it as a whole number, in turns a minute";
                writeln!(errors, ": {reason}")?;
            }
        }
    }
    Ok(())
}

/// The speed is "13,500,000 / count, in tenths .. rounded down" (D-34).
fn write_plan(rpm: u32, plan: Plan, out: &mut impl Write) -> io::Result<()> {
    let (divisor, limit, count) = (1 << plan.k, plan.limit, plan.product());
    let tenths = 10 * FASTEST / count;
    writeln!(
        out,
        "{rpm} rpm: divisor {divisor}, limit {limit}, rings from count {count}, at {}.{} rpm and below",
        tenths / 10,
        tenths % 10
    )
}

/// What an argument says.
enum Number {
    Of(u32),
    /// Of ten digits or more, zeros in front aside.
    TooLarge,
    None,
}

fn number(word: &[u8]) -> Number {
    if word.is_empty() || !word.iter().all(u8::is_ascii_digit) {
        return Number::None;
    }
    let zeros = word.iter().take_while(|&&digit| digit == b'0').count();
    match &word[zeros..] {
        digits if digits.len() > 9 => Number::TooLarge,
        digits => Number::Of(
            digits
                .iter()
                .fold(0, |n, digit| n * 10 + u32::from(digit - b'0')),
        ),
    }
}
