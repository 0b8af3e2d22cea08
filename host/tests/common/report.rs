//! A failing list of calls, made small and put into words.

use super::lists::{first_disagreement, Listed, Model, Subject};
use std::fmt::{Debug, Write};

/// The place of the first call of a list that fails.
type Fails<'a, C> = &'a dyn Fn(&[C]) -> Option<usize>;

/// Holds a list of calls to what is expected; `origin` says how to make it again.
pub fn hold<M: Model>(subject: Subject<M>, start: &M::Image, calls: &[M::Call], origin: &str) {
    let fails = |calls: &[M::Call]| first_disagreement(subject, start, calls);
    if fails(calls).is_some() {
        let shortest = shrink(&fails, calls);
        panic!("{}", explain(subject, start, &shortest, origin));
    }
}

/// The calls up to the first that fails, and then without those that the failure
/// doesn't need: large parts are tried first, single calls last. Then calls are
/// made simpler.
pub fn shrink<C: Listed>(fails: Fails<C>, calls: &[C]) -> Vec<C> {
    let mut shown = prefix(fails, calls).expect("the calls fail");
    let mut part = shown.len().div_ceil(2);
    loop {
        match without_a_part(fails, &shown, part) {
            Some(fewer) => shown = fewer,
            None if part == 1 => match with_a_simpler_call(fails, &shown) {
                Some(simpler) => shown = simpler,
                None => return shown,
            },
            None => part = part.div_ceil(2),
        }
        part = part.min(shown.len());
    }
}

/// The shortest prefix that fails.
fn prefix<C: Listed>(fails: Fails<C>, calls: &[C]) -> Option<Vec<C>> {
    fails(calls).map(|last| calls[..=last].to_vec())
}

/// A shorter list that fails, with one part of so many calls left out.
fn without_a_part<C: Listed>(fails: Fails<C>, calls: &[C], part: usize) -> Option<Vec<C>> {
    (0..calls.len()).step_by(part).find_map(|from| {
        let to = calls.len().min(from + part);
        let fewer = [&calls[..from], &calls[to..]].concat();
        prefix(fails, &fewer)
    })
}

/// A list that fails, with one call in a simpler form.
fn with_a_simpler_call<C: Listed>(fails: Fails<C>, calls: &[C]) -> Option<Vec<C>> {
    (0..calls.len()).find_map(|place| {
        calls[place].simpler().find_map(|call| {
            let mut simpler = calls.to_vec();
            simpler[place] = call;
            prefix(fails, &simpler)
        })
    })
}

/// The start, the calls, and what the last of them should have given.
pub fn explain<M: Model>(
    subject: Subject<M>,
    start: &M::Image,
    calls: &[M::Call],
    origin: &str,
) -> String {
    let mut text = format!("{origin}: disagreement\nstart:\n");
    for (line, bytes) in start.as_ref().chunks(16).enumerate() {
        let _ = writeln!(text, "  {:3}: {bytes:02X?}", 16 * line);
    }
    let mut expected = M::of(start);
    let mut found = *start;
    tell_seen(&mut text, expected.seen(), (subject.seen)(&found));
    for call in calls {
        let answers = (expected.call(call), (subject.call)(&mut found, call));
        let _ = writeln!(text, "{}", call.in_words());
        if answers.0 != answers.1 {
            let _ = writeln!(
                text,
                "  {}: expected {:02X?}, found {:02X?}",
                M::ANSWER,
                answers.0,
                answers.1
            );
        }
        let bytes = expected.image().as_ref().iter().zip(found.as_ref());
        for (at, (expected, found)) in bytes.enumerate().filter(|(_, (e, f))| e != f) {
            let place = M::place(at);
            let _ = writeln!(
                text,
                "  {place}: expected {expected:02X}h, found {found:02X}h"
            );
        }
        tell_seen(&mut text, expected.seen(), (subject.seen)(&found));
    }
    text
}

fn tell_seen<L: PartialEq + Debug>(text: &mut String, expected: L, found: L) {
    if expected != found {
        let _ = writeln!(text, "  expected {expected:?},\n  found    {found:?}");
    }
}
