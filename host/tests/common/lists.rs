//! Lists of calls, held to what is expected of them.

use std::fmt::Debug;

/// A call of a list.
pub trait Listed: Clone {
    fn in_words(&self) -> String;

    /// What may take its place in a failing list, made one by one, since a call may
    /// be long. Each must be simpler than it: the search goes on from there.
    fn simpler(&self) -> Box<dyn Iterator<Item = Self> + '_>;
}

/// What is expected of a chip: its state by the second program, and the image that
/// goes with it.
pub trait Model: Clone {
    type Image: Copy + PartialEq + AsRef<[u8]>;
    type Call: Listed;
    /// The answer, and what comes with it.
    type Answer: PartialEq + Debug;
    /// What is seen of a state without changing it.
    type Seen: PartialEq + Debug;

    /// The parts of an answer, in words.
    const ANSWER: &'static str;

    /// The state in an image.
    fn of(image: &Self::Image) -> Self;

    fn call(&mut self, call: &Self::Call) -> Self::Answer;

    fn seen(&self) -> Self::Seen;

    fn image(&self) -> &Self::Image;

    /// What a byte of the image is, in words.
    fn place(at: usize) -> String;
}

/// What is tested: how a call is carried out on an image, and what is then seen.
pub struct Subject<M: Model> {
    pub call: CarryOut<M>,
    pub seen: See<M>,
}

pub type CarryOut<M> = fn(&mut <M as Model>::Image, &<M as Model>::Call) -> <M as Model>::Answer;
pub type See<M> = fn(&<M as Model>::Image) -> <M as Model>::Seen;

// By hand: derived, they would ask for a model that is `Copy`.
impl<M: Model> Clone for Subject<M> {
    fn clone(&self) -> Self {
        *self
    }
}

impl<M: Model> Copy for Subject<M> {}

/// Whether one call from an image agrees, without what is then seen.
pub fn agrees<M: Model>(subject: Subject<M>, start: &M::Image, call: &M::Call) -> bool {
    let mut expected = M::of(start);
    let mut found = *start;
    (subject.call)(&mut found, call) == expected.call(call) && found == *expected.image()
}

/// Carries out one more call on both sides: whether the answers, what is then
/// seen and the images agree.
pub fn step<M: Model>(
    subject: Subject<M>,
    expected: &mut M,
    found: &mut M::Image,
    call: &M::Call,
) -> bool {
    (subject.call)(found, call) == expected.call(call)
        && (subject.seen)(found) == expected.seen()
        && *found == *expected.image()
}

/// The place of the first call of a list that does not agree.
pub fn first_disagreement<M: Model>(
    subject: Subject<M>,
    start: &M::Image,
    calls: &[M::Call],
) -> Option<usize> {
    let mut expected = M::of(start);
    let mut found = *start;
    calls
        .iter()
        .position(|call| !step(subject, &mut expected, &mut found, call))
}
