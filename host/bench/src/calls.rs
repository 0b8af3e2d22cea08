//! One kind of call made in both programs, on the same inputs from the same
//! states.

use crate::image::{state_in, Image};
use reference::w83782d::{Event, Monitor};
use reference::Plan;
use std::fmt::Debug;
use std::hint::black_box;
use std::rc::Rc;

/// A row of the table.
pub struct Row {
    pub name: &'static str,
    /// What the second program does for it.
    pub second: &'static str,
    /// Ratio to stay within, where it says something.
    pub goal: Option<f64>,
    /// What its library call is held to besides.
    pub own: Option<Own>,
    /// Calls of one pass; records, where a call is a whole log.
    pub calls: u64,
    /// Holds answers and states of both programs to each other.
    pub check: Box<dyn Fn()>,
    /// So many passes by the library, and by the second program.
    pub passes: [Box<dyn Fn(u64)>; 2],
}

/// The library's call of another row, and the ratio to stay within.
#[derive(Clone, Copy)]
pub struct Own {
    pub row: &'static str,
    pub goal: f64,
    pub measure: Measure,
}

/// What such a ratio is of.
#[derive(Clone, Copy, PartialEq, Eq)]
pub enum Measure {
    Time,
    Instructions,
}

/// What is said of a row, apart from its calls.
pub struct About {
    pub name: &'static str,
    pub second: &'static str,
    pub goal: Option<f64>,
    pub own: Option<Own>,
    /// No call of it may be refused: a refusal would be measured in its place.
    pub all_accepted: bool,
    /// What one input counts for in a pass.
    pub weight: u64,
}

/// Where both programs start, and the inputs from there on.
#[derive(Clone)]
pub struct Run<S, T, I> {
    pub library: S,
    pub second: T,
    pub inputs: Rc<[I]>,
}

/// A row of these calls, the library's first.
pub fn row<S, T, I, A, B>(
    about: About,
    runs: Vec<Run<S, T, I>>,
    library: impl Fn(&mut S, &I) -> A + 'static,
    second: impl Fn(&mut T, &I) -> B + 'static,
) -> Row
where
    S: State + 'static,
    T: State + 'static,
    I: Debug + 'static,
    A: Answer + 'static,
    B: Answer + 'static,
{
    let inputs: usize = runs.iter().map(|run| run.inputs.len()).sum();
    let runs = Rc::new(runs);
    let (library, second) = (Rc::new(library), Rc::new(second));
    let all_accepted = about.all_accepted;
    Row {
        name: about.name,
        second: about.second,
        goal: about.goal,
        own: about.own,
        calls: inputs as u64 * about.weight,
        check: {
            let (runs, library, second) = (runs.clone(), library.clone(), second.clone());
            Box::new(move || hold(about.name, &runs, &*library, &*second, all_accepted))
        },
        passes: [
            {
                let runs = runs.clone();
                Box::new(move |n| passes(&runs, |run| &run.library, &*library, n))
            },
            Box::new(move |n| passes(&runs, |run| &run.second, &*second, n)),
        ],
    }
}

/// What is measured. Each pass starts from the same states, so that it does what
/// was checked. The answer goes to memory as it is: packing it would be work
/// that only one of the programs has.
#[inline(never)]
fn passes<S, T, I, U: State, A>(
    runs: &[Run<S, T, I>],
    start: impl Fn(&Run<S, T, I>) -> &U,
    call: &impl Fn(&mut U, &I) -> A,
    passes: u64,
) {
    for _ in 0..passes {
        for run in runs {
            let mut state = start(run).clone();
            for input in &*run.inputs {
                black_box(&call(&mut state, input));
            }
            black_box(&state);
        }
    }
}

/// The same answer to each call, and the same state after it.
fn hold<S: State, T: State, I: Debug, A: Answer, B: Answer>(
    name: &str,
    runs: &[Run<S, T, I>],
    library: &impl Fn(&mut S, &I) -> A,
    second: &impl Fn(&mut T, &I) -> B,
    all_accepted: bool,
) {
    for run in runs {
        let (mut left, mut right) = (run.library.clone(), run.second.clone());
        assert_eq!(left.seen(), right.seen(), "{name}: other starts");
        for (n, input) in run.inputs.iter().enumerate() {
            let answer = library(&mut left, input).parts();
            let expected = second(&mut right, input).parts();
            // A log is too long to show.
            let at = || format!("{name}: input {n}, {:.200}", format!("{input:02X?}"));
            assert_eq!(answer, expected, "{}", at());
            assert_eq!(left.seen(), right.seen(), "{}", at());
            assert!(answer.0 == 0 || !all_accepted, "{}: refused", at());
        }
    }
}

/// What calls change, as either program keeps it.
pub trait State: Clone {
    fn seen(&self) -> Seen;
}

/// What is compared: the same type, whichever program kept it.
#[derive(Debug, PartialEq)]
pub enum Seen {
    Monitor(Monitor),
    Text(Vec<u8>),
    Nothing,
}

impl State for Image {
    fn seen(&self) -> Seen {
        Seen::Monitor(state_in(self))
    }
}

impl State for Monitor {
    fn seen(&self) -> Seen {
        Seen::Monitor(*self)
    }
}

/// A report's lines, in a buffer that a call is lent.
impl State for Text {
    fn seen(&self) -> Seen {
        Seen::Text(self.to_vec())
    }
}

pub type Text = [u8; 4096];

/// Decoding and planning need no monitor.
impl State for () {
    fn seen(&self) -> Seen {
        Seen::Nothing
    }
}

/// What a call returns: the answer number, and what is beside it.
pub trait Answer {
    fn parts(&self) -> (u8, u64);
}

impl Answer for u8 {
    fn parts(&self) -> (u8, u64) {
        (*self, 0)
    }
}

/// The library's word of a read, a look or an event.
impl Answer for u16 {
    fn parts(&self) -> (u8, u64) {
        ((self >> 8) as u8, u64::from(self & 0xFF))
    }
}

impl Answer for (u8, u8) {
    fn parts(&self) -> (u8, u64) {
        (self.0, self.1.into())
    }
}

/// The library's word of a plan or of the outputs.
impl Answer for u32 {
    fn parts(&self) -> (u8, u64) {
        ((self >> 16) as u8, u64::from(self & 0xFFFF))
    }
}

impl Answer for (u8, u32, u8) {
    fn parts(&self) -> (u8, u64) {
        (self.0, u64::from(self.1) << 8 | u64::from(self.2))
    }
}

/// Alarms, and the bits SMI, OVT of sensor 2, OVT of sensor 3.
impl Answer for (u32, bool, bool, bool) {
    fn parts(&self) -> (u8, u64) {
        let bits = [self.1, self.2, self.3].map(u64::from);
        (
            0,
            u64::from(self.0) << 8 | bits[2] << 2 | bits[1] << 1 | bits[0],
        )
    }
}

/// No plan is answer 6.
impl Answer for Option<Plan> {
    fn parts(&self) -> (u8, u64) {
        match self {
            Some(plan) => (0, 1 << (8 + plan.k) | u64::from(plan.limit)),
            None => (6, 0),
        }
    }
}

/// How long a text is.
impl Answer for usize {
    fn parts(&self) -> (u8, u64) {
        (0, *self as u64)
    }
}

/// The library's word of a replay.
impl Answer for u64 {
    fn parts(&self) -> (u8, u64) {
        ((self >> 60) as u8, self & !(0xF << 60))
    }
}

impl Answer for (u8, u64) {
    fn parts(&self) -> (u8, u64) {
        *self
    }
}

/// The library tells the answer alone; the second program's event stays in memory.
impl Answer for Result<Event, u8> {
    fn parts(&self) -> (u8, u64) {
        (self.err().unwrap_or(0), 0)
    }
}
