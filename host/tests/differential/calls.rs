//! Calls on a monitor, and how the library and `reference` carry them out.

use crate::boundary::{self, Answer};
use crate::common::lists::{self, Listed, Model};
use crate::image::{image_of, place, state_in, Image, LENGTH, SPARE};
use crate::samples::wrapped;
use crate::seen::{self, Seen};
use reference::answer::ACCEPTED;
use reference::w83782d::{decode, Event, Monitor, Sample, RECORD_LENGTH};
use std::iter;

#[derive(Clone, Debug, PartialEq, Eq)]
pub enum Call {
    PowerOn,
    Write {
        index: u8,
        value: u8,
    },
    Read {
        index: u8,
    },
    Look {
        index: u8,
    },
    ChassisOpened,
    Sample(Sample),
    SetPlan {
        fan: u8,
        rpm: u32,
    },
    /// A record, good or not, of any length.
    Event {
        record: Vec<u8>,
    },
    Replay {
        log: Vec<u8>,
    },
}

impl From<Event> for Call {
    fn from(event: Event) -> Call {
        match event {
            Event::Write { index, value } => Call::Write { index, value },
            Event::Read { index } => Call::Read { index },
            Event::Sample(sample) => Call::Sample(sample),
            Event::Chassis => Call::ChassisOpened,
        }
    }
}

impl Listed for Call {
    fn in_words(&self) -> String {
        match self {
            Call::PowerOn => "power-on".into(),
            Call::Write { index, value } => format!("write {value:02X}h to {index:02X}h"),
            Call::Read { index } => format!("read {index:02X}h"),
            Call::Look { index } => format!("look at {index:02X}h"),
            Call::ChassisOpened => "chassis opened".into(),
            Call::Sample(sample) => format!("{sample:?}"),
            Call::SetPlan { fan, rpm } => format!("plan {rpm} rpm on fan {fan}"),
            Call::Event { record } => format!("event {record:02X?}"),
            Call::Replay { log } => log
                .chunks(RECORD_LENGTH)
                .fold("replay".into(), |text, record| {
                    format!("{text}\n  {record:02X?}")
                }),
        }
    }

    /// For a log, the logs without a part of its records, large parts first, or its
    /// only record; for a record, the call of its event.
    fn simpler(&self) -> Box<dyn Iterator<Item = Call> + '_> {
        match self {
            Call::Replay { log } if log.len() == RECORD_LENGTH => {
                Box::new(iter::once(Call::Event {
                    record: log.clone(),
                }))
            }
            Call::Replay { log } => Box::new(shorter(log).map(|log| Call::Replay { log })),
            Call::Event { record } => Box::new(decode(record).ok().map(Call::from).into_iter()),
            _ => Box::new(iter::empty()),
        }
    }
}

/// The logs without one part of the records: each half, each quarter, and so on to
/// single records.
fn shorter(log: &[u8]) -> impl Iterator<Item = Vec<u8>> + '_ {
    let records = log.len().div_ceil(RECORD_LENGTH);
    let parts = iter::successors(Some(records), |part| (*part > 1).then(|| part.div_ceil(2)));
    parts.skip(1).flat_map(move |part| {
        let length = part * RECORD_LENGTH;
        (0..log.len()).step_by(length).map(move |from| {
            let to = log.len().min(from + length);
            [&log[..from], &log[to..]].concat()
        })
    })
}

pub type Subject = lists::Subject<Expected>;
pub type CarryOut = lists::CarryOut<Expected>;
pub type See = lists::See<Expected>;

pub const LIBRARY: Subject = Subject {
    call: library,
    seen: seen::library,
};

pub const WRAPPER: Subject = Subject {
    call: wrapper,
    seen: seen::wrapper,
};

/// The library through its C boundary.
pub fn library(image: &mut Image, call: &Call) -> Answer {
    match call {
        Call::PowerOn => (boundary::power_on(image), 0),
        Call::Write { index, value } => (boundary::write(image, *index, *value), 0),
        Call::Read { index } => boundary::read(image, *index),
        Call::Look { index } => boundary::look(image, *index),
        Call::ChassisOpened => (boundary::chassis_opened(image), 0),
        Call::Sample(sample) => (boundary::sample(image, &sample.codes, sample), 0),
        Call::SetPlan { fan, rpm } => (boundary::set_plan(image, *fan, *rpm), 0),
        Call::Event { record } => boundary::event(image, record),
        Call::Replay { log } => boundary::replay(image, log),
    }
}

/// The library through the wrapper.
fn wrapper(image: &mut Image, call: &Call) -> Answer {
    let mut monitor = w83782d::Monitor::from_image(*image);
    let mut accepted = 0;
    let byte = match call {
        Call::PowerOn => {
            monitor = w83782d::Monitor::power_on();
            Ok(0)
        }
        Call::Write { index, value } => monitor.write(*index, *value).map(|()| 0),
        Call::Read { index } => monitor.read(*index),
        Call::Look { index } => monitor.look(*index),
        Call::ChassisOpened => {
            monitor.chassis_opened();
            Ok(0)
        }
        Call::Sample(sample) => monitor.sample(&wrapped(sample)).map(|()| 0),
        Call::SetPlan { fan, rpm } => monitor.set_plan(*fan, *rpm).map(|()| 0),
        Call::Event { record } => monitor.apply(record),
        Call::Replay { log } => {
            let replay = monitor.replay(log);
            accepted = replay.accepted;
            replay.end.map(|()| 0)
        }
    };
    *image = *monitor.image();
    match byte {
        Ok(byte) => (ACCEPTED, accepted + u64::from(byte)),
        Err(refusal) => (refusal.number(), accepted),
    }
}

/// What is expected: `reference`'s monitor, and the image that goes with it.
#[derive(Clone)]
pub struct Expected {
    monitor: Monitor,
    image: Image,
}

impl Model for Expected {
    type Image = Image;
    type Call = Call;
    type Answer = Answer;
    type Seen = Seen;

    const ANSWER: &'static str = "(answer, byte or records)";

    fn of(image: &Image) -> Expected {
        Expected {
            monitor: state_in(image),
            image: *image,
        }
    }

    /// An accepted call leaves its state in the image and keeps the spare bytes,
    /// which power-on sets to 0. A refused call leaves every byte, and so do a look
    /// and a replay that accepted no record; any other replay is an accepted call.
    fn call(&mut self, call: &Call) -> Answer {
        let mut spare = [0; LENGTH - SPARE];
        spare.copy_from_slice(&self.image[SPARE..]);
        let (answer, more) = match call {
            Call::PowerOn => {
                self.monitor = Monitor::power_on();
                spare.fill(0);
                (ACCEPTED, 0)
            }
            Call::Write { index, value } => (self.monitor.write(*index, *value), 0),
            Call::Read { index } => with_byte(self.monitor.read(*index)),
            Call::Look { index } => with_byte(self.monitor.look(*index)),
            Call::ChassisOpened => (self.monitor.chassis_opened(), 0),
            Call::Sample(sample) => (self.monitor.sample(sample), 0),
            Call::SetPlan { fan, rpm } => (self.monitor.set_plan(*fan, *rpm), 0),
            Call::Event { record } => match decode(record) {
                Ok(event) => with_byte(self.monitor.apply(&event)),
                Err(refusal) => (refusal, 0),
            },
            Call::Replay { log } => self.monitor.replay(log),
        };
        let changed = match call {
            Call::Replay { .. } => more > 0,
            Call::Look { .. } => false,
            _ => answer == ACCEPTED,
        };
        if changed {
            self.image = image_of(&self.monitor, &spare);
        }
        (answer, more)
    }

    fn seen(&self) -> Seen {
        seen::expected(&self.monitor)
    }

    fn image(&self) -> &Image {
        &self.image
    }

    fn place(at: usize) -> String {
        place(at)
    }
}

fn with_byte((answer, byte): (u8, u8)) -> Answer {
    (answer, byte.into())
}
