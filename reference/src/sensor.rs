//! The steps of one temperature sensor by its armed/hot mark, in the two modes
//! of document 01. Where a chip keeps the mark, and what a step latches or
//! asserts, is the chip's.

/// "Each sensor is either armed or hot."
#[derive(Clone, Copy, Debug, PartialEq, Eq)]
pub enum Mark {
    Armed,
    Hot,
}

/// "In comparator mode hot means above at the last sample."
pub(crate) fn comparator_mark(above: bool) -> Mark {
    if above {
        Mark::Hot
    } else {
        Mark::Armed
    }
}

/// "Armed and above the over limit: latch, hot; hot and below hysteresis: latch,
/// armed; one step a sample." Says whether a step was made.
pub(crate) fn two_times(mark: &mut Mark, above: bool, below: bool) -> bool {
    match *mark {
        Mark::Armed if above => {
            *mark = Mark::Hot;
            true
        }
        Mark::Hot if below => {
            *mark = Mark::Armed;
            true
        }
        _ => false,
    }
}
