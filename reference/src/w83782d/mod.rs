//! The W83782D: its registers, and what its calls do to them.

mod in_force;
mod map;
mod monitor;
mod plan;
mod readings;
mod record;
mod report;
mod sample;

pub use in_force::{rewrites, InForce};
pub use map::{cell, find, Register, Row, ANY, CELLS, REGISTERS, ROWS};
pub use monitor::Monitor;
pub use readings::{millivolts, pwm_parts};
pub use record::{decode, record_at, write_record, Event, RECORD_LENGTH};
pub use report::{Report, DAY};
pub use sample::Sample;
