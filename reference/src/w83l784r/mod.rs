//! The W83L784R, the laptop monitor of request C-16: its registers, and what its
//! calls do to them.
//!
//! "002" is its data sheet. Section numbers without a paper's name, and the
//! numbers K-nn, are those of the C-16 table, the project's reading of C-16, 002
//! and document 01; docs/DECISIONS.md has the points K-nn. The files follow its
//! order: registers (sections 1, 2), bus accesses, reset and commissioning (3, 5,
//! 7), the sample (4), the outputs (6), plans (8).
//!
//! The part has no banks (K-29), no chassis latch and no event records.

mod in_force;
mod map;
mod monitor;
mod outputs;
mod plan;
mod sample;

pub use in_force::{rewrites, InForce};
pub use map::{cell, find, set, Kind, Register, Row, SetRow, CELLS, REGISTERS, ROWS, SET_ROWS};
pub use monitor::Monitor;
pub use sample::Sample;
