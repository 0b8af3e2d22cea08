//! What the programs `replay`, `day_report` and `plan` print, by the second program.
//!
//! The lines are written here once, to any writer: the tests expect them of the
//! built programs, and the programs `replay`, `day_report` and `plan` of this package
//! print them, for `./bench` to measure the built ones against. The form of the lines is
//! README's and that of the built programs' own heads; that of the report is request
//! C-11's, in the second program.

mod lines;
mod names;
mod plans;
mod report;

pub use lines::replay;
pub use plans::{direct_plan, plan, searched_plan, LONGEST};
pub use report::report;

/// Bytes that are read and written at a time.
pub const PART: usize = 65_536;
