//! The built programs `replay`, `plan` and `day_report` against the second program, and
//! the commands at the top of the repository.
//!
//! Each program is run on many inputs, and every line that it prints is held to a line
//! that this package's library makes from what `reference` gives.

#[path = "../../../log-tool/tests/common/mod.rs"]
mod common;

mod commands;
mod failures;
mod logs;
mod plan;
mod program;
mod readers;
mod replay;
mod report;
mod second;
