//! What the tests of any chip share: calls made by a program under test and by one
//! that says what is expected, a failing list of calls made small and put into
//! words, plans in force over a list, random numbers by seed. Nothing here names a
//! chip.
//!
//! Each test program uses its part of it; one in another directory takes it in by
//! its path.
#![allow(dead_code)]

pub mod in_force;
pub mod lists;
pub mod report;
pub mod rng;
