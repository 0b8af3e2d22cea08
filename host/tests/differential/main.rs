//! The proved library against the second program.
//!
//! Every call goes through the C boundary (or through the wrapper over it), and
//! the answer, the byte and all 128 bytes of the image after it are held to what
//! `reference` gives, and in lists of calls what is seen of the monitor too. What
//! is expected comes from `reference` or from the paper, never from the library.

mod accesses;
mod boundary;
mod calls;
#[path = "../common/mod.rs"]
mod common;
mod events;
mod image;
mod in_force;
mod plans;
mod planted;
mod readings;
mod records;
mod samples;
mod seen;
mod sequences;
