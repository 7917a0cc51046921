//! Paths say in which order the operations on a shared thing may run, and threads and tasks wait for their turn.
//!
#![doc = include_str!("../README.md")]
#![deny(unsafe_op_in_unsafe_fn, missing_docs, missing_debug_implementations, unreachable_pub, unsafe_code)]

mod alarm;
mod asking;
mod audit;
mod blocked;
mod clock;
mod entering;
mod error;
mod exploring;
mod guard;
#[allow(unsafe_code)]
mod holders;
mod memory;
mod names;
mod options;
#[cfg(test)]
mod order_tests;
mod paths;
mod queue;
#[allow(unsafe_code)]
mod shared;
mod state;
pub mod store;
#[allow(unsafe_code)]
mod sys;
mod threads;
mod waiting;

pub use audit::{audit, Verdict};
pub use blocked::{Blocked, Holder, Waiter};
pub use entering::{Enter, EnterOwned};
pub use error::Error;
pub use exploring::{explore, Explored, Schedule};
pub use guard::{Guard, OwnedGuard};
pub use options::{Options, MOST_LINES, USUAL_PATIENCE, USUAL_ROOM, USUAL_YIELDS};
pub use paths::{Op, Paths};
pub use state::Log;
pub use store::Store;
pub use threads::thread_number;

/// The version of the C library that the program runs with, as `0.1.0`.
#[must_use]
pub fn library_version() -> &'static str {
    sys::version()
}
