// SPDX-License-Identifier: MIT OR Apache-2.0
//! The timekeeping core of the Linux kernel: clocks from the readings of a counter.
//!
//! A [`Counter`] describes a cycle counter, a [`Clock`] runs its clocks, and a [`Snapshot`]
//! converts readings into times. A [`Page`] and a [`Latch`] publish snapshots to readers without a
//! lock, in threads and in other processes. The clocks are those of the C library, which is proved;
//! this crate is not.
//!
//! ```
//! use tkcore::{Clock, ClockId, Command, Counter, Refusal, Timespec};
//!
//! let counter = Counter::from_hz(32, 1_000_000, 600)?;
//! let mut clock = Clock::open(&counter, 0, Timespec { sec: 1_700_000_000, nsec: 0 })?;
//! clock.apply(1_000_000, Command::Update)?;
//! let time = clock.snapshot().get(ClockId::Realtime, 2_000_000)?;
//! assert_eq!(time, Timespec { sec: 1_700_000_002, nsec: 0 });
//! # Ok::<(), Refusal>(())
//! ```
//!
//! Readings and stamps are cycles of the counter, 0 to 2^bits - 1. Times are seconds and
//! nanoseconds, or `u64` nanoseconds in lists.

#![no_std]
#![deny(unsafe_code)]
#![warn(missing_docs)]

#[forbid(unsafe_code)]
mod clock;
#[forbid(unsafe_code)]
mod command;
#[forbid(unsafe_code)]
mod counter;
#[forbid(unsafe_code)]
mod latch;
#[forbid(unsafe_code)]
mod ntp;
#[forbid(unsafe_code)]
mod page;
#[forbid(unsafe_code)]
mod refusal;
#[forbid(unsafe_code)]
mod request;
#[forbid(unsafe_code)]
mod shared;
#[forbid(unsafe_code)]
mod snapshot;
#[allow(unsafe_code)]
mod sys;
#[forbid(unsafe_code)]
mod timespec;

pub use clock::{Clock, ClockWords, SAVED_WORDS};
pub use command::Command;
pub use counter::Counter;
pub use latch::{Latch, LATCH_WORDS};
pub use ntp::{mode, status, Reply, SteeredClock, TimeState, Timex, NTP_SAVED_WORDS};
pub use page::{Page, Publish, PAGE_WORDS};
pub use refusal::{Refusal, Unconverted};
pub use request::{OutOfRange, Unsteered};
pub use snapshot::{ClockId, Snapshot, WORDS};
pub use sys::{shared_words, version};
pub use timespec::Timespec;

/// Runs the example of the README as a doc test.
#[cfg(doctest)]
#[doc = include_str!("../README.md")]
struct Readme;
