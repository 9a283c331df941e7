// SPDX-License-Identifier: MIT OR Apache-2.0

use crate::Timespec;

/// Changes the clocks at a reading. Every command except `Resume` first brings them forward to it.
#[derive(Clone, Copy, Debug, PartialEq, Eq)]
pub enum Command {
    /// Makes no other change (`update_wall_time`).
    Update,
    /// Sets REALTIME, 0 s to below 8,277,292,036 s and not below MONOTONIC (`do_settimeofday64`).
    SetTime(Timespec),
    /// Moves REALTIME by this amount, whose `sec` may be negative. The result must be in the range
    /// of `SetTime` (`timekeeping_inject_offset`).
    Step(Timespec),
    /// Sets the frequency, in 2^-16 ppm (adjtimex(2), ADJ_FREQUENCY). A frequency beyond 500 ppm
    /// has the effect of that limit.
    Freq(i64),
    /// Sets the tick, 9,000 to 11,000 us (adjtimex(2), ADJ_TICK).
    Tick(i64),
    /// Sets TAI minus REALTIME, 0 to 100,000 s (adjtimex(2), ADJ_TAI).
    Tai(i64),
    /// Makes a leap second: moves REALTIME by `by` seconds, -1 or 1, and sets TAI minus REALTIME to
    /// `tai`, 0 to 100,000 s (`accumulate_nsecs_to_secs`). -1 inserts a second. REALTIME must then
    /// be in the range of `SetTime`.
    Leap {
        /// The seconds by which REALTIME moves.
        by: i64,
        /// TAI minus REALTIME after it, in seconds.
        tai: u32,
    },
    /// Puts the clocks to sleep: none moves until `Resume` (`timekeeping_suspend`).
    Suspend,
    /// Wakes the clocks, which count again starting at the reading. BOOTTIME, REALTIME and TAI
    /// advance by this suspension, 0 s to below 9,223,372,036 s (`timekeeping_resume`).
    Resume(Timespec),
}

impl Command {
    /// Returns the command's number in C, and its arguments.
    #[inline]
    pub(crate) fn arguments(self) -> (u32, i64, u32) {
        match self {
            Command::Update => (0, 0, 0),
            Command::SetTime(time) => (1, time.sec, time.nsec),
            Command::Step(amount) => (2, amount.sec, amount.nsec),
            Command::Freq(frequency) => (3, frequency, 0),
            Command::Tick(tick) => (4, tick, 0),
            Command::Tai(offset) => (5, offset, 0),
            Command::Leap { by, tai } => (8, by, tai),
            Command::Suspend => (6, 0, 0),
            Command::Resume(slept) => (7, slept.sec, slept.nsec),
        }
    }
}
