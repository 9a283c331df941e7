// SPDX-License-Identifier: MIT OR Apache-2.0

/// A time or an amount of time: `sec * 10^9 + nsec` nanoseconds.
///
/// As in the kernel's `struct timespec64`, `sec` may be negative, and `nsec` counts upwards from
/// it.
#[repr(C)]
#[derive(Clone, Copy, Debug, Default, PartialEq, Eq, PartialOrd, Ord, Hash)]
pub struct Timespec {
    /// Whole seconds.
    pub sec: i64,
    /// The nanoseconds after `sec`, below 10^9. A command with 10^9 or more is refused.
    pub nsec: u32,
}

impl Timespec {
    /// Returns the nanoseconds of a time or an amount.
    #[must_use]
    pub const fn nanos(self) -> i128 {
        self.sec as i128 * 1_000_000_000 + self.nsec as i128
    }

    /// Returns a number of nanoseconds as seconds and nanoseconds.
    #[must_use]
    pub const fn from_nanos(nanos: i64) -> Timespec {
        Timespec {
            sec: nanos.div_euclid(1_000_000_000),
            nsec: nanos.rem_euclid(1_000_000_000) as u32,
        }
    }
}
