// SPDX-License-Identifier: MIT OR Apache-2.0

use core::error::Error;
use core::fmt;

/// Says why a call was refused. A refused call has changed nothing, unless it says so.
#[derive(Clone, Copy, Debug, PartialEq, Eq, Hash)]
#[non_exhaustive]
pub enum Refusal {
    /// The clocks have accepted 2^63 - 1 commands or more. Those of a
    /// [`SteeredClock`](crate::SteeredClock) have accepted so many that the commands of a call
    /// might be beyond that.
    Full,
    /// The clocks are asleep, and the command isn't `Resume`.
    Asleep,
    /// The clocks are awake, and the command is `Resume`.
    Awake,
    /// The reading is above 2^bits - 1, a number is out of its range, or REALTIME may not be set to
    /// the result.
    Invalid,
    /// The reading is behind the last accepted command's. For a `SteeredClock` also: it is behind
    /// the beginning of the present second, or behind the last request with modes.
    Behind,
    /// A clock would be at or past its limit.
    Range,
    /// The clock is on its way to the time, but doesn't reach it within half of the counter's
    /// range.
    Further,
    /// The clock doesn't reach the time: it is asleep or coarse, or reaches its limit first.
    Never,
    /// The words represent no snapshot or no clocks of the counter.
    BadWords,
    /// There are fewer times than stamps.
    BadRoom,
    /// The bits of a reading aren't 8 to 64.
    BadBits,
    /// The shift is above 32.
    BadShift,
    /// The mult is below 256.
    BadMult,
    /// The mult plus 11 percent doesn't fit in 32 bits.
    BadAdjust,
    /// The rate isn't 1 to 2^32 - 1, or 1 to 10^12 Hz of `Counter::finest`, or the span isn't 1 to
    /// 600 s.
    BadRate,
    /// A writer was inside at each try.
    Busy,
    /// The memory contains no page, or no latch, of this crate's layout.
    BadLayout,
    /// The memory is smaller than a page or a latch, or isn't aligned to 8 bytes.
    BadMemory,
    /// The linked library is of another version than this crate.
    OtherVersion,
}

impl Refusal {
    /// Returns the refusal of a code of `tkcore.h`. This crate's calls can't meet a code that isn't
    /// listed here, unless the library is of another version.
    #[inline]
    pub(crate) fn of_code(code: u32) -> Refusal {
        match code {
            1 => Refusal::Full,
            2 => Refusal::Asleep,
            3 => Refusal::Awake,
            4 => Refusal::Invalid,
            5 => Refusal::Behind,
            6 => Refusal::Range,
            8 => Refusal::Further,
            9 => Refusal::Never,
            18 => Refusal::BadWords,
            19 => Refusal::BadRoom,
            32 => Refusal::BadBits,
            33 => Refusal::BadShift,
            34 => Refusal::BadMult,
            35 => Refusal::BadAdjust,
            36 => Refusal::BadRate,
            _ => Refusal::OtherVersion,
        }
    }

    fn text(self) -> &'static str {
        match self {
            Refusal::Full => "the clocks have accepted 2^63 - 1 commands or more",
            Refusal::Asleep => "the clocks are asleep",
            Refusal::Awake => "the clocks are awake",
            Refusal::Invalid => "the reading or a number is out of its range",
            Refusal::Behind => "the reading is behind the last command's",
            Refusal::Range => "a clock would be at or past its limit",
            Refusal::Further => "the time is further away than half of the counter's range",
            Refusal::Never => "the clock doesn't reach the time",
            Refusal::BadWords => "the words represent nothing of this counter",
            Refusal::BadRoom => "there are fewer times than stamps",
            Refusal::BadBits => "the bits aren't 8 to 64",
            Refusal::BadShift => "the shift isn't 0 to 32",
            Refusal::BadMult => "the mult is below 256",
            Refusal::BadAdjust => "the mult plus 11 percent doesn't fit in 32 bits",
            Refusal::BadRate => "the rate isn't 1 to 2^32 - 1, or the span isn't 1 to 600 s",
            Refusal::Busy => "a writer was inside at each try",
            Refusal::BadLayout => "the memory contains none of this layout",
            Refusal::BadMemory => "the memory is too small, or not aligned to 8 bytes",
            Refusal::OtherVersion => "the library is of another version",
        }
    }
}

impl fmt::Display for Refusal {
    fn fmt(&self, out: &mut fmt::Formatter<'_>) -> fmt::Result {
        out.write_str(self.text())
    }
}

impl Error for Refusal {}

/// Says at which stamp a conversion ended. The times of the stamps before it are written.
#[derive(Clone, Copy, Debug, PartialEq, Eq, Hash)]
pub struct Unconverted {
    /// `Invalid` or `Range` for a stamp, or `BadRoom`, which comes before the first one.
    pub refusal: Refusal,
    /// The number of stamps that were converted.
    pub done: usize,
    /// The stamp that was refused, or 0 if `refusal` is `BadRoom`.
    pub stamp: u64,
    /// The greatest stamp of the counter, 2^bits - 1.
    pub max_reading: u64,
}

impl fmt::Display for Unconverted {
    fn fmt(&self, out: &mut fmt::Formatter<'_>) -> fmt::Result {
        let Unconverted { refusal, done, stamp, max_reading } = self;
        match refusal {
            Refusal::BadRoom => write!(out, "{refusal}"),
            Refusal::Invalid => {
                write!(out, "stamp {done} is {stamp} instead of 0 to {max_reading}")
            }
            _ => write!(out, "stamp {done}, {stamp}: {refusal}"),
        }
    }
}

impl Error for Unconverted {}
