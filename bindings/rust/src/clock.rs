// SPDX-License-Identifier: MIT OR Apache-2.0

use core::fmt;

use crate::{sys, Command, Counter, Refusal, Snapshot, Timespec, WORDS};

/// The number of 64-bit words that represent clocks with their counter.
pub const SAVED_WORDS: usize = 15;

/// The numbers that represent running clocks, for files and other processes.
#[derive(Clone, Copy, Debug, PartialEq, Eq, Hash)]
pub struct ClockWords {
    /// The words of the clocks' snapshot.
    pub words: [u64; WORDS],
    /// The frequency as it was set, in 2^-16 ppm.
    pub frequency: i64,
    /// The tick, in us.
    pub tick: i64,
}

/// The running clocks of a counter.
///
/// Apply a command, usually `Update`, at least once in each half of the counter's range. A command
/// needs `&mut`, so two threads can't change one `Clock` without a lock:
///
/// ```compile_fail,E0499
/// # use tkcore::{Clock, Command, Counter, Timespec};
/// # let counter = Counter::from_hz(32, 1_000_000, 600).unwrap();
/// let mut clock = Clock::open(&counter, 0, Timespec::default()).unwrap();
/// std::thread::scope(|threads| {
///     threads.spawn(|| clock.apply(1, Command::Update));
///     threads.spawn(|| clock.apply(1, Command::Update));
/// });
/// ```
#[derive(Clone)]
pub struct Clock {
    pub(crate) value: sys::ClockValue,
    pub(crate) counter: Counter,
}

impl Clock {
    /// Opens clocks at a reading, where REALTIME and TAI are `start`, 0 s to below 8,277,292,036 s,
    /// and MONOTONIC, MONOTONIC_RAW and BOOTTIME are 0.
    ///
    /// # Errors
    ///
    /// `Invalid` if the reading or `start` is out of its range.
    pub fn open(counter: &Counter, reading: u64, start: Timespec) -> Result<Clock, Refusal> {
        let value = sys::clock_open(&counter.value, reading, start).map_err(Refusal::of_code)?;
        Ok(Clock { value, counter: *counter })
    }

    /// Opens clocks as [`open`](Clock::open) does, except that MONOTONIC, MONOTONIC_RAW and
    /// BOOTTIME are `uptime`, 0 s to below 946,080,000 s and at most `start`.
    ///
    /// # Errors
    ///
    /// In this order: `Invalid` if the reading, `start` or a negative `uptime` is out of its range;
    /// `Range` if `uptime` is at the limit of MONOTONIC or past it; `Invalid` if REALTIME would be
    /// below MONOTONIC.
    pub fn open_at(
        counter: &Counter,
        reading: u64,
        start: Timespec,
        uptime: Timespec,
    ) -> Result<Clock, Refusal> {
        let value =
            sys::clock_open_at(&counter.value, reading, start, uptime).map_err(Refusal::of_code)?;
        Ok(Clock { value, counter: *counter })
    }

    /// Makes the clocks of a counter that the result of [`words`](Clock::words) represents.
    ///
    /// # Errors
    ///
    /// `BadWords` if no running clocks have these numbers.
    pub fn from_words(counter: &Counter, words: &ClockWords) -> Result<Clock, Refusal> {
        let value = sys::clock_from_words(&counter.value, words).map_err(Refusal::of_code)?;
        Ok(Clock { value, counter: *counter })
    }

    /// Returns the numbers that represent the clocks.
    #[must_use]
    pub fn words(&self) -> ClockWords {
        sys::clock_words(&self.value)
    }

    /// Makes the clocks that the result of [`save`](Clock::save) represents.
    ///
    /// # Errors
    ///
    /// `OtherVersion`, and then `BadWords` if no running clocks of any counter have these words.
    pub fn load(words: &[u64; SAVED_WORDS]) -> Result<Clock, Refusal> {
        sys::check_version()?;
        let value = sys::clock_load(words).map_err(Refusal::of_code)?;
        Ok(Clock { value, counter: Counter::of_snapshot(&sys::clock_snapshot(&value)) })
    }

    /// Returns the words that represent the clocks with their counter: the words of the snapshot;
    /// bits, mult and shift of the counter; the frequency and the tick, in two's complement.
    #[inline]
    #[must_use]
    pub fn save(&self) -> [u64; SAVED_WORDS] {
        sys::clock_save(&self.value)
    }

    /// Returns the frequency as it was set, in 2^-16 ppm.
    #[must_use]
    pub fn frequency(&self) -> i64 {
        sys::clock_frequency(&self.value)
    }

    /// Returns the tick, in us.
    #[must_use]
    pub fn tick(&self) -> i64 {
        sys::clock_tick(&self.value)
    }

    /// Returns the counter of the clocks.
    #[must_use]
    pub fn counter(&self) -> &Counter {
        &self.counter
    }

    /// Applies a command at a reading.
    ///
    /// # Errors
    ///
    /// In this order: `Full`; `Asleep` or `Awake`; `Invalid` for the reading and the arguments;
    /// `Behind`; `Range`; `Invalid` for a time that REALTIME may not be set to. A refused command
    /// changes nothing.
    #[inline]
    pub fn apply(&mut self, reading: u64, command: Command) -> Result<(), Refusal> {
        sys::clock_apply(&mut self.value, reading, command.arguments()).map_err(Refusal::of_code)
    }

    /// Lets the clocks go on over another counter, starting at its reading `first`. `reading` is a
    /// reading of the present counter; take both at the same moment.
    ///
    /// Every clock keeps its time, and the frequency, the tick, the offsets and the sleep stay.
    /// Clocks that are asleep aren't brought forward to `reading`, which may then be behind. All
    /// later readings are of the new counter. A `Snapshot` keeps its own.
    ///
    /// # Errors
    ///
    /// In this order: `Full`; `Invalid` if `first` or `reading` is above 2^bits - 1 of its counter;
    /// `Behind`; `Range`, also if MONOTONIC_RAW would be too far ahead of MONOTONIC for the new
    /// counter. A refused change changes nothing.
    pub fn change_counter(
        &mut self,
        reading: u64,
        counter: &Counter,
        first: u64,
    ) -> Result<(), Refusal> {
        sys::clock_change_counter(&mut self.value, reading, &counter.value, first)
            .map_err(Refusal::of_code)?;
        self.counter = *counter;
        Ok(())
    }

    /// Returns a snapshot of the clocks, for reads.
    #[inline]
    #[must_use]
    pub fn snapshot(&self) -> Snapshot {
        Snapshot { value: sys::clock_snapshot(&self.value), counter: self.counter }
    }
}

impl PartialEq for Clock {
    fn eq(&self, other: &Clock) -> bool {
        self.counter == other.counter && self.words() == other.words()
    }
}

impl Eq for Clock {}

impl fmt::Debug for Clock {
    fn fmt(&self, out: &mut fmt::Formatter<'_>) -> fmt::Result {
        out.debug_struct("Clock")
            .field("counter", &self.counter)
            .field("words", &self.words())
            .finish()
    }
}
