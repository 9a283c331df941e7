// SPDX-License-Identifier: MIT OR Apache-2.0

use core::fmt;

use crate::{sys, Counter, Refusal, Timespec, Unconverted};

/// The number of 64-bit words that represent a snapshot.
pub const WORDS: usize = 10;

/// The number of words of a snapshot with its counter, in a page and in a latch.
pub(crate) const COPY: usize = WORDS + 3;

/// Names a clock, with the number of clock_gettime(2).
#[derive(Clone, Copy, Debug, PartialEq, Eq, Hash)]
pub enum ClockId {
    /// The time since 1970, which can be set and stepped.
    Realtime = 0,
    /// The time since the opening, without the suspensions. No command moves it back.
    Monotonic = 1,
    /// MONOTONIC at the counter's own rate, which no frequency and no tick changes.
    MonotonicRaw = 4,
    /// REALTIME at the last accepted command.
    RealtimeCoarse = 5,
    /// MONOTONIC at the last accepted command.
    MonotonicCoarse = 6,
    /// MONOTONIC plus all suspensions.
    Boottime = 7,
    /// REALTIME plus the TAI offset.
    Tai = 11,
}

/// The clocks as one command left them, for readers.
///
/// At a reading after the next accepted command it may give a later time than the next snapshot
/// gives.
#[derive(Clone, Copy)]
pub struct Snapshot {
    pub(crate) value: sys::SnapshotValue,
    pub(crate) counter: Counter,
}

impl Snapshot {
    /// Makes the snapshot of a counter that words represent (`tkc_snapshot_words` lists them).
    ///
    /// # Errors
    ///
    /// `BadWords` if they represent none.
    #[inline]
    pub fn from_words(counter: &Counter, words: &[u64; WORDS]) -> Result<Snapshot, Refusal> {
        let value = sys::snapshot_from_words(&counter.value, words).map_err(Refusal::of_code)?;
        Ok(Snapshot { value, counter: *counter })
    }

    /// Returns the words that represent the snapshot: for files, and other processes.
    #[must_use]
    pub fn words(&self) -> [u64; WORDS] {
        sys::snapshot_words(&self.value)
    }

    /// Returns the words of the snapshot, and bits, mult and shift of its counter.
    #[inline]
    pub(crate) fn copy(&self) -> [u64; COPY] {
        let mut copy = [0; COPY];
        copy[..WORDS].copy_from_slice(&self.words());
        copy[WORDS] = u64::from(self.counter.bits());
        copy[WORDS + 1] = u64::from(self.counter.mult());
        copy[WORDS + 2] = u64::from(self.counter.shift());
        copy
    }

    /// Makes the snapshot that `copy` returned.
    #[inline]
    pub(crate) fn of_copy(copy: &[u64; COPY]) -> Result<Snapshot, Refusal> {
        let value = sys::snapshot_of_copy(copy).map_err(Refusal::of_code)?;
        Ok(Snapshot { value, counter: Counter::of_snapshot(&value) })
    }

    /// Returns the front: the number of commands that the clocks had accepted.
    #[must_use]
    pub fn front(&self) -> u64 {
        sys::snapshot_front(&self.value)
    }

    /// Returns TAI minus REALTIME, in seconds.
    #[must_use]
    pub fn tai_offset(&self) -> u32 {
        sys::snapshot_tai(&self.value)
    }

    /// Returns whether the clocks are asleep: none moves until [`Resume`](crate::Command::Resume).
    #[must_use]
    pub fn is_asleep(&self) -> bool {
        sys::snapshot_asleep(&self.value)
    }

    /// Returns the counter whose readings the snapshot converts.
    #[must_use]
    pub fn counter(&self) -> &Counter {
        &self.counter
    }

    /// Returns a clock's time at a reading. At a reading behind the last command, and while the
    /// clocks are asleep, it is the clock's time at the last command.
    ///
    /// # Errors
    ///
    /// `Invalid` if the reading is above 2^bits - 1, and then `Range` if the clock is at or past
    /// its limit.
    #[inline]
    pub fn get(&self, clock: ClockId, reading: u64) -> Result<Timespec, Refusal> {
        sys::snapshot_get(&self.value, clock as u32, reading).map_err(Refusal::of_code)
    }

    /// Returns a clock's time at the last command, without a reading of the counter.
    #[inline]
    #[must_use]
    pub fn coarse(&self, clock: ClockId) -> Timespec {
        sys::snapshot_coarse(&self.value, clock as u32)
    }

    /// Returns REALTIME at a reading without and with a step by `by`, whose `sec` may be negative.
    /// Makes no step.
    ///
    /// # Errors
    ///
    /// The errors that [`Clock::apply`](crate::Clock::apply) returns for this step, except for
    /// `Full`.
    pub fn stepped(&self, reading: u64, by: Timespec) -> Result<(Timespec, Timespec), Refusal> {
        sys::snapshot_step(&self.value, reading, by).map_err(Refusal::of_code)
    }

    /// Returns the first reading at which a clock has reached a time, of the last command's reading
    /// and the (2^bits - 1) / 2 readings after it.
    ///
    /// # Errors
    ///
    /// `Further` or `Never` if it reaches the time at none of them.
    #[inline]
    pub fn reading_at(&self, clock: ClockId, time: Timespec) -> Result<u64, Refusal> {
        sys::snapshot_reading(&self.value, clock as u32, time).map_err(Refusal::of_code)
    }

    /// Converts each stamp into a clock's time, in ns, and stores the times in the first elements
    /// of `times`. The other elements stay as they were.
    ///
    /// ```
    /// # use tkcore::{Clock, ClockId, Counter, Refusal, Timespec, Unconverted};
    /// let counter = Counter::from_hz(32, 1_000_000, 600).unwrap();
    /// let clock = Clock::open(&counter, 0, Timespec { sec: 7, nsec: 0 }).unwrap();
    /// let mut times = [0; 2];
    /// clock.snapshot().convert(ClockId::Realtime, &mut times, &[0, 1_000_000])?;
    /// assert_eq!(times, [7_000_000_000, 8_000_000_000]);
    /// let ended = clock.snapshot().convert(ClockId::Realtime, &mut times, &[5, 1 << 32]);
    /// assert_eq!(ended.unwrap_err().refusal, Refusal::Invalid);
    /// # Ok::<(), Unconverted>(())
    /// ```
    ///
    /// The compiler refuses stamps of another type, negative ones for example, and times that can't
    /// be written:
    ///
    /// ```compile_fail,E0308
    /// # fn convert(snapshot: &tkcore::Snapshot) {
    /// let _ = snapshot.convert(tkcore::ClockId::Tai, &mut [0; 1], &[-1_i64]);
    /// # }
    /// ```
    /// ```compile_fail,E0308
    /// # fn convert(snapshot: &tkcore::Snapshot) {
    /// let times: &[u64] = &[0; 1];
    /// let _ = snapshot.convert(tkcore::ClockId::Tai, times, &[1]);
    /// # }
    /// ```
    ///
    /// # Errors
    ///
    /// `BadRoom` if there are fewer times than stamps: nothing is written. Otherwise `Invalid` or
    /// `Range` at the first stamp for which [`get`](Snapshot::get) fails.
    #[inline]
    pub fn convert(
        &self,
        clock: ClockId,
        times: &mut [u64],
        stamps: &[u64],
    ) -> Result<(), Unconverted> {
        sys::snapshot_convert(&self.value, clock as u32, times, stamps)
            .map_err(|(code, done)| self.unconverted(code, done, stamps))
    }

    #[cold]
    fn unconverted(&self, code: u32, done: usize, stamps: &[u64]) -> Unconverted {
        let refusal = Refusal::of_code(code);
        let is_at_a_stamp = refusal != Refusal::BadRoom;
        let stamp = stamps.get(done).copied().filter(|_| is_at_a_stamp).unwrap_or(0);
        Unconverted { refusal, done, stamp, max_reading: self.counter.max_reading() }
    }
}

impl PartialEq for Snapshot {
    fn eq(&self, other: &Snapshot) -> bool {
        self.counter == other.counter && self.words() == other.words()
    }
}

impl Eq for Snapshot {}

impl fmt::Debug for Snapshot {
    fn fmt(&self, out: &mut fmt::Formatter<'_>) -> fmt::Result {
        out.debug_struct("Snapshot")
            .field("counter", &self.counter)
            .field("words", &self.words())
            .finish()
    }
}
