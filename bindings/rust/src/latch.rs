// SPDX-License-Identifier: MIT OR Apache-2.0

use core::sync::atomic::Ordering::Release;
use core::sync::atomic::{fence, AtomicU64};

use crate::page::get_by_copy;
use crate::shared::{size_in_words, Shared};
use crate::snapshot::COPY;
use crate::{Clock, ClockId, Refusal, Snapshot, Timespec};

/// The layout of `struct tkc_latch`: "tkclatc" and a number.
const LAYOUT: u64 = 0x746b_636c_6174_6302;

/// The number of 64-bit words of a latch.
pub const LATCH_WORDS: usize = size_in_words(COPY);

/// A latch: two copies of a snapshot, one of which is always whole (`struct tkc_latch` of
/// tkcore_page.h).
///
/// A reader never waits for a writer that it interrupted, so a signal handler may read it.
/// MONOTONIC may go back by the change of the rate times the time since the writer's reading.
///
/// The copy to read is `sequence & 1`. The steps are those of the header:
///
/// 1. A writer makes the sequence odd: readers take copy 1.
/// 2. It writes copy 0.
/// 3. It makes the sequence even: readers take copy 0.
/// 4. It writes copy 1.
/// 5. A reader loads the sequence.
/// 6. It loads the words of the copy that the sequence selects, and reads the counter.
/// 7. It loads the sequence again, and starts again if it has changed.
///
/// ```
/// use core::sync::atomic::AtomicU64;
/// use tkcore::{Clock, ClockId, Counter, Latch, Refusal, Timespec, LATCH_WORDS};
///
/// let memory = [const { AtomicU64::new(0) }; LATCH_WORDS];
/// let counter = Counter::from_hz(64, 1_000_000_000, 600)?;
/// let clock = Clock::open(&counter, 0, Timespec::default())?;
/// let mut latch = Latch::create(&memory, &clock.snapshot())?;
/// latch.publish(&clock.snapshot());
/// assert_eq!(latch.now(ClockId::Monotonic, || 7)?, Timespec { sec: 0, nsec: 7 });
/// # Ok::<(), Refusal>(())
/// ```
pub struct Latch<'a> {
    shared: Shared<'a, COPY>,
}

impl<'a> Latch<'a> {
    /// Makes a latch with its first snapshot in the first [`LATCH_WORDS`] words of this memory.
    ///
    /// # Errors
    ///
    /// `BadMemory` if there are fewer words.
    pub fn create(memory: &'a [AtomicU64], first: &Snapshot) -> Result<Latch<'a>, Refusal> {
        let shared = Shared::over(memory)?;
        let copy = first.copy();
        shared.init(LAYOUT, || {
            shared.store(0, &copy);
            shared.store(1, &copy);
        });
        Ok(Latch { shared })
    }

    /// Returns the latch that this memory contains.
    ///
    /// # Errors
    ///
    /// Those of [`Page::attach`](crate::Page::attach), for a latch.
    pub fn attach(memory: &'a [AtomicU64]) -> Result<Latch<'a>, Refusal> {
        let shared = Shared::over(memory)?;
        shared.attach(LAYOUT)?;
        Ok(Latch { shared })
    }

    /// Publishes a snapshot with its counter: steps 1 to 4. The caller's lock must exclude other
    /// writers.
    #[inline]
    pub fn publish(&mut self, snapshot: &Snapshot) {
        // (the sequence is odd at first only in `recover`)
        let sequence = self.shared.sequence().wrapping_add(1) | 1;
        let words = snapshot.copy();
        for copy in 0..2 {
            self.shared.set_sequence(sequence.wrapping_add(copy), Release);
            fence(Release);
            self.shared.store(copy, &words);
        }
    }

    /// Makes the latch whole and publishes a new writer's clocks, wherever the former writer died.
    pub fn recover(&mut self, clock: &Clock) {
        let whole = self.shared.sequence() & 1;
        let mut words = [0; COPY];
        self.shared.load(whole, &mut words);
        // A reader that still reads the other copy must be able to see the present sequence before
        // that copy changes.
        fence(Release);
        self.shared.store(whole ^ 1, &words);
        self.publish(&clock.snapshot());
    }

    /// Does the reader's steps once: 5, 6 and 7. Returns the reading if the words are whole.
    #[inline]
    fn try_once(
        &self,
        read_counter: &mut impl FnMut() -> u64,
        copy: &mut [u64; COPY],
    ) -> Option<u64> {
        let sequence = self.shared.sequence();
        self.shared.load(sequence, copy);
        let reading = read_counter();
        (!self.shared.is_moved(sequence)).then_some(reading)
    }

    /// Returns the latest whole snapshot.
    ///
    /// # Errors
    ///
    /// `BadWords`, or `BadBits` to `BadAdjust`, if something else than a writer wrote the latch.
    #[inline]
    pub fn read(&self) -> Result<Snapshot, Refusal> {
        self.look(|| 0).map(|(snapshot, _)| snapshot)
    }

    /// Returns the latest whole snapshot, and the counter's reading while it is the latest, as
    /// [`Page::look`](crate::Page::look) does.
    ///
    /// # Errors
    ///
    /// `BadWords`, or `BadBits` to `BadAdjust`, if something else than a writer wrote the latch.
    #[inline]
    pub fn look(&self, mut read_counter: impl FnMut() -> u64) -> Result<(Snapshot, u64), Refusal> {
        let mut copy = [0; COPY];
        loop {
            if let Some(reading) = self.try_once(&mut read_counter, &mut copy) {
                return Ok((Snapshot::of_copy(&copy)?, reading));
            }
        }
    }

    /// Reads a clock now, from the latest whole snapshot.
    ///
    /// # Errors
    ///
    /// Those of `look` and then those of [`Snapshot::get`].
    #[inline]
    pub fn now(
        &self,
        clock: ClockId,
        mut read_counter: impl FnMut() -> u64,
    ) -> Result<Timespec, Refusal> {
        let mut copy = [0; COPY];
        loop {
            if let Some(reading) = self.try_once(&mut read_counter, &mut copy) {
                return get_by_copy(&copy, clock, reading);
            }
        }
    }
}
