// SPDX-License-Identifier: MIT OR Apache-2.0

use core::hint::spin_loop;
use core::sync::atomic::Ordering::{Relaxed, Release, SeqCst};
use core::sync::atomic::{fence, AtomicU64};

use crate::shared::{size_in_words, Shared};
use crate::snapshot::COPY;
use crate::{sys, Clock, ClockId, Refusal, Snapshot, Timespec, SAVED_WORDS};

/// The layout of `struct tkc_page`: "tkcpage" and a number.
const LAYOUT: u64 = 0x746b_6370_6167_6502;

/// The number of 64-bit words of a page.
pub const PAGE_WORDS: usize = size_in_words(SAVED_WORDS);

mod sealed {
    pub trait Sealed {}
    impl Sealed for crate::Clock {}
    impl Sealed for crate::Snapshot {}
}

/// What a page publishes: clocks, or a snapshot only.
pub trait Publish: sealed::Sealed {
    /// Returns the words of the snapshot, the numbers of its counter, and the frequency and the
    /// tick, or 0 and 0.
    fn page_words(&self) -> [u64; SAVED_WORDS];
}

impl Publish for Clock {
    #[inline]
    fn page_words(&self) -> [u64; SAVED_WORDS] {
        self.save()
    }
}

impl Publish for Snapshot {
    #[inline]
    fn page_words(&self) -> [u64; SAVED_WORDS] {
        let mut words = [0; SAVED_WORDS];
        words[..COPY].copy_from_slice(&self.copy());
        words
    }
}

/// A page, which publishes snapshots to readers without a lock (`struct tkc_page` of
/// tkcore_page.h).
///
/// MONOTONIC never goes back for any reader, if the clocks get a command at least once in each half
/// of the counter's range, and the writer reads the counter after [`begin`](Page::begin). A reader
/// waits while a writer is inside, that is between `begin` and `publish`.
///
/// The sequence is even at rest, and odd while a writer is inside. The copy to read is
/// `sequence / 2 % 2`. The steps are those of the header:
///
/// 1. A writer makes the sequence odd, which selects the same copy.
/// 2. It reads the counter and applies the command.
/// 3. It writes the words of the other copy.
/// 4. It makes the sequence even, which selects that copy.
/// 5. A reader loads the sequence, and starts again if it is odd.
/// 6. It loads the words of the copy that the sequence selects, and reads the counter.
/// 7. It loads the sequence again, and starts again if it has changed.
///
/// ```
/// use core::sync::atomic::AtomicU64;
/// use tkcore::{Clock, ClockId, Command, Counter, Page, Refusal, Timespec, PAGE_WORDS};
///
/// let memory = [const { AtomicU64::new(0) }; PAGE_WORDS];
/// let counter = Counter::from_hz(64, 1_000_000_000, 600)?;
/// let mut clock = Clock::open(&counter, 0, Timespec::default())?;
/// let mut page = Page::create(&memory, &clock)?;
///
/// page.begin();
/// let applied = clock.apply(5, Command::Update);
/// page.publish(&clock); // also after a refused command
/// applied?;
///
/// let reader = Page::attach(&memory)?;
/// assert_eq!(reader.now(ClockId::Monotonic, || 7)?, Timespec { sec: 0, nsec: 7 });
/// # Ok::<(), Refusal>(())
/// ```
pub struct Page<'a> {
    shared: Shared<'a, SAVED_WORDS>,
}

impl<'a> Page<'a> {
    /// Makes a page with its first clocks or its first snapshot in the first [`PAGE_WORDS`] words
    /// of this memory. Its layout is 0 until all else is stored.
    ///
    /// # Errors
    ///
    /// `BadMemory` if there are fewer words.
    pub fn create(memory: &'a [AtomicU64], first: &impl Publish) -> Result<Page<'a>, Refusal> {
        let shared = Shared::over(memory)?;
        let words = first.page_words();
        shared.init(LAYOUT, || {
            shared.store(0, &words);
            shared.store(1, &words);
        });
        Ok(Page { shared })
    }

    /// Returns the page that this memory contains. See [`shared_words`](crate::shared_words) for
    /// the memory of another process.
    ///
    /// # Errors
    ///
    /// `BadMemory` if there are fewer words than [`PAGE_WORDS`]; `OtherVersion`; `BadLayout` if
    /// they contain no page of this layout.
    pub fn attach(memory: &'a [AtomicU64]) -> Result<Page<'a>, Refusal> {
        let shared = Shared::over(memory)?;
        shared.attach(LAYOUT)?;
        Ok(Page { shared })
    }

    /// Lets readers wait until [`publish`](Page::publish): step 1. Read the counter for the command
    /// after this call. The caller's lock must exclude other writers.
    #[inline]
    pub fn begin(&mut self) {
        let sequence = self.shared.sequence();
        self.shared.set_sequence(sequence | 1, Relaxed);
        // All readers must be able to see the odd sequence before the writer reads the counter.
        fence(SeqCst);
    }

    /// Publishes clocks or a snapshot with their counter, also after a refused command: steps 3 and
    /// 4. After [`Clock::change_counter`] readers get the new counter with the new snapshot.
    #[inline]
    pub fn publish(&mut self, what: &impl Publish) {
        let sequence = self.shared.sequence() | 1;
        // Readers must be able to see the former sequence before the words, also without a `begin`.
        fence(Release);
        self.shared.store(sequence.wrapping_add(1) / 2, &what.page_words());
        self.shared.set_sequence(sequence.wrapping_add(1), Release);
    }

    /// Rebuilds the clocks of the last publication, for a new writer after the former one died.
    ///
    /// # Errors
    ///
    /// `Busy` if a writer has published during the call; `BadWords` if only a snapshot was
    /// published, or something else than a writer wrote the page.
    pub fn clock(&self) -> Result<Clock, Refusal> {
        let sequence = self.shared.sequence();
        let mut words = [0; SAVED_WORDS];
        self.shared.load(sequence / 2, &mut words);
        if self.shared.is_moved(sequence) {
            return Err(Refusal::Busy);
        }
        Clock::load(&words)
    }

    /// Makes the page whole from a new writer's clocks, wherever the former writer died.
    pub fn recover(&mut self, clock: &Clock) {
        self.begin();
        self.publish(clock);
    }

    /// Does the reader's steps once: 5, 6 and 7. Returns the reading if the words are whole.
    #[inline]
    fn try_once(
        &self,
        read_counter: &mut impl FnMut() -> u64,
        copy: &mut [u64; COPY],
    ) -> Option<u64> {
        let sequence = self.shared.sequence();
        if sequence % 2 == 1 {
            spin_loop();
            return None;
        }
        self.shared.load(sequence / 2, copy);
        let reading = read_counter();
        (!self.shared.is_moved(sequence)).then_some(reading)
    }

    /// Returns the latest snapshot. At a reading that is taken after this call, it may give a later
    /// time than the next snapshot: use [`now`](Page::now) or [`look`](Page::look) to read a clock.
    ///
    /// # Errors
    ///
    /// `BadWords`, or `BadBits` to `BadAdjust`, if something else than a writer wrote the page.
    #[inline]
    pub fn read(&self) -> Result<Snapshot, Refusal> {
        self.look(|| 0).map(|(snapshot, _)| snapshot)
    }

    /// Returns the latest snapshot, and the counter's reading while it is the latest.
    ///
    /// `read_counter` must read the counter after the loads before its call and before the loads
    /// after it: for the TSC, `lfence; rdtsc; lfence`. It may be called several times.
    ///
    /// # Errors
    ///
    /// `BadWords`, or `BadBits` to `BadAdjust`, if something else than a writer wrote the page.
    #[inline]
    pub fn look(&self, mut read_counter: impl FnMut() -> u64) -> Result<(Snapshot, u64), Refusal> {
        let mut copy = [0; COPY];
        loop {
            if let Some(reading) = self.try_once(&mut read_counter, &mut copy) {
                return Ok((Snapshot::of_copy(&copy)?, reading));
            }
        }
    }

    /// Reads a clock now, at a reading that is taken as by [`look`](Page::look).
    ///
    /// # Errors
    ///
    /// Those of `look` and then those of [`Snapshot::get`].
    #[inline]
    pub fn now(
        &self,
        clock: ClockId,
        mut read_counter: impl FnMut() -> u64,
    ) -> Result<Timespec, Refusal> {
        let mut copy = [0; COPY];
        loop {
            if let Some(reading) = self.try_once(&mut read_counter, &mut copy) {
                return get_by_copy(&copy, clock, reading);
            }
        }
    }

    /// Reads a clock now, in at most `tries` tries, and so doesn't wait.
    ///
    /// # Errors
    ///
    /// `Busy` if a writer was inside at each of them, and otherwise those of [`now`](Page::now).
    #[inline]
    pub fn try_now(
        &self,
        tries: u32,
        clock: ClockId,
        mut read_counter: impl FnMut() -> u64,
    ) -> Result<Timespec, Refusal> {
        let mut copy = [0; COPY];
        for _ in 0..tries {
            if let Some(reading) = self.try_once(&mut read_counter, &mut copy) {
                return get_by_copy(&copy, clock, reading);
            }
        }
        Err(Refusal::Busy)
    }
}

/// Returns a clock's time at a reading by the snapshot in a copy.
#[inline]
pub(crate) fn get_by_copy(
    copy: &[u64; COPY],
    clock: ClockId,
    reading: u64,
) -> Result<Timespec, Refusal> {
    sys::get_by_copy(copy, clock as u32, reading).map_err(Refusal::of_code)
}
