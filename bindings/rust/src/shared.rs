// SPDX-License-Identifier: MIT OR Apache-2.0
//! The words that a page and a latch have in common: the layout, the sequence, and two copies of
//! words, which contain the numbers of the counter. Loads are relaxed, followed by a fence where
//! tkcore_page.h has an acquire load, because read-only memory may be loaded only so.

use core::sync::atomic::Ordering::{Acquire, Relaxed, Release};
use core::sync::atomic::{fence, AtomicU64, Ordering};

use crate::{sys, Refusal};

/// A page or a latch with copies of `N` words, in the order of its memory.
#[derive(Clone, Copy)]
pub(crate) struct Shared<'a, const N: usize> {
    layout: &'a AtomicU64,
    sequence: &'a AtomicU64,
    copies: [&'a [AtomicU64; N]; 2],
}

/// Returns the number of words of a page or a latch with copies of `n` words.
pub(crate) const fn size_in_words(n: usize) -> usize {
    2 + 2 * n
}

impl<'a, const N: usize> Shared<'a, N> {
    /// Takes the first words of this memory, or returns `BadMemory` if there are too few.
    pub(crate) fn over(memory: &'a [AtomicU64]) -> Result<Shared<'a, N>, Refusal> {
        Shared::split(memory).ok_or(Refusal::BadMemory)
    }

    fn split(memory: &'a [AtomicU64]) -> Option<Shared<'a, N>> {
        let (layout, rest) = memory.split_first()?;
        let (sequence, rest) = rest.split_first()?;
        let (first, rest) = rest.split_first_chunk()?;
        let second = rest.first_chunk()?;
        Some(Shared { layout, sequence, copies: [first, second] })
    }

    /// Returns `OtherVersion` if the library is of another version than this crate, and `BadLayout`
    /// if the memory has another layout.
    pub(crate) fn attach(&self, layout: u64) -> Result<(), Refusal> {
        sys::check_version()?;
        let found = self.layout.load(Relaxed);
        fence(Acquire);
        if found == layout {
            Ok(())
        } else {
            Err(Refusal::BadLayout)
        }
    }

    /// Writes everything but the copies, which `write_copies` writes, and the layout last.
    pub(crate) fn init(&self, layout: u64, write_copies: impl FnOnce()) {
        self.layout.store(0, Relaxed);
        fence(Release);
        write_copies();
        self.sequence.store(0, Relaxed);
        self.layout.store(layout, Release);
    }

    /// Returns the sequence. Later loads are after this one.
    #[inline]
    pub(crate) fn sequence(&self) -> u64 {
        let sequence = self.sequence.load(Relaxed);
        fence(Acquire);
        sequence
    }

    #[inline]
    pub(crate) fn set_sequence(&self, sequence: u64, order: Ordering) {
        self.sequence.store(sequence, order);
    }

    /// Returns whether the sequence has changed since it was loaded. Earlier loads are before it.
    #[inline]
    pub(crate) fn is_moved(&self, sequence: u64) -> bool {
        fence(Acquire);
        self.sequence.load(Relaxed) != sequence
    }

    /// Loads the first words of the copy `copy % 2`. (The words aren't returned, because moving
    /// them at once after they were stored one by one would stall the processor.)
    #[inline]
    pub(crate) fn load<const M: usize>(&self, copy: u64, words: &mut [u64; M]) {
        for (word, shared) in words.iter_mut().zip(self.copies[(copy & 1) as usize]) {
            *word = shared.load(Relaxed);
        }
    }

    /// Stores the copy `copy % 2`.
    #[inline]
    pub(crate) fn store(&self, copy: u64, words: &[u64; N]) {
        for (word, shared) in words.iter().zip(self.copies[(copy & 1) as usize]) {
            shared.store(*word, Relaxed);
        }
    }
}
