//! A notice: the number of accepted commands, twice, plus 1 while a command is in progress.
use crate::clocks::Desc;
use crate::desk::Words;
use crate::page::Page;
use std::hint::spin_loop;
use std::sync::atomic::{AtomicU64, Ordering};

#[repr(align(128))]
pub struct Notice {
    word: AtomicU64,
}

impl Notice {
    pub fn new() -> Notice {
        Notice {
            word: AtomicU64::new(0),
        }
    }

    /// Announces a command, before it reads the counter. Only the holder of the keeper's lock may do
    /// so. The reading must follow the store, which takes an exchange.
    pub fn announce(&self, accepted: u64) {
        self.word.store(2 * accepted + 1, Ordering::SeqCst);
    }

    /// Ends the announced command, after its effect is published.
    pub fn end(&self, accepted: u64) {
        self.word.store(2 * accepted, Ordering::Release);
    }

    /// The words of a page, and what `read` gives while no command is in progress: after the last
    /// command in the words, and before the next one. It is tried again after a command in between.
    pub fn read_between(&self, page: &Page, mut read: impl FnMut() -> u64) -> (Words, u64) {
        loop {
            let words = page.load();
            let first = self.word.load(Ordering::SeqCst);
            let reading = read();
            let last = self.word.load(Ordering::SeqCst);
            if first == last && first % 2 == 0 && words[0] == first / 2 {
                return (words, reading);
            }
            spin_loop();
        }
    }
}

const NANOS: u64 = 1_000_000_000;

/// MONOTONIC at a reading, as seconds and nanoseconds.
pub fn monotonic(words: &Words, desc: &Desc, reading: u64) -> (u64, u64) {
    let [_, last, mult, frac, sec, ..] = *words;
    let cycles = reading.wrapping_sub(last) & desc.mask();
    let units = frac as u128 + cycles as u128 * mult as u128;
    let second = (NANOS as u128) << desc.shift;
    if units < second {
        return (sec, (units >> desc.shift) as u64);
    }
    let rest = (units % second) >> desc.shift;
    (sec + (units / second) as u64, rest as u64)
}
