//! Clocks with a journal in a vector, and a copy of the clocks at every 256th entry.

use crate::clocks::{Base, Clock, Command, Desc, Refusal, Timespec};

pub const LISTED_LIMIT: usize = 1_048_576;
const KEPT_EVERY: usize = 256;

/// An accepted command: its caller, its reading, and the command itself.
#[derive(Clone, Copy)]
pub struct Entry {
    _who: u32,
    reading: u64,
    cmd: Command,
}

pub struct Keeper {
    start: Clock,
    folded: usize,
    entries: Vec<Entry>,
    kept: Vec<Clock>,
    clock: Clock,
}

impl Keeper {
    pub fn open(desc: Desc, reading: u64, real: Timespec) -> Option<Keeper> {
        let clock = Clock::open(desc, reading, real)?;
        Some(Keeper {
            start: clock,
            folded: 0,
            entries: Vec::new(),
            kept: Vec::new(),
            clock,
        })
    }

    pub fn reserve(&mut self, extra: usize) {
        self.entries.reserve(extra);
        self.kept.reserve(extra / KEPT_EVERY);
    }

    pub fn len(&self) -> usize {
        self.folded + self.entries.len()
    }

    pub fn folded(&self) -> usize {
        self.folded
    }

    pub fn base(&self) -> &Base {
        &self.clock.base
    }

    pub fn apply(&mut self, who: u32, reading: u64, cmd: Command) -> Result<u64, Refusal> {
        if self.entries.len() >= LISTED_LIMIT {
            return Err(Refusal::Full);
        }
        self.clock.apply(reading, cmd)?;
        self.entries.push(Entry {
            _who: who,
            reading,
            cmd,
        });
        if self.len() % KEPT_EVERY == 0 {
            self.kept.push(self.clock);
        }
        Ok(self.len() as u64)
    }

    /// The clocks after `front` commands, unless these are folded or not yet accepted.
    pub fn clock_at(&self, front: usize) -> Option<Clock> {
        if front < self.folded || front > self.len() {
            return None;
        }
        let kept = front / KEPT_EVERY - self.folded / KEPT_EVERY;
        let (mut clock, from) = match kept {
            0 => (self.start, self.folded),
            kept => (self.kept[kept - 1], front / KEPT_EVERY * KEPT_EVERY),
        };
        for entry in &self.entries[from - self.folded..front - self.folded] {
            clock.apply(entry.reading, entry.cmd).ok()?;
        }
        Some(clock)
    }

    /// Folds the oldest entries, so that at most `keep` are listed.
    pub fn fold(&mut self, keep: usize) {
        let places = self.entries.len().saturating_sub(keep);
        let folded = self.folded + places;
        if let Some(start) = self.clock_at(folded) {
            self.start = start;
        }
        self.entries.drain(..places);
        self.kept
            .drain(..folded / KEPT_EVERY - self.folded / KEPT_EVERY);
        self.folded = folded;
    }
}
