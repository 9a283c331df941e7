//! Clocks that each update moves on by one step, and numbers that are computed from their words.
use crate::clocks::{Clock, Command, Desc, Timespec};
use crate::turns::{Effort, Turn};
use std::hint::black_box;
use std::time::Instant;

/// The words of a snapshot: front, last, mult, frac, sec, real_offset, boot_offset, the offset of
/// TAI with the sleep, raw_frac and raw_sec.
pub type Words = [u64; 10];

/// The number of cycles between two commands.
pub const STEP: u64 = 1_000;

const UPDATES: u64 = 10_000_000;

/// The number of updates in one opening. The counter does not wrap on the way.
const UPDATES_LIMIT: u64 = 1_000_000;

/// The real time at the opening.
pub const OPENED_TIME: Timespec = Timespec {
    sec: 1_700_000_000,
    nsec: 0,
};

/// A counter of 32 bits at 1 ns per cycle.
pub fn nanosecond_counter() -> Desc {
    Desc::new(32, 16_777_216, 24).expect("a counter")
}

/// All ten words in one number. It is the same for every update, since each update is one step
/// later than the one before. Words mixed from two snapshots mostly give another number.
/// Neighbouring words get different operations, so that they aren't loaded two at once.
pub fn weight(words: &Words) -> u64 {
    let [front, last, mult, frac, sec, real_offset, boot_offset, tai, raw_frac, raw_sec] = *words;
    let steps = last.wrapping_sub(front.wrapping_mul(STEP));
    let parts = frac ^ raw_frac;
    let seconds = sec.wrapping_sub(raw_sec);
    let offsets = real_offset ^ boot_offset;
    steps
        .wrapping_add(parts)
        .wrapping_add(seconds)
        .wrapping_add(mult)
        .wrapping_add(offsets)
        .wrapping_add(tai)
}

/// Clocks that each update moves on by one step.
pub struct Desk {
    clock: Clock,
    front: u64,
}

impl Desk {
    /// Opens clocks. `black_box` hides their numbers from the compiler.
    pub fn opened() -> Desk {
        let clock = Clock::open(nanosecond_counter(), 0, OPENED_TIME).expect("clocks");
        Desk {
            clock: black_box(clock),
            front: 0,
        }
    }

    pub fn words(&self) -> Words {
        self.clock.base.words(self.front)
    }

    pub fn desc(&self) -> Desc {
        self.clock.base.desc
    }

    /// The words after one more update.
    pub fn update(&mut self) -> Option<Words> {
        let front = self.front.checked_add(1)?;
        let reading = front.wrapping_mul(STEP);
        self.clock.apply(reading, Command::Update).ok()?;
        self.front = front;
        Some(self.words())
    }
}

/// Times updates that are not published. The compiler keeps the clock in registers.
pub fn unpublished(effort: Effort) -> Turn {
    updated(effort, |_| ())
}

/// Times updates that are not published, of a clock that stays in memory.
pub fn in_memory(effort: Effort) -> Turn {
    updated(effort, |desk| {
        black_box(desk);
    })
}

fn updated(effort: Effort, before_each: impl Fn(&mut Desk)) -> Turn {
    let count = effort.of(UPDATES);
    let each = count.min(UPDATES_LIMIT);
    let mut check = 0u64;
    let start = Instant::now();
    for _ in 0..count / each {
        let mut desk = Desk::opened();
        for _ in 0..each {
            before_each(&mut desk);
            let words = desk.update().expect("an update is accepted");
            check = check.wrapping_add(weight(&words));
        }
    }
    let time = start.elapsed();
    Turn { time, count, check }
}
