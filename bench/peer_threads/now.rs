//! The time now as hand-written Rust: a reading and a conversion under a lock; the same within a
//! retried read of a page; and by the host's monotonic clock, after a read of a page and between two
//! looks at a notice.
use crate::desk::Desk;
use crate::notice::{monotonic, Notice};
use crate::page::Page;
use crate::turns::{Effort, Turn};
use std::hint::black_box;
use std::sync::atomic::{AtomicU64, Ordering};
use std::sync::Mutex;
use std::time::Instant;

const CALLS: u64 = 3_000_000;

/// The cycles from one reading of the counter to the next.
const CYCLES: u64 = 10;

const NANOS: u64 = 1_000_000_000;

/// A counter that each read moves on.
struct Ticker {
    next: AtomicU64,
}

impl Ticker {
    /// A counter whose reading 0 has opened the clocks.
    fn opened() -> Box<Ticker> {
        black_box(Box::new(Ticker {
            next: AtomicU64::new(CYCLES),
        }))
    }

    fn read(&self) -> u64 {
        self.next.fetch_add(CYCLES, Ordering::SeqCst)
    }
}

/// Times calls, and adds up what they give.
fn summed(effort: Effort, mut call: impl FnMut() -> (u64, u64)) -> Turn {
    let count = effort.of(CALLS);
    let start = Instant::now();
    let mut check = 0u64;
    for _ in 0..count {
        let (sec, nsec) = call();
        check = check.wrapping_add(sec.wrapping_mul(NANOS).wrapping_add(nsec));
    }
    let time = start.elapsed();
    Turn { time, count, check }
}

/// Times calls that take a lock, read the counter and convert.
pub fn by_lock(effort: Effort) -> Turn {
    let desk = Desk::opened();
    let (desc, counter) = (desk.desc(), Ticker::opened());
    let locked = black_box(Box::new(Mutex::new(desk.words())));
    summed(effort, || {
        let words = locked.lock().unwrap();
        monotonic(&words, &desc, counter.read())
    })
}

/// Times calls that read the counter within a read of a page, which is tried again if a writer came
/// between.
pub fn by_cell(effort: Effort) -> Turn {
    let desk = Desk::opened();
    let (desc, counter) = (desk.desc(), Ticker::opened());
    let page = black_box(Box::new(Page::new(desk.words())));
    summed(effort, || {
        let (words, reading) = page.load_with(|| counter.read());
        monotonic(&words, &desc, reading)
    })
}

/// The host's monotonic clock, counted from an opening in nanoseconds.
struct HostCounter {
    start: Instant,
}

impl HostCounter {
    fn read(&self) -> u64 {
        self.start.elapsed().as_nanos() as u64
    }
}

/// Times calls by the host's monotonic clock. The check is the number of answers that aren't below
/// the one before.
pub fn by_host(effort: Effort) -> Turn {
    let desk = Desk::opened();
    let desc = desk.desc();
    let page = black_box(Box::new(Page::new(desk.words())));
    let notice = black_box(Box::new(Notice::new()));
    let counter = black_box(HostCounter {
        start: Instant::now(),
    });
    let count = effort.of(CALLS);
    let start = Instant::now();
    let (mut last, mut check) = (0u64, 0u64);
    for _ in 0..count {
        let (words, reading) = notice.read_between(&page, || counter.read());
        let (sec, nsec) = monotonic(&words, &desc, reading & desc.mask());
        let nanos = sec.wrapping_mul(NANOS).wrapping_add(nsec);
        check += u64::from(nanos >= last);
        last = nanos;
    }
    let time = start.elapsed();
    Turn { time, count, check }
}
