//! A latch of ten words, as the kernel's `seqcount_latch_t`: a sequence and two copies. Readers
//! read the copy that is not being written.
use crate::desk::{weight, Desk, Words};
use crate::turns::{Effort, Turn};
use std::array;
use std::hint::black_box;
use std::sync::atomic::{fence, AtomicBool, AtomicU64, Ordering};
use std::thread;
use std::time::{Duration, Instant};

const READS: u64 = 10_000_000;
const PUBLICATIONS: u64 = 1_000_000;

#[repr(align(128))]
pub struct Latch {
    /// Even at rest, when copy 0 is the latest publication; odd while copy 0 is written, when copy
    /// 1 is the latest.
    sequence: AtomicU64,
    copies: [[AtomicU64; 10]; 2],
}

impl Latch {
    pub fn new(words: Words) -> Latch {
        let copy = || array::from_fn(|i| AtomicU64::new(words[i]));
        Latch {
            sequence: AtomicU64::new(0),
            copies: [copy(), copy()],
        }
    }

    /// Publishes words. Only one thread may do so.
    pub fn publish(&self, words: &Words) {
        let sequence = self.sequence.load(Ordering::Relaxed);
        self.turn(sequence.wrapping_add(1));
        self.write(0, words);
        self.turn(sequence.wrapping_add(2));
        self.write(1, words);
    }

    /// Directs readers to the other copy, which is whole at that time.
    fn turn(&self, sequence: u64) {
        self.sequence.store(sequence, Ordering::Release);
        fence(Ordering::Release);
    }

    fn write(&self, copy: usize, words: &Words) {
        for (word, value) in self.copies[copy].iter().zip(words) {
            word.store(*value, Ordering::Relaxed);
        }
    }

    /// The latest publication, or the two sequences that were read.
    pub fn try_read(&self) -> Result<Words, (u64, u64)> {
        let first = self.sequence.load(Ordering::Acquire);
        let copy = &self.copies[(first & 1) as usize];
        let words = array::from_fn(|i| copy[i].load(Ordering::Relaxed));
        fence(Ordering::Acquire);
        let last = self.sequence.load(Ordering::Relaxed);
        if first == last {
            Ok(words)
        } else {
            Err((first, last))
        }
    }
}

/// A latch over clocks that were just opened.
fn opened() -> (Box<Latch>, Desk) {
    let desk = Desk::opened();
    (black_box(Box::new(Latch::new(desk.words()))), desk)
}

fn update(latch: &Latch, desk: &mut Desk) {
    latch.publish(&desk.update().expect("an update is accepted"));
}

/// Times reads. A read that failed because of a publication counts with the weight `usual`.
fn timed_reads(latch: &Latch, usual: u64, count: u64) -> Turn {
    let start = Instant::now();
    let mut check = 0u64;
    for _ in 0..count {
        check = check.wrapping_add(match latch.try_read() {
            Ok(words) => weight(&words),
            Err(_) => usual,
        });
    }
    let time = start.elapsed();
    Turn { time, count, check }
}

/// Times reads while nobody publishes.
pub fn quiet(effort: Effort) -> Turn {
    let (latch, mut desk) = opened();
    update(&latch, &mut desk);
    timed_reads(&latch, 0, effort.of(READS))
}

/// Times reads while a writer publishes a thousand times per second.
pub fn beside(effort: Effort) -> Turn {
    let (latch, mut desk) = opened();
    let usual = weight(&latch.try_read().expect("nobody publishes"));
    let enough = AtomicBool::new(false);
    thread::scope(|scope| {
        scope.spawn(|| {
            while !enough.load(Ordering::SeqCst) {
                update(&latch, &mut desk);
                thread::sleep(Duration::from_millis(1));
            }
        });
        let turn = timed_reads(&latch, usual, effort.of(READS));
        enough.store(true, Ordering::SeqCst);
        turn
    })
}

/// Times updates of clocks that are published each time.
pub fn publishing(effort: Effort) -> Turn {
    let (latch, mut desk) = opened();
    let count = effort.of(PUBLICATIONS);
    let start = Instant::now();
    for _ in 0..count {
        update(&latch, &mut desk);
    }
    let time = start.elapsed();
    let words = latch.try_read().expect("nobody publishes");
    let check = weight(&words).wrapping_mul(31).wrapping_add(words[0]);
    Turn { time, count, check }
}
