//! A page of ten words in the way of crossbeam-utils' `AtomicCell<[u64; 10]>`, with its own
//! version: 1 during a write, a volatile copy of the words as a block, and the writer's lock for a
//! reader that meets a writer.
use crate::desk::{weight, Desk, Words};
use crate::turns::{Effort, Turn};
use std::cell::UnsafeCell;
use std::hint::{black_box, spin_loop};
use std::mem::MaybeUninit;
use std::ptr;
use std::sync::atomic::{fence, AtomicBool, AtomicUsize, Ordering};
use std::thread;
use std::time::{Duration, Instant};

const READS: u64 = 10_000_000;
const PUBLICATIONS: u64 = 1_000_000;

#[repr(align(128))]
pub struct Page {
    /// 1 during a write. Otherwise each write raises it by 2.
    version: AtomicUsize,
    words: UnsafeCell<MaybeUninit<Words>>,
}

unsafe impl Sync for Page {}

impl Page {
    pub fn new(words: Words) -> Page {
        Page {
            version: AtomicUsize::new(0),
            words: UnsafeCell::new(MaybeUninit::new(words)),
        }
    }

    fn lock(&self) -> usize {
        loop {
            let before = self.version.swap(1, Ordering::Acquire);
            if before != 1 {
                fence(Ordering::Release);
                return before;
            }
            while self.version.load(Ordering::Relaxed) == 1 {
                spin_loop();
            }
        }
    }

    pub fn load(&self) -> Words {
        let before = self.version.load(Ordering::Acquire);
        if before != 1 {
            let words = unsafe { ptr::read_volatile(self.words.get()) };
            fence(Ordering::Acquire);
            if self.version.load(Ordering::Relaxed) == before {
                return unsafe { words.assume_init() };
            }
        }
        let before = self.lock();
        let words = unsafe { ptr::read(self.words.get()) };
        self.version.store(before, Ordering::Release);
        unsafe { words.assume_init() }
    }

    /// The words, and what `read` gives while they stand.
    pub fn load_with(&self, mut read: impl FnMut() -> u64) -> (Words, u64) {
        loop {
            let before = self.version.load(Ordering::Acquire);
            if before != 1 {
                let words = unsafe { ptr::read_volatile(self.words.get()) };
                let given = read();
                fence(Ordering::Acquire);
                if self.version.load(Ordering::Relaxed) == before {
                    return (unsafe { words.assume_init() }, given);
                }
            }
            spin_loop();
        }
    }

    pub fn store(&self, words: Words) {
        let before = self.lock();
        unsafe { ptr::write(self.words.get(), MaybeUninit::new(words)) };
        self.version
            .store(before.wrapping_add(2), Ordering::Release);
    }
}

/// A page over clocks that were just opened.
fn opened() -> (Box<Page>, Desk) {
    let desk = Desk::opened();
    (black_box(Box::new(Page::new(desk.words()))), desk)
}

fn update(page: &Page, desk: &mut Desk) {
    page.store(desk.update().expect("an update is accepted"));
}

fn timed_reads(page: &Page, count: u64) -> Turn {
    let start = Instant::now();
    let mut check = 0u64;
    for _ in 0..count {
        check = check.wrapping_add(weight(&page.load()));
    }
    let time = start.elapsed();
    Turn { time, count, check }
}

/// Times reads while nobody publishes.
pub fn quiet(effort: Effort) -> Turn {
    let (page, mut desk) = opened();
    update(&page, &mut desk);
    timed_reads(&page, effort.of(READS))
}

/// Times reads while a writer publishes a thousand times per second.
pub fn beside(effort: Effort) -> Turn {
    let (page, mut desk) = opened();
    let enough = AtomicBool::new(false);
    thread::scope(|scope| {
        scope.spawn(|| {
            while !enough.load(Ordering::SeqCst) {
                update(&page, &mut desk);
                thread::sleep(Duration::from_millis(1));
            }
        });
        let turn = timed_reads(&page, effort.of(READS));
        enough.store(true, Ordering::SeqCst);
        turn
    })
}

/// Times updates of clocks that are published each time.
pub fn publishing(effort: Effort) -> Turn {
    let (page, mut desk) = opened();
    let count = effort.of(PUBLICATIONS);
    let start = Instant::now();
    for _ in 0..count {
        update(&page, &mut desk);
    }
    let time = start.elapsed();
    let words = page.load();
    let check = weight(&words).wrapping_mul(31).wrapping_add(words[0]);
    Turn { time, count, check }
}
