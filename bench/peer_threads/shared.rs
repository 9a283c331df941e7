//! A shared keeper: a lock of std around clocks with their journal, a page, a latch and a notice, in
//! which commands announce themselves.
use crate::clocks::{Command, Refusal};
use crate::desk::{nanosecond_counter, weight, Words, OPENED_TIME, STEP};
use crate::keeper::Keeper;
use crate::latch::Latch;
use crate::notice::Notice;
use crate::page::Page;
use crate::turns::{Effort, Turn};
use std::hint::black_box;
use std::sync::atomic::{AtomicU64, Ordering};
use std::sync::Mutex;
use std::thread;
use std::time::Instant;

const COMMANDS: u64 = 300_000;

/// The number of reads between two checks whether the other threads have ended.
const READS_BETWEEN: u64 = 64;

/// The words in one number, each with its own weight.
pub fn weighed(words: &Words) -> u64 {
    words
        .iter()
        .fold(0u64, |sum, word| sum.wrapping_mul(31).wrapping_add(*word))
}

/// A counter of which commands take their readings under the lock.
pub trait Counter {
    fn read(&mut self) -> u64;
}

/// A counter that only commands read.
pub struct Ticker {
    next: u64,
}

impl Counter for Ticker {
    fn read(&mut self) -> u64 {
        let now = self.next;
        self.next = now.wrapping_add(STEP);
        now
    }
}

pub struct Locked<C> {
    keeper: Keeper,
    counter: C,
}

impl<C: Counter> Locked<C> {
    fn apply(&mut self, who: u32, cmd: Command) -> Result<u64, Refusal> {
        let reading = self.counter.read() & self.keeper.base().desc.mask();
        self.keeper.apply(who, reading, cmd)
    }

    /// The number of accepted commands.
    pub fn count(&self) -> u64 {
        self.keeper.len() as u64
    }

    pub fn words(&self) -> Words {
        self.keeper.base().words(self.count())
    }
}

pub struct Caller {
    id: u32,
    accepted: u64,
    front: u64,
    mark: u64,
}

pub struct SharedKeeper<C> {
    pub page: Page,
    latch: Latch,
    pub notice: Notice,
    locked: Mutex<Locked<C>>,
}

impl<C: Counter> SharedKeeper<C> {
    pub fn opened(mut counter: C, callers: u32, room: usize) -> (SharedKeeper<C>, Vec<Caller>) {
        let reading = counter.read();
        let mut keeper = Keeper::open(nanosecond_counter(), reading, OPENED_TIME).expect("clocks");
        keeper.reserve(room);
        let locked = black_box(Locked { keeper, counter });
        let words = locked.words();
        let keeper = SharedKeeper {
            page: Page::new(words),
            latch: Latch::new(words),
            notice: Notice::new(),
            locked: Mutex::new(locked),
        };
        let caller = |id| Caller {
            id,
            accepted: 0,
            front: 0,
            mark: 0,
        };
        (keeper, (0..callers).map(caller).collect())
    }

    pub fn command(&self, caller: &mut Caller, cmd: Command) -> Result<u64, Refusal> {
        let mut locked = self.locked.lock().unwrap();
        let before = locked.count();
        self.notice.announce(before);
        let number = match locked.apply(caller.id, cmd) {
            Ok(number) => number,
            Err(refusal) => {
                self.notice.end(before);
                return Err(refusal);
            }
        };
        let words = locked.keeper.base().words(number);
        self.page.store(words);
        self.latch.publish(&words);
        self.notice.end(number);
        caller.accepted += 1;
        caller.front = number;
        caller.mark = number;
        Ok(number)
    }

    pub fn read(&self, caller: &mut Caller) -> Words {
        let words = self.page.load();
        caller.front = words[0];
        words
    }

    pub fn fast_read(&self, caller: &mut Caller) -> Result<Words, (u64, u64)> {
        let words = self.latch.try_read()?;
        caller.mark = words[0];
        Ok(words)
    }

    pub fn close(self) -> Locked<C> {
        self.locked.into_inner().unwrap()
    }
}

/// A keeper whose counter only its commands read.
type TickedKeeper = SharedKeeper<Ticker>;

fn gives(keeper: &TickedKeeper, caller: &mut Caller, count: u64) {
    for _ in 0..count {
        let _ = black_box(keeper.command(caller, Command::Update));
    }
}

/// A keeper with five callers, of which the last is returned separately.
fn opened() -> (Box<TickedKeeper>, Vec<Caller>, Caller) {
    let counter = Ticker { next: 0 };
    let (keeper, mut callers) = SharedKeeper::opened(counter, 5, COMMANDS as usize);
    let caller = callers.pop().unwrap();
    (Box::new(keeper), callers, caller)
}

/// Times commands by one thread.
pub fn one_thread(effort: Effort) -> Turn {
    let (keeper, _, mut caller) = opened();
    let count = effort.of(COMMANDS);
    let start = Instant::now();
    gives(&keeper, &mut caller, count);
    let time = start.elapsed();
    let check = weighed(&keeper.read(&mut caller));
    Turn { time, count, check }
}

/// Times commands by four threads.
pub fn four_threads(effort: Effort) -> Turn {
    let (keeper, mut callers, mut caller) = opened();
    let (keeper, count) = (&*keeper, effort.of(COMMANDS));
    let start = Instant::now();
    thread::scope(|scope| {
        for one in callers.iter_mut() {
            scope.spawn(move || gives(keeper, one, count / 4));
        }
    });
    let time = start.elapsed();
    let check = weighed(&keeper.read(&mut caller));
    Turn { time, count, check }
}

/// Reads until all four threads have ended. Returns the number of reads, and the sum of their
/// weights less that number times the usual weight, which is 0 if each read was whole.
fn reads(keeper: &TickedKeeper, caller: &mut Caller, usual: u64, ended: &AtomicU64) -> (u64, u64) {
    let (mut count, mut sum) = (0u64, 0u64);
    while ended.load(Ordering::SeqCst) < 4 {
        for _ in 0..READS_BETWEEN {
            sum = sum.wrapping_add(weight(&keeper.read(caller)));
        }
        count += READS_BETWEEN;
    }
    (count, sum.wrapping_sub(count.wrapping_mul(usual)))
}

/// The same with fast reads. Only reads that succeed count.
fn fast_reads(
    keeper: &TickedKeeper,
    caller: &mut Caller,
    usual: u64,
    ended: &AtomicU64,
) -> (u64, u64) {
    let (mut count, mut sum) = (0u64, 0u64);
    while ended.load(Ordering::SeqCst) < 4 {
        for _ in 0..READS_BETWEEN {
            if let Ok(words) = keeper.fast_read(caller) {
                sum = sum.wrapping_add(weight(&words));
                count += 1;
            }
        }
    }
    (count, sum.wrapping_sub(count.wrapping_mul(usual)))
}

/// Times reads while four threads give commands.
fn beside(
    effort: Effort,
    read: impl FnOnce(&TickedKeeper, &mut Caller, u64, &AtomicU64) -> (u64, u64),
) -> Turn {
    let (keeper, mut callers, mut caller) = opened();
    let usual = weight(&keeper.read(&mut caller));
    let ended = AtomicU64::new(0);
    let (shared, flag, each) = (&*keeper, &ended, effort.of(COMMANDS) / 4);
    let start = Instant::now();
    let (count, off) = thread::scope(|scope| {
        for one in callers.iter_mut() {
            scope.spawn(move || {
                gives(shared, one, each);
                flag.fetch_add(1, Ordering::SeqCst)
            });
        }
        read(shared, &mut caller, usual, flag)
    });
    let time = start.elapsed();
    let check = weighed(&keeper.read(&mut caller)).wrapping_add(off);
    Turn { time, count, check }
}

pub fn reads_beside(effort: Effort) -> Turn {
    beside(effort, reads)
}

pub fn fast_reads_beside(effort: Effort) -> Turn {
    beside(effort, fast_reads)
}
