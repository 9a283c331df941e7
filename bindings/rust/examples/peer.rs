// SPDX-License-Identifier: MIT OR Apache-2.0
//! Writes or reads a page and a latch in a file that processes share, as `bindings/tests/peer.c`
//! describes.
//!
//!     peer write FILE COMMANDS
//!     peer read FILE

use std::env;
use std::error::Error;
use std::ffi::c_void;
use std::fs::File;
use std::os::fd::AsRawFd;
use std::path::Path;
use std::sync::atomic::AtomicU64;
use std::sync::atomic::Ordering::{Acquire, Relaxed, Release};
use std::thread;
use std::time::Duration;

use tkcore::{
    shared_words, Clock, ClockId, Command, Counter, Latch, Page, Refusal, Snapshot, Timespec,
};

const SIZE: usize = 4096;
const STEP: u64 = 1_000_000;
const NUMBERS: [[u32; 3]; 2] = [[64, 8_388_608, 23], [56, 39_146_837, 24]];
const PAUSE: u64 = 256;
const SEEN: u64 = 100;
const MOST: u64 = 100;

/// The places of the latch, of the counter and of the end, in words.
const LATCH: usize = 32;
const CYCLES: usize = 64;
const ENDED: usize = 65;

const PROT_READ: i32 = 1;
const PROT_WRITE: i32 = 2;
const MAP_SHARED: i32 = 1;

extern "C" {
    fn mmap(
        at: *mut c_void,
        size: usize,
        access: i32,
        kind: i32,
        file: i32,
        from: i64,
    ) -> *mut c_void;
}

/// Maps the file, for reads or also for writes.
fn mapped(name: &str, is_written: bool) -> Result<&'static [AtomicU64], Box<dyn Error>> {
    let file = File::options().read(true).write(is_written).open(name)?;
    let access = if is_written { PROT_READ | PROT_WRITE } else { PROT_READ };
    let file = file.as_raw_fd();
    // SAFETY: the file is open, and the mapping is never removed.
    let memory = unsafe { mmap(std::ptr::null_mut(), SIZE, access, MAP_SHARED, file, 0) };
    let memory = memory.cast::<u8>();
    if memory as usize == usize::MAX {
        return Err("the file can't be mapped".into());
    }
    // SAFETY: all accesses of this process are atomic, and a reader makes no writes.
    Ok(unsafe { shared_words(memory, SIZE) }?)
}

fn frequency_at(n: u64) -> i64 {
    let frequency = (n * 997 % 32_768_000) as i64;
    if n % 4 == 0 {
        -frequency
    } else {
        frequency
    }
}

fn counter(which: usize) -> Result<Counter, Refusal> {
    let [bits, mult, shift] = NUMBERS[which];
    Counter::new(bits, mult, shift)
}

/// Returns the counter after n commands.
fn which_at(n: u64) -> usize {
    (n / 8 % 2) as usize
}

/// Returns the counter's reading when the first one's is `cycles`.
fn reading_at(which: usize, cycles: u64) -> u64 {
    if which == 1 {
        cycles / 7 * 3 + cycles % 7 * 3 / 7
    } else {
        cycles
    }
}

fn moved(memory: &[AtomicU64]) -> u64 {
    let cycles = memory[CYCLES].load(Relaxed) + STEP;
    memory[CYCLES].store(cycles, Release);
    cycles
}

fn write(memory: &[AtomicU64], commands: u64, seen: &Path) -> Result<(), Refusal> {
    let mut clock = Clock::open(&counter(0)?, 0, Timespec { sec: 1_700_000_000, nsec: 0 })?;
    let mut latch = Latch::create(&memory[LATCH..], &clock.snapshot())?;
    let mut page = Page::create(memory, &clock)?;
    for n in 1..=commands * MOST {
        if n > commands && seen.exists() {
            break;
        }
        for _ in 0..3 {
            moved(memory);
        }
        page.begin();
        let cycles = moved(memory);
        let reading = reading_at(which_at(n - 1), cycles);
        let applied = if n % 2 == 1 {
            clock.apply(reading, Command::Tai((n % 100_001) as i64))
        } else if n % 8 != 0 {
            clock.apply(reading, Command::Freq(frequency_at(n)))
        } else {
            let which = which_at(n);
            clock.change_counter(reading, &counter(which)?, reading_at(which, cycles))
        };
        page.publish(&clock);
        latch.publish(&clock.snapshot());
        applied?;
        if n % PAUSE == 0 {
            thread::sleep(Duration::from_micros(100));
        }
    }
    memory[ENDED].store(1, Release);
    Ok(())
}

/// Checks that a snapshot is as one command left it. Returns its front.
fn check_whole(snapshot: &Snapshot) -> u64 {
    let words = snapshot.words();
    let front = words[0];
    let tai = if front % 2 == 1 { front } else { front.saturating_sub(1) };
    let steered = if front % 2 == 1 { front - 1 } else { front };
    let frequency = if steered % 8 == 0 { steered.saturating_sub(2) } else { steered };
    let which = which_at(front);
    let counter = snapshot.counter();
    let numbers = [counter.bits(), counter.mult(), counter.shift()];
    assert_eq!(numbers, NUMBERS[which], "a snapshot has another counter");
    let reading = reading_at(which, front * 4 * STEP);
    assert_eq!(words[1], reading, "a snapshot has another reading");
    assert_eq!(words[7], tai % 100_001 * 2, "a snapshot has another TAI offset");
    let mult =
        i64::from(counter.mult()) * (65_536_000_000 + frequency_at(frequency)) / 65_536_000_000;
    assert_eq!(words[2], mult as u64, "a snapshot has another multiplier");
    front
}

/// Waits until a page or a latch is there.
fn attached<T>(attach: impl Fn() -> Result<T, Refusal>) -> Result<T, Refusal> {
    loop {
        match attach() {
            Err(Refusal::BadLayout) => {}
            found => return found,
        }
    }
}

fn read(memory: &[AtomicU64], seen: &Path) -> Result<(), Box<dyn Error>> {
    println!("ready");
    let page = attached(|| Page::attach(memory))?;
    let latch = attached(|| Latch::attach(&memory[LATCH..]))?;
    let (mut reads, mut fronts, mut last, mut before) = (0, 0, 0, Timespec::default());
    loop {
        let ended = memory[ENDED].load(Acquire);
        let (snapshot, reading) = page.look(|| memory[CYCLES].load(Acquire))?;
        let front = check_whole(&snapshot);
        let now = snapshot.get(ClockId::Monotonic, reading_at(which_at(front), reading))?;
        assert!(now >= before, "MONOTONIC went back");
        assert!(front >= last, "the front went back");
        check_whole(&latch.read()?);
        reads += 1;
        fronts += u64::from(front != last);
        if fronts == SEEN && front != last {
            File::create(seen)?;
        }
        (last, before) = (front, now);
        if ended == 1 {
            break;
        }
    }
    println!("{reads} reads, {fronts} fronts");
    assert!(fronts >= SEEN, "too few fronts were seen");
    Ok(())
}

fn main() -> Result<(), Box<dyn Error>> {
    let words: Vec<String> = env::args().skip(1).collect();
    match words.iter().map(String::as_str).collect::<Vec<_>>()[..] {
        ["write", file, commands] => {
            write(mapped(file, true)?, commands.parse()?, Path::new(&format!("{file}.seen")))?;
        }
        ["read", file] => read(mapped(file, false)?, Path::new(&format!("{file}.seen")))?,
        _ => return Err("peer write FILE COMMANDS, or peer read FILE".into()),
    }
    Ok(())
}
