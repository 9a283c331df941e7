// SPDX-License-Identifier: MIT OR Apache-2.0
//! The calls of the Rust crate on a page and a latch, at each of their stores and loads: see
//! deaths.h.

use std::ffi::{c_char, CStr};

use tkcore::{shared_words, Clock, Command, Counter, Latch, Page, Refusal, Snapshot, Timespec};
use tkcore::{LATCH_WORDS, PAGE_WORDS, WORDS as SNAPSHOT};

const COUNTERS: [[u32; 3]; 2] = [[64, 1 << 23, 23], [64, 1 << 24, 23]];
const BUSY: u64 = 48;
const WORDS: usize = 13;

type Act = extern "C" fn(*mut u8, u64, u64);
type Read = extern "C" fn(*mut u8, u64, *mut [u64; WORDS]) -> u64;

#[link(name = "deaths")]
extern "C" {
    fn deaths_run(language: *const c_char, act: Act, read: Read);
}

fn counter(which: usize) -> Counter {
    let [bits, mult, shift] = COUNTERS[which];
    Counter::new(bits, mult, shift).unwrap()
}

fn opened() -> Clock {
    Clock::open(&counter(0), 0, Timespec { sec: 1_700_000_000, nsec: 0 }).unwrap()
}

fn command(clock: &mut Clock) -> Result<(), Refusal> {
    let front = clock.snapshot().words()[0];
    let reading = 1000 * (front + 1);
    match front % 4 {
        0 => clock.apply(reading, Command::Freq((front % 1000 * 32_768) as i64)),
        1 => clock.apply(reading, Command::Tick((9000 + front % 2000) as i64)),
        2 => clock.apply(reading, Command::Tai((front % 1000) as i64)),
        _ => {
            let other = counter(usize::from(front / 4 % 2 == 0));
            clock.change_counter(reading, &other, reading)
        }
    }
}

fn live(page: &mut Page, latch: &mut Latch, count: u64) {
    let mut clock = page.clock().unwrap();
    page.recover(&clock);
    latch.recover(&clock);
    for _ in 0..count {
        page.begin();
        command(&mut clock).unwrap();
        page.publish(&clock);
        latch.publish(&clock.snapshot());
    }
}

extern "C" fn act(memory: *mut u8, which: u64, count: u64) {
    // SAFETY: deaths.c gives memory of 4096 bytes.
    let words = unsafe { shared_words(memory, 8 * (PAGE_WORDS + LATCH_WORDS)) }.unwrap();
    let (page, latch) = words.split_at(PAGE_WORDS);
    let clock = opened();
    match which {
        0 => {
            Page::create(page, &clock).unwrap();
            Latch::create(latch, &clock.snapshot()).unwrap();
        }
        1 => {
            Page::create(page, &clock.snapshot()).unwrap();
            Latch::create(latch, &clock.snapshot()).unwrap();
        }
        2 => Page::attach(page).unwrap().publish(&clock.snapshot()),
        _ => live(&mut Page::attach(page).unwrap(), &mut Latch::attach(latch).unwrap(), count),
    }
}

fn read_by(memory: *mut u8, which: u64) -> Result<Snapshot, Refusal> {
    // SAFETY: deaths.c gives memory of 4096 bytes.
    let words = unsafe { shared_words(memory, 8 * (PAGE_WORDS + LATCH_WORDS)) }?;
    let (page, latch) = words.split_at(PAGE_WORDS);
    match which {
        0 => Page::attach(page)?.clock().map(|clock| clock.snapshot()),
        1 => Page::attach(page)?.read(),
        2 => Page::attach(page)?.look(|| 0).map(|(snapshot, _)| snapshot),
        3 => Latch::attach(latch)?.read(),
        _ => Latch::attach(latch)?.look(|| 0).map(|(snapshot, _)| snapshot),
    }
}

extern "C" fn read(memory: *mut u8, which: u64, words: *mut [u64; WORDS]) -> u64 {
    match read_by(memory, which) {
        Ok(snapshot) => {
            let counter = snapshot.counter();
            let mut found = [0; WORDS];
            found[..SNAPSHOT].copy_from_slice(&snapshot.words());
            found[10] = counter.bits().into();
            found[11] = counter.mult().into();
            found[12] = counter.shift().into();
            // SAFETY: deaths.c has room for the words.
            unsafe { *words = found };
            0
        }
        Err(Refusal::Busy) => BUSY,
        Err(_) => 1,
    }
}

fn main() {
    let name: &CStr = c"Rust";
    // SAFETY: the calls are those that deaths.h describes.
    unsafe { deaths_run(name.as_ptr(), act, read) };
}
