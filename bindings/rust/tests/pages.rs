// SPDX-License-Identifier: MIT OR Apache-2.0
//! Pages and latches where their answers are known, and in threads. bindings/tests runs them
//! between processes.

mod support;

use std::sync::atomic::AtomicU64;
use std::sync::atomic::Ordering::{Acquire, Relaxed, Release};
use std::thread;

use support::opened;
use tkcore::{Clock, ClockId, Command, Counter, Latch, Page, Refusal, Timespec};
use tkcore::{LATCH_WORDS, PAGE_WORDS};

const CYCLES: u64 = 12_345;

#[test]
fn reads_of_the_latest_snapshot() {
    let (memory, fast) =
        ([const { AtomicU64::new(0) }; PAGE_WORDS], [const { AtomicU64::new(0) }; LATCH_WORDS]);
    let mut clock = opened();
    let mut page = Page::create(&memory, &clock).unwrap();
    let mut latch = Latch::create(&fast, &clock.snapshot()).unwrap();
    for offset in 0..5 {
        let snapshot = clock.snapshot();
        let wanted = snapshot.get(ClockId::Tai, CYCLES);
        assert_eq!(page.read(), Ok(snapshot));
        assert_eq!(latch.read(), Ok(snapshot));
        assert_eq!(page.look(|| CYCLES), Ok((snapshot, CYCLES)));
        assert_eq!(latch.look(|| CYCLES), Ok((snapshot, CYCLES)));
        assert_eq!(page.now(ClockId::Tai, || CYCLES), wanted);
        assert_eq!(latch.now(ClockId::Tai, || CYCLES), wanted);
        assert_eq!(page.try_now(1, ClockId::Tai, || CYCLES), wanted);
        assert_eq!(page.clock().as_ref(), Ok(&clock));
        page.begin();
        clock.apply(CYCLES, Command::Tai(offset)).unwrap();
        page.publish(&clock);
        latch.publish(&clock.snapshot());
    }
}

#[test]
fn a_writer_inside_and_a_new_writer() {
    let (memory, fast) =
        ([const { AtomicU64::new(0) }; PAGE_WORDS], [const { AtomicU64::new(0) }; LATCH_WORDS]);
    let clock = opened();
    let mut page = Page::create(&memory, &clock).unwrap();
    let mut latch = Latch::create(&fast, &clock.snapshot()).unwrap();
    assert_eq!(page.try_now(0, ClockId::Tai, || CYCLES), Err(Refusal::Busy));
    page.begin();
    assert_eq!(page.try_now(5, ClockId::Tai, || CYCLES), Err(Refusal::Busy));
    let mut found = page.clock().unwrap();
    assert_eq!(found, clock);
    found.apply(CYCLES, Command::Update).unwrap();
    page.recover(&found);
    latch.recover(&found);
    assert_eq!((page.read(), latch.read()), (Ok(found.snapshot()), Ok(found.snapshot())));
    page.publish(&found.snapshot());
    assert_eq!(page.read(), Ok(found.snapshot()));
    assert_eq!(page.clock(), Err(Refusal::BadWords));
}

#[test]
fn a_change_of_counter_is_published_with_the_clocks() {
    let (memory, fast) =
        ([const { AtomicU64::new(0) }; PAGE_WORDS], [const { AtomicU64::new(0) }; LATCH_WORDS]);
    let mut clock = opened();
    let other = Counter::new(56, 33_554_432, 24).unwrap(); // 2 ns a cycle
    let mut page = Page::create(&memory, &clock).unwrap();
    let mut latch = Latch::create(&fast, &clock.snapshot()).unwrap();
    let (reader, fast_reader) = (Page::attach(&memory).unwrap(), Latch::attach(&fast).unwrap());
    page.begin();
    clock.change_counter(CYCLES, &other, 9).unwrap();
    page.publish(&clock);
    latch.publish(&clock.snapshot());
    let read = Ok(Timespec { sec: 0, nsec: CYCLES as u32 + 8 });
    assert_eq!(reader.now(ClockId::Monotonic, || 13), read);
    assert_eq!(fast_reader.now(ClockId::Monotonic, || 13), read);
    assert_eq!(reader.read().unwrap().counter(), &other);
    assert_eq!(fast_reader.read(), Ok(clock.snapshot()));
    assert_eq!(page.clock(), Ok(clock));
}

#[test]
fn the_former_layout_is_refused() {
    let memory = [const { AtomicU64::new(0) }; PAGE_WORDS];
    Page::create(&memory, &opened()).unwrap();
    memory[0].store(0x746b_6370_6167_6501, Relaxed); // "tkcpage", 1
    assert_eq!(Page::attach(&memory).err(), Some(Refusal::BadLayout));
    Latch::create(&memory, &opened().snapshot()).unwrap();
    memory[0].store(0x746b_636c_6174_6301, Relaxed); // "tkclatc", 1
    assert_eq!(Latch::attach(&memory).err(), Some(Refusal::BadLayout));
}

#[test]
fn monotonic_never_goes_back_for_readers_in_threads() {
    const COMMANDS: u64 = 20_000;
    let memory = [const { AtomicU64::new(0) }; PAGE_WORDS];
    let cycles = AtomicU64::new(0);
    let counter = Counter::from_hz(64, 1_000_000_000, 600).unwrap();
    let mut clock = Clock::open(&counter, 0, Timespec::default()).unwrap();
    let mut page = Page::create(&memory, &clock).unwrap();
    let read_counter = || cycles.fetch_add(1, Acquire);
    thread::scope(|threads| {
        for _ in 0..3 {
            threads.spawn(|| {
                let (reader, mut last, mut front) = (Page::attach(&memory).unwrap(), 0, 0);
                while front < COMMANDS {
                    let (snapshot, reading) = reader.look(read_counter).unwrap();
                    let time = snapshot.get(ClockId::Monotonic, reading).unwrap().nanos();
                    assert!(time >= last && snapshot.words()[0] >= front);
                    (last, front) = (time, snapshot.words()[0]);
                }
            });
        }
        for number in 0..COMMANDS {
            page.begin();
            let reading = cycles.fetch_add(1_000, Release);
            let frequency = if number % 2 == 0 { -32_768_000 } else { 32_768_000 };
            clock.apply(reading, Command::Freq(frequency)).unwrap();
            page.publish(&clock);
        }
    });
    assert!(cycles.load(Relaxed) >= COMMANDS * 1_000);
}
