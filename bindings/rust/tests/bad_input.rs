// SPDX-License-Identifier: MIT OR Apache-2.0
//! Random arguments to every call, in lists and memory of exactly their size, and memory that isn't
//! a page or a latch.

mod support;

use std::sync::atomic::AtomicU64;
use std::sync::atomic::Ordering::Relaxed;

use support::{calls, opened, some_command, Random, START};
use tkcore::{shared_words, ClockId, LATCH_WORDS, PAGE_WORDS, WORDS};
use tkcore::{Clock, ClockWords, Counter, Latch, Page, Refusal, Snapshot};

fn some_words(random: &mut Random, like: &[u64; WORDS]) -> [u64; WORDS] {
    let mut words = *like;
    for _ in 0..random.below(3) {
        words[random.below(10) as usize] = random.some();
    }
    words
}

/// Converts stamps in memory of exactly their size. The times after the converted ones must stay.
fn convert(random: &mut Random, snapshot: &Snapshot) -> bool {
    let stamps: Box<[u64]> = (0..random.below(20)).map(|_| random.some() >> 32).collect();
    let mut times: Box<[u64]> = (0..random.below(22)).map(|_| 7).collect();
    let clock = random.clock();
    match snapshot.convert(clock, &mut times, &stamps) {
        Ok(()) => {
            assert!(times[stamps.len()..].iter().all(|time| *time == 7));
            true
        }
        Err(ended) => {
            let is_at_a_stamp = ended.refusal != Refusal::BadRoom;
            assert_eq!(is_at_a_stamp, times.len() >= stamps.len());
            assert!(times[ended.done..].iter().all(|time| *time == 7));
            let found = is_at_a_stamp.then(|| snapshot.get(clock, stamps[ended.done]));
            assert!(found.map_or(true, |found| found == Err(ended.refusal)));
            false
        }
    }
}

/// Makes one random call. Returns whether it was accepted.
fn call(random: &mut Random, clock: &mut Clock) -> bool {
    let snapshot = clock.snapshot();
    let counter = *clock.counter();
    match random.below(9) {
        0 | 1 => clock.apply(random.some(), some_command(random)).is_ok(),
        2 => snapshot.get(random.clock(), random.some()).is_ok(),
        3 => snapshot.reading_at(random.clock(), random.time()).is_ok(),
        4 => convert(random, &snapshot),
        5 => {
            let words = some_words(random, &snapshot.words());
            Snapshot::from_words(&counter, &words).is_ok_and(|made| made.words() == words)
        }
        6 => {
            let ClockWords { words, frequency, tick } = clock.words();
            let words = ClockWords { words: some_words(random, &words), frequency, tick };
            Clock::from_words(&counter, &words).is_ok_and(|made| made.words() == words)
        }
        7 => {
            let numbers = [random.some() as u32, random.some() as u32, random.some() as u32];
            Counter::new(8 + numbers[0] % 57, numbers[1], numbers[2] % 34).is_ok()
                | Counter::from_hz(numbers[0], random.some(), numbers[2] % 601).is_ok()
                | Counter::from_khz(64, random.some(), 1 + numbers[2] % 600).is_ok()
        }
        _ => {
            assert!(counter.gap(random.some(), random.some()) <= counter.max_reading());
            let (opened, uptime) = (random.some(), random.time());
            Clock::open(&counter, opened, random.time()).is_ok()
                | Clock::open_at(&counter, opened, START, uptime).is_ok()
                | (counter.nanos(opened) == opened)
        }
    }
}

#[test]
fn random_calls() {
    let mut random = Random(88_172_645_463_325_252);
    let (mut clock, mut accepted) = (opened(), 0);
    for number in 0..calls() {
        if number % 100 == 0 {
            clock = opened();
        }
        accepted += u64::from(call(&mut random, &mut clock));
    }
    println!("{} random calls: {accepted} were accepted", calls());
    assert!(accepted > 0 && accepted < calls());
}

#[test]
fn memory_of_random_words() {
    let mut random = Random(1);
    let words = |size: usize| (0..size).map(|_| AtomicU64::new(0)).collect::<Box<[AtomicU64]>>();
    let (page, latch) = (words(PAGE_WORDS), words(LATCH_WORDS));
    let clock = opened();
    let reader = Page::create(&page, &clock).unwrap();
    let fast = Latch::create(&latch, &clock.snapshot()).unwrap();
    for _ in 0..calls() {
        // (not the sequence, whose readers would wait for a writer)
        page[2 + random.below(PAGE_WORDS as u64 - 2) as usize].store(random.some(), Relaxed);
        latch[2 + random.below(LATCH_WORDS as u64 - 2) as usize].store(random.some(), Relaxed);
        let found = [
            reader.read().err(),
            reader.clock().err(),
            reader.try_now(3, ClockId::Tai, || random.some()).err(),
            Page::attach(&page).err(),
            fast.read().err(),
            Latch::attach(&latch).err(),
        ];
        assert!(found.iter().flatten().all(|it| *it != Refusal::OtherVersion));
        if random.below(4) == 0 {
            Page::create(&page, &clock).unwrap();
            Latch::create(&latch, &clock.snapshot()).unwrap();
        }
    }
}

#[test]
fn memory_without_a_page() {
    let clock = opened();
    let memory = [const { AtomicU64::new(0) }; PAGE_WORDS];
    for size in 0..PAGE_WORDS {
        assert_eq!(Page::attach(&memory[..size]).err(), Some(Refusal::BadMemory));
        assert_eq!(Page::create(&memory[..size], &clock).err(), Some(Refusal::BadMemory));
    }
    for size in 0..LATCH_WORDS {
        let few = &memory[..size];
        assert_eq!(Latch::attach(few).err(), Some(Refusal::BadMemory));
        assert_eq!(Latch::create(few, &clock.snapshot()).err(), Some(Refusal::BadMemory));
    }
    assert!(memory.iter().all(|word| word.load(Relaxed) == 0)); // a refused call writes nothing
    assert_eq!((PAGE_WORDS, LATCH_WORDS), (32, 28));
    assert_eq!(Page::attach(&memory).err(), Some(Refusal::BadLayout));
    Page::create(&memory, &clock).unwrap();
    assert_eq!(Latch::attach(&memory).err(), Some(Refusal::BadLayout));
    memory[0].fetch_add(1, Relaxed); // the number of the layout
    assert_eq!(Page::attach(&memory).err(), Some(Refusal::BadLayout));
    memory[0].fetch_sub(1, Relaxed);
    let page = Page::attach(&memory).unwrap();
    memory[12].store(1 << 32 | 32, Relaxed); // the bits of the counter
    assert_eq!(page.read(), Err(Refusal::BadWords));
    memory[12].store(0, Relaxed);
    assert_eq!(page.read(), Err(Refusal::BadBits));
    assert_eq!(page.now(ClockId::Tai, || 0), Err(Refusal::BadBits));
    assert_eq!(page.clock(), Err(Refusal::BadWords));
}

#[test]
fn memory_that_is_not_aligned() {
    let memory = [0u64; 2];
    let start = memory.as_ptr().cast::<u8>();
    for (address, is_good) in
        [(start, true), (start.wrapping_add(4), false), (std::ptr::null(), false)]
    {
        // SAFETY: 8 bytes are valid at each address that is aligned and isn't NULL.
        let words = unsafe { shared_words(address, 8) };
        assert_eq!(words.is_ok(), is_good);
    }
}

/// Memory of a byte too few contains a word less, so it has neither a page nor a latch.
#[test]
fn memory_of_each_size() {
    let memory = [const { AtomicU64::new(0) }; PAGE_WORDS];
    let clock = opened();
    for size in 0..=8 * PAGE_WORDS {
        // SAFETY: the memory has this many bytes, and is shared only atomically.
        let words = unsafe { shared_words(memory.as_ptr().cast(), size) }.unwrap();
        assert_eq!(words.len(), size / 8);
        assert_eq!(Page::create(words, &clock).is_ok(), size == 8 * PAGE_WORDS);
        assert_eq!(Page::attach(words).is_ok(), size == 8 * PAGE_WORDS);
    }
    for size in 8 * LATCH_WORDS - 8..=8 * LATCH_WORDS {
        // SAFETY: as above.
        let words = unsafe { shared_words(memory.as_ptr().cast(), size) }.unwrap();
        assert_eq!(Latch::create(words, &clock.snapshot()).is_ok(), size == 8 * LATCH_WORDS);
        assert_eq!(Latch::attach(words).is_ok(), size == 8 * LATCH_WORDS);
    }
}

#[test]
fn texts_name_the_value_and_its_range() {
    let ended = opened().snapshot().convert(ClockId::Tai, &mut [0; 2], &[1, 1 << 32]).unwrap_err();
    assert_eq!(ended.to_string(), "stamp 1 is 4294967296 instead of 0 to 4294967295");
    assert_eq!((ended.refusal, ended.done, ended.stamp), (Refusal::Invalid, 1, 1 << 32));
    let ended = opened().snapshot().convert(ClockId::Tai, &mut [], &[1]).unwrap_err();
    assert_eq!(ended.to_string(), "there are fewer times than stamps");
}
