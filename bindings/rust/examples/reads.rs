// SPDX-License-Identifier: MIT OR Apache-2.0
//! Times reads of a snapshot or of a page: `reads [get|page [READS]]`, or 20,000,000 of both.
//! `tools/check_bindings` counts the calls in `get_once` and `page_once`, and compares the
//! instructions of a read with those of bindings/tests/reads.c.

use std::env;
use std::hint::black_box;
use std::sync::atomic::AtomicU64;
use std::time::Instant;

use tkcore::{Clock, ClockId, Counter, Page, Refusal, Snapshot, Timespec, PAGE_WORDS};

/// Makes one call of the library.
#[inline(never)]
fn get_once(snapshot: &Snapshot, reading: u64) -> Result<Timespec, Refusal> {
    snapshot.get(ClockId::Realtime, reading)
}

/// Makes three calls of the library.
#[inline(never)]
fn page_once(page: &Page, reading: u64) -> Result<Timespec, Refusal> {
    page.now(ClockId::Realtime, || reading)
}

#[inline(always)]
fn timed(
    name: &str,
    reads: u64,
    read: impl Fn(u64) -> Result<Timespec, Refusal>,
) -> Result<(), Refusal> {
    let started = Instant::now();
    let mut sum = 0u64;
    for reading in 0..reads {
        sum = sum.wrapping_add(u64::from(read(black_box(reading))?.nsec));
    }
    let took = started.elapsed().as_nanos() as f64 / reads as f64;
    println!("{name}: {took:.2} ns a read, {sum}");
    Ok(())
}

fn main() -> Result<(), Refusal> {
    let memory = [const { AtomicU64::new(0) }; PAGE_WORDS];
    let counter = Counter::from_hz(64, 1_000_000_000, 600)?;
    let clock = Clock::open(&counter, 0, Timespec { sec: 1_700_000_000, nsec: 0 })?;
    let page = Page::create(&memory, &clock)?;
    let snapshot = clock.snapshot();
    assert!(get_once(&snapshot, 0).is_ok());

    let (kind, reads) = (env::args().nth(1), env::args().nth(2));
    let reads = reads.map_or(20_000_000, |text| text.parse().expect("a number of reads"));
    if kind.as_deref() != Some("page") {
        timed("get", reads, |reading| snapshot.get(ClockId::Realtime, reading))?;
    }
    if kind.as_deref() != Some("get") {
        timed("page", reads, |reading| page_once(&page, reading))?;
    }
    Ok(())
}
