// SPDX-License-Identifier: MIT OR Apache-2.0
//! Converts a million stamps of a tracer into REALTIME, as examples/c/convert.c does.
//!
//! The clocks were steered and stepped before. One call converts all stamps, and a second call
//! stops at a stamp that the counter can't show.

use tkcore::{Clock, ClockId, Command, Counter, Timespec};

const HZ: u64 = 24_000_000;
const OPENED_AT: u64 = 12_345;

fn main() -> Result<(), Box<dyn std::error::Error>> {
    let counter = Counter::from_hz(48, HZ, 600)?;
    let mut clock = Clock::open(&counter, OPENED_AT, Timespec { sec: 1_700_000_000, nsec: 0 })?;
    clock.apply(OPENED_AT + HZ / 4, Command::Freq(-20 * 65_536))?;
    clock.apply(OPENED_AT + HZ / 2, Command::Step(Timespec { sec: 1, nsec: 500_000_000 }))?;
    let first = OPENED_AT + HZ / 2;
    let mut stamps: Vec<u64> = (0..1_000_000).map(|it| first + it * 24_007).collect();
    let mut times = vec![0; stamps.len()];

    clock.snapshot().convert(ClockId::Realtime, &mut times, &stamps)?;
    let (start, end) = (times[0], times[times.len() - 1]);
    println!("{} stamps: from {start} ns to {end} ns", times.len());
    let sum = times.iter().fold(0, |sum: u64, time| sum.wrapping_add(*time));
    println!("their sum modulo 2^64: {sum}");

    stamps[654_321] = u64::MAX; // no reading of 48 bits
    if let Err(ended) = clock.snapshot().convert(ClockId::Realtime, &mut times, &stamps) {
        println!("stamp {} is above the counter's readings", ended.done);
    }
    Ok(())
}
