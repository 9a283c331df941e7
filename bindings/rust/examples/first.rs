// SPDX-License-Identifier: MIT OR Apache-2.0
//! Prints REALTIME two seconds after the clocks of a counter of 1 MHz were opened.

use tkcore::{Clock, ClockId, Command, Counter, Refusal, Timespec};

fn main() -> Result<(), Refusal> {
    let counter = Counter::from_hz(32, 1_000_000, 600)?;
    let start = Timespec { sec: 1_700_000_000, nsec: 0 };
    let mut clock = Clock::open(&counter, 0, start)?;
    clock.apply(1_000_000, Command::Update)?;
    let time = clock.snapshot().get(ClockId::Realtime, 2_000_000)?;
    println!("{}.{:09}", time.sec, time.nsec);
    Ok(())
}
