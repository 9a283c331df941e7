// SPDX-License-Identifier: MIT OR Apache-2.0
//! A library without std over the crate. Its panic handler would be a second one if the crate
//! linked std.

#![no_std]

use core::panic::PanicInfo;

use tkcore::{Clock, ClockId, Command, Counter, Timespec};

#[panic_handler]
fn panic(_: &PanicInfo) -> ! {
    loop {}
}

/// Returns REALTIME in seconds, 2 s after an opening at 1,700,000,000 s, or -1.
#[no_mangle]
pub extern "C" fn seconds() -> i64 {
    let start = Timespec { sec: 1_700_000_000, nsec: 0 };
    let time = Counter::from_hz(32, 1_000_000, 600).and_then(|counter| {
        let mut clock = Clock::open(&counter, 0, start)?;
        clock.apply(1_000_000, Command::Update)?;
        clock.snapshot().get(ClockId::Realtime, 2_000_000)
    });
    time.map_or(-1, |time| time.sec)
}
