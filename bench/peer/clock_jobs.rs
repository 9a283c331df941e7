//! Reads from a base, and updates of running clocks.

use crate::bench::{Bench, Job, Unit};
use crate::clocks::{Base, Clock, ClockId, Command, Desc, Timespec};
use crate::digest::of_numbers;
use std::hint::black_box;

const CALLS: u64 = 1_000_000;
const TURNS: u32 = 20;

struct Gets {
    base: Base,
    clock: ClockId,
    mask: u64,
    sum: u64,
}

impl Job for Gets {
    fn turn(&mut self) {
        let mut sum: u64 = 0;
        for turn in 0..CALLS {
            let reading = turn.wrapping_mul(0x9e37_79b9_7f4a_7c15) & self.mask;
            if let Ok(time) = self.base.get(self.clock, reading) {
                sum = sum.wrapping_add(u64::from(time.nsec) ^ time.sec.unsigned_abs());
            }
        }
        self.sum = sum;
    }

    fn check(&self) -> Option<u64> {
        Some(self.sum)
    }
}

struct Updates {
    opened: Clock,
    step: u64,
    mask: u64,
    words: [u64; 10],
}

impl Job for Updates {
    fn turn(&mut self) {
        let mut clock = self.opened;
        let mut reading: u64 = 0;
        let mut accepted: u64 = 0;
        for _ in 0..CALLS {
            reading = reading.wrapping_add(self.step) & self.mask;
            if clock.apply(reading, Command::Update).is_ok() {
                accepted += 1;
            }
        }
        self.words = clock.base.words(accepted);
    }

    fn check(&self) -> Option<u64> {
        Some(of_numbers(&self.words))
    }
}

pub fn run(bench: &Bench) {
    let fine = opened(32, 16_777_216);
    let wide = opened(64, 699_050_667);
    for (name, opened, mask) in [
        ("clock_get_1ms", fine, 0xf_ffff),
        ("clock_get_2s", fine, 0x7fff_ffff),
        ("clock_get_12h", wide, 0xff_ffff_ffff),
    ] {
        let clock = black_box(ClockId::Realtime);
        let mut job = Gets {
            base: opened.base,
            clock,
            mask,
            sum: 0,
        };
        bench.run(name, Unit::Each(CALLS, "read"), TURNS, &mut job);
    }
    for (name, opened, step, mask) in [
        ("clock_apply_1us", fine, 1_000, 0xffff_ffff),
        ("clock_apply_700ms", wide, 16_777_216, u64::MAX),
    ] {
        let mut job = Updates {
            opened,
            step,
            mask,
            words: [0; 10],
        };
        bench.run(name, Unit::Each(CALLS, "command"), TURNS, &mut job);
    }
}

fn opened(bits: u32, mult: u32) -> Clock {
    let desc = Desc::new(black_box(bits), black_box(mult), black_box(24)).expect("a counter");
    let real = Timespec {
        sec: 1_700_000_000,
        nsec: 0,
    };
    Clock::open(desc, 0, real).expect("clocks")
}
