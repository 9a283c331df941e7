//! Commands of a keeper, with folds, and reads of its past.

use crate::bench::{Bench, Job, Unit};
use crate::clocks::{Command, Desc, Timespec};
use crate::digest::of_numbers;
use crate::keeper::{Keeper, LISTED_LIMIT};
use std::hint::black_box;
use std::time::Instant;

const COMMANDS: u64 = 10_000_000;
const KEPT: usize = 786_432;
const READS: u64 = 100_000;

struct Commands {
    count: u64,
    keeper: Keeper,
}

impl Commands {
    fn command(&mut self, step: u64) {
        let reading = step.wrapping_mul(1_000) & 0xffff_ffff;
        if self.keeper.apply(0, reading, Command::Update).is_err() {
            self.keeper.fold(KEPT);
            let again = self.keeper.apply(0, reading, Command::Update);
            again.expect("an accepted command");
        }
    }
}

impl Job for Commands {
    fn turn(&mut self) {
        self.keeper = opened();
        for step in 0..self.count {
            self.command(step);
        }
    }

    fn check(&self) -> Option<u64> {
        let words = self.keeper.base().words(self.keeper.len() as u64);
        Some(of_numbers(&words).wrapping_add(self.keeper.folded() as u64))
    }
}

struct LongestCommand {
    commands: Commands,
    longest: u128,
}

impl Job for LongestCommand {
    fn turn(&mut self) {
        self.commands.keeper = opened();
        self.commands.keeper.reserve(LISTED_LIMIT);
        self.longest = 0;
        for step in 0..self.commands.count {
            let start = Instant::now();
            self.commands.command(step);
            self.longest = self.longest.max(start.elapsed().as_nanos());
        }
    }

    fn counted(&self, _whole: u128) -> u128 {
        self.longest
    }

    fn check(&self) -> Option<u64> {
        self.commands.check()
    }
}

struct Past {
    keeper: Keeper,
    sum: u64,
}

impl Job for Past {
    fn turn(&mut self) {
        let mut sum: u64 = 0;
        for step in 0..READS {
            let front = step.wrapping_mul(0x9e37_79b9_7f4a_7c15) >> 44;
            if let Some(clock) = self.keeper.clock_at(front as usize) {
                sum = sum.wrapping_add(clock.base.last ^ clock.base.frac());
            }
        }
        self.sum = sum;
    }

    fn check(&self) -> Option<u64> {
        Some(self.sum)
    }
}

pub fn run(bench: &Bench) {
    if !bench.wants_any("keeper_") {
        return;
    }
    let mut job = Commands {
        count: COMMANDS,
        keeper: opened(),
    };
    bench.run(
        "keeper_commands_10000000",
        Unit::Each(COMMANDS, "command"),
        1,
        &mut job,
    );
    let mut longest = LongestCommand {
        commands: job,
        longest: 0,
    };
    bench.run("keeper_longest_command", Unit::One, 3, &mut longest);
    let mut job = longest.commands;
    job.count = LISTED_LIMIT as u64;
    job.turn();
    let mut job = Past {
        keeper: job.keeper,
        sum: 0,
    };
    bench.run("keeper_snapshot_at", Unit::Each(READS, "read"), 2, &mut job);
}

fn opened() -> Keeper {
    let desc = Desc::new(32, black_box(16_777_216), 24).expect("a counter");
    let real = Timespec {
        sec: 1_700_000_000,
        nsec: 0,
    };
    Keeper::open(desc, 0, real).expect("clocks")
}
