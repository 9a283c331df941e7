//! Jobs of `crates/tk_bench_threads` as hand-written Rust with std alone: commands of a shared
//! keeper, reads while commands are given, the time now, and a race. The clocks and the journal are
//! those of `peer`, the page and the latch those of `peer_page`. `many` is not here: its peer is the
//! same job with one worker.
#![allow(dead_code)]
#[path = "../peer/clocks.rs"]
mod clocks;
#[path = "../peer_page/desk.rs"]
mod desk;
#[path = "../peer/keeper.rs"]
mod keeper;
#[path = "../peer_page/latch.rs"]
mod latch;
mod notice;
mod now;
#[path = "../peer_page/page.rs"]
mod page;
mod race;
mod shared;
#[path = "../peer_page/turns.rs"]
mod turns;

use std::process::ExitCode;
use turns::{run_jobs, Job};

const JOBS: [Job; 8] = [
    ("shared_command_1", "ns/command", shared::one_thread),
    ("shared_command_4", "ns/command", shared::four_threads),
    ("shared_read_beside", "ns/read", shared::reads_beside),
    (
        "shared_fast_read_beside",
        "ns/read",
        shared::fast_reads_beside,
    ),
    ("now_lock", "ns/time", now::by_lock),
    ("now_cell", "ns/time", now::by_cell),
    ("now_host", "ns/time", now::by_host),
    ("race_4", "ns/command", race::four_actors),
];

fn main() -> ExitCode {
    run_jobs(&JOBS)
}
