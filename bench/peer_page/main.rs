//! Jobs of `crates/tk_bench_threads` as hand-written Rust with std alone: reads and publications of
//! a page and of a latch, and updates of clocks alone. The clocks are those of `peer`.
//!
//! Words are published with the weakest ordering that the language's memory model allows;
//! Jomrezal's publications are sequentially consistent. On x86-64 a store is a plain store here,
//! and an exchange there.
#![allow(dead_code)]
#[path = "../peer/clocks.rs"]
mod clocks;
mod desk;
mod latch;
mod page;
mod turns;

use std::process::ExitCode;
use turns::{run_jobs, Job};

const JOBS: [Job; 8] = [
    ("page_read", "ns/read", page::quiet),
    ("page_read_beside", "ns/read", page::beside),
    ("page_publish", "ns/publication", page::publishing),
    ("latch_read", "ns/read", latch::quiet),
    ("latch_read_beside", "ns/read", latch::beside),
    ("latch_publish", "ns/publication", latch::publishing),
    ("update_unpublished", "ns/command", desk::unpublished),
    ("update_in_memory", "ns/command", desk::in_memory),
];

fn main() -> ExitCode {
    run_jobs(&JOBS)
}
