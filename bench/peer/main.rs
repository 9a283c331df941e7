//! The jobs of `crates/tk_bench` as hand-written Rust with std alone, and the reports and traces of
//! `tkcore` as a whole program. Nothing here is proved.
//!
//! | Words | What the program does |
//! |---|---|
//! | none | runs each job a few times, and prints a line `JOB<tab>CHECK` for each |
//! | `time`, `time JOB..` | times all jobs, or these: `JOB<tab>NUMBER<tab>UNIT<tab>CHECK` |
//! | `replay` | writes the report of the script on standard input |
//! | `trace CLOCK SCRIPT STAMPS` | writes the clock at each stamp of a file |

mod batch_jobs;
mod bench;
mod clock_jobs;
mod clocks;
mod csv;
mod digest;
mod inputs;
mod keeper;
mod keeper_jobs;
mod line;
mod lines;
mod program;
mod report;
mod script;
mod text_jobs;
mod trace;
mod trace_jobs;

use bench::Bench;
use std::process::ExitCode;

fn main() -> ExitCode {
    let words: Vec<String> = std::env::args().skip(1).collect();
    let words: Vec<&str> = words.iter().map(String::as_str).collect();
    match words.as_slice() {
        ["replay"] => program::replay(),
        ["trace", clock, script, stamps] => program::trace(clock, script, stamps),
        words => match Bench::of_words(words) {
            Some(bench) => {
                run(&bench);
                ExitCode::SUCCESS
            }
            None => program::refused(),
        },
    }
}

fn run(bench: &Bench) {
    clock_jobs::run(bench);
    keeper_jobs::run(bench);
    batch_jobs::run(bench);
    trace_jobs::run(bench);
    text_jobs::run(bench);
}
