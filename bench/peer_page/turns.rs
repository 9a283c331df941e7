//! The common part of the peer programs: it runs the jobs that the words ask for, and prints their
//! figures.
//!
//! Without words it prints `JOB`, `CHECK` of each job after short turns. With `time` it prints
//! `JOB`, `NUMBER`, `UNIT`, `CHECK` after long turns, and with `time JOB..` for these jobs alone.
//! Tabs separate the columns. The check of a job is the same as Jomrezal's.
use std::env;
use std::process::ExitCode;
use std::time::Duration;

/// The number of turns of a job.
const TURNS: u32 = 2;

/// The length of a turn.
#[derive(Clone, Copy)]
pub enum Effort {
    Short,
    Full,
}

impl Effort {
    /// The number of repetitions in a full turn, or a thousandth of it.
    pub fn of(self, full: u64) -> u64 {
        match self {
            Effort::Short => full / 1_000,
            Effort::Full => full,
        }
    }
}

/// The result of a turn: its time, the number of repetitions, and a number that is computed from
/// the results.
pub struct Turn {
    pub time: Duration,
    pub count: u64,
    pub check: u64,
}

impl Turn {
    fn nanos(&self) -> f64 {
        self.time.as_nanos() as f64 / self.count.max(1) as f64
    }
}

/// A job's name, its unit, and the function that runs a turn.
pub type Job = (&'static str, &'static str, fn(Effort) -> Turn);

/// Runs the jobs that the words of the command line ask for.
pub fn run_jobs(jobs: &[Job]) -> ExitCode {
    let words: Vec<String> = env::args().skip(1).collect();
    let (effort, names) = match words.as_slice() {
        [] => (Effort::Short, &[][..]),
        [word, names @ ..] if word == "time" => (Effort::Full, names),
        _ => return ExitCode::from(2),
    };
    let mut status = 0;
    for (name, unit, job) in jobs {
        if !names.is_empty() && !names.iter().any(|asked| asked == *name) {
            continue;
        }
        let mut best = job(effort);
        for _ in 1..TURNS {
            let turn = job(effort);
            if turn.check != best.check {
                status = 1;
            }
            if turn.nanos() < best.nanos() {
                best = turn;
            }
        }
        match effort {
            Effort::Short => println!("{name}\t{}", best.check),
            Effort::Full => println!("{name}\t{:.3}\t{unit}\t{}", best.nanos(), best.check),
        }
    }
    ExitCode::from(status)
}
