//! Selects, runs and prints jobs, as `crates/tk_bench/src/bench.rt` does.

use std::time::Instant;

const CHECKED_TURNS: u32 = 2;

/// A job to be timed. Each turn does the same work.
pub trait Job {
    /// Prepares a turn. This is not timed.
    fn ready(&mut self) {}

    /// Does the work once.
    fn turn(&mut self);

    /// The time in ns that counts as the last turn's, which took `whole`.
    fn counted(&self, whole: u128) -> u128 {
        whole
    }

    /// A number computed from all results of the last turn, or `None` if Jomrezal's job gives
    /// another one.
    fn check(&self) -> Option<u64>;
}

/// The unit of a figure.
#[derive(Clone, Copy)]
pub enum Unit {
    /// Nanoseconds for each of the items of a turn: their number and their name.
    Each(u64, &'static str),
    /// Microseconds of one item.
    One,
    /// Milliseconds for a turn.
    Whole,
}

/// The jobs that the command line asks for.
pub struct Bench {
    is_timed: bool,
    /// The names of the jobs; empty for all jobs.
    names: Vec<String>,
}

impl Bench {
    pub fn of_words(words: &[&str]) -> Option<Bench> {
        let (is_timed, names) = match words {
            [] => (false, words),
            ["time", names @ ..] => (true, names),
            _ => return None,
        };
        let names = names.iter().map(|name| name.to_string()).collect();
        Some(Bench { is_timed, names })
    }

    /// Whether a job is asked for whose name begins with `beginning`.
    pub fn wants_any(&self, beginning: &str) -> bool {
        self.names.is_empty() || self.names.iter().any(|name| name.starts_with(beginning))
    }

    /// Runs a job, if it is asked for, and prints its figures.
    pub fn run(&self, name: &str, unit: Unit, turns: u32, job: &mut impl Job) {
        if !(self.names.is_empty() || self.names.iter().any(|wanted| wanted == name)) {
            return;
        }
        let nanos = least(if self.is_timed { turns } else { CHECKED_TURNS }, job);
        let check = job
            .check()
            .map_or("-".to_string(), |check| check.to_string());
        if !self.is_timed {
            println!("{name}\t{check}");
            return;
        }
        let (figure, unit) = match unit {
            Unit::Each(count, of) => (nanos as f64 / count as f64, format!("ns/{of}")),
            Unit::One => (nanos as f64 / 1e3, "us".to_string()),
            Unit::Whole => (nanos as f64 / 1e6, "ms".to_string()),
        };
        println!("{name}\t{figure:.3}\t{unit}\t{check}");
    }
}

/// The least time of `turns` turns, in ns.
fn least(turns: u32, job: &mut impl Job) -> u128 {
    let turn = |_| {
        job.ready();
        let start = Instant::now();
        job.turn();
        let whole = start.elapsed().as_nanos();
        job.counted(whole)
    };
    (0..turns).map(turn).min().unwrap_or(0)
}
