//! Lists of stamps, each converted by the line of its front: into a new list and into existing
//! memory, by one thread and by one thread for each processor.

use crate::bench::{Bench, Job, Unit};
use crate::digest::of_numbers;
use crate::inputs::{far_stamps, stamps};
use crate::line::{Fault, Line};
use std::hint::black_box;
use std::thread;

#[derive(Clone, Copy)]
enum Form {
    New,
    Into,
    SharedNew,
    SharedInto,
}

struct Trace {
    form: Form,
    lines: [Line; 2],
    threads: usize,
    fronts: Vec<u64>,
    stamps: Vec<u64>,
    made: Vec<u64>,
    out: Vec<u64>,
}

impl Job for Trace {
    /// Frees the list of the last turn, which is no part of the job.
    fn ready(&mut self) {
        self.made = Vec::new();
    }

    fn turn(&mut self) {
        let (lines, threads) = (&self.lines[..], self.threads);
        let (fronts, stamps) = (black_box(&self.fronts[..]), black_box(&self.stamps[..]));
        let out = black_box(&mut self.out[..]);
        match self.form {
            Form::New => self.made = new_list(lines, fronts, stamps).expect("good stamps"),
            Form::Into => in_place(lines, fronts, stamps, 0, out).expect("good stamps"),
            Form::SharedNew => {
                self.made = vec![0; stamps.len()];
                shared(threads, lines, fronts, stamps, &mut self.made).expect("good stamps");
            }
            Form::SharedInto => shared(threads, lines, fronts, stamps, out).expect("good stamps"),
        }
    }

    fn check(&self) -> Option<u64> {
        match self.form {
            Form::New | Form::SharedNew => Some(of_numbers(&self.made)),
            Form::Into | Form::SharedInto => Some(of_numbers(&self.out)),
        }
    }
}

/// The line of a front.
#[inline(always)]
fn line_at(lines: &[Line], index: usize, front: u64) -> Result<&Line, Fault> {
    lines.get(front as usize).ok_or(Fault::Unknown(index))
}

#[inline(never)]
fn new_list(lines: &[Line], fronts: &[u64], stamps: &[u64]) -> Result<Vec<u64>, Fault> {
    let mut values = Vec::with_capacity(stamps.len());
    for (index, (front, stamp)) in fronts.iter().zip(stamps).enumerate() {
        values.push(line_at(lines, index, *front)?.at(index, *stamp)?);
    }
    Ok(values)
}

/// Converts items, of which the first has the index `first` in the whole list.
#[inline(never)]
fn in_place(
    lines: &[Line],
    fronts: &[u64],
    stamps: &[u64],
    first: usize,
    out: &mut [u64],
) -> Result<(), Fault> {
    for (index, ((front, stamp), out)) in fronts.iter().zip(stamps).zip(out).enumerate() {
        *out = line_at(lines, first + index, *front)?.at(first + index, *stamp)?;
    }
    Ok(())
}

/// Gives each thread a piece. The result is the first fault in the order of the list.
fn shared(
    threads: usize,
    lines: &[Line],
    fronts: &[u64],
    stamps: &[u64],
    out: &mut [u64],
) -> Result<(), Fault> {
    let piece = stamps.len().div_ceil(threads).max(1);
    thread::scope(|scope| {
        let pieces = fronts
            .chunks(piece)
            .zip(stamps.chunks(piece))
            .zip(out.chunks_mut(piece));
        let workers: Vec<_> = pieces
            .enumerate()
            .map(|(place, ((fronts, stamps), out))| {
                scope.spawn(move || in_place(lines, fronts, stamps, place * piece, out))
            })
            .collect();
        workers
            .into_iter()
            .try_for_each(|worker| worker.join().expect("no panic"))
    })
}

pub fn run(bench: &Bench) {
    if !bench.wants_any("trace_") && !bench.wants_any("pieces_") {
        return;
    }
    for (count, turns) in [(100_000, 50), (1_000_000, 20), (10_000_000, 5)] {
        let names = [
            (format!("trace_new_{count}"), Form::New),
            (format!("trace_into_{count}"), Form::Into),
            (format!("pieces_new_{count}"), Form::SharedNew),
            (format!("pieces_into_{count}"), Form::SharedInto),
        ];
        run_forms(bench, stamps(count), turns, &names);
    }
    let names = [
        ("trace_new_12h".to_string(), Form::New),
        ("trace_into_12h".to_string(), Form::Into),
    ];
    run_forms(bench, far_stamps(100_000), 50, &names);
}

fn run_forms(bench: &Bench, stamps: Vec<u64>, turns: u32, names: &[(String, Form)]) {
    let count = stamps.len();
    let mut job = Trace {
        form: Form::New,
        lines: [Line::opened(), Line::opened()],
        threads: thread::available_parallelism().map_or(1, |threads| threads.get()),
        fronts: vec![1; count],
        stamps,
        made: Vec::new(),
        out: vec![0; count],
    };
    for (name, form) in names {
        job.form = *form;
        job.out.fill(0);
        bench.run(name, Unit::Each(count as u64, "stamp"), turns, &mut job);
    }
}
