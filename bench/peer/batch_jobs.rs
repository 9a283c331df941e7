//! Lists of stamps, converted by one line: with a test of each stamp, without a test, and a copy of
//! the same bytes for comparison.

use crate::bench::{Bench, Job, Unit};
use crate::digest::of_numbers;
use crate::inputs::{far_stamps, stamps};
use crate::line::{Fault, Line};
use std::hint::black_box;

#[derive(Clone, Copy, PartialEq)]
enum Form {
    Tested,
    Untested,
    Copied,
}

struct Batch {
    form: Form,
    line: Line,
    times: u32,
    stamps: Vec<u64>,
    out: Vec<u64>,
}

impl Job for Batch {
    fn turn(&mut self) {
        for _ in 0..self.times {
            let (stamps, out) = (black_box(&self.stamps[..]), black_box(&mut self.out[..]));
            match self.form {
                Form::Tested => tested(&self.line, stamps, out).expect("good stamps"),
                Form::Untested => untested(&self.line, stamps, out),
                Form::Copied => out.copy_from_slice(stamps),
            }
        }
    }

    fn check(&self) -> Option<u64> {
        (self.form != Form::Copied).then(|| of_numbers(&self.out))
    }
}

#[inline(never)]
fn tested(line: &Line, stamps: &[u64], out: &mut [u64]) -> Result<(), Fault> {
    for (index, (stamp, out)) in stamps.iter().zip(out).enumerate() {
        *out = line.at(index, *stamp)?;
    }
    Ok(())
}

#[inline(never)]
fn untested(line: &Line, stamps: &[u64], out: &mut [u64]) {
    for (stamp, out) in stamps.iter().zip(out) {
        *out = line.untested(*stamp);
    }
}

pub fn run(bench: &Bench) {
    if !bench.wants_any("batch_") {
        return;
    }
    for count in [4_096, 10_000_000] {
        let names = [
            (format!("batch_lanes_{count}"), Form::Tested),
            (format!("batch_lanes_{count}_untested"), Form::Untested),
            (format!("batch_lanes_{count}_memcpy"), Form::Copied),
            (format!("batch_plain_{count}"), Form::Tested),
        ];
        run_forms(bench, stamps(count), &names);
    }
    let names = [("batch_lanes_12h".to_string(), Form::Tested)];
    run_forms(bench, far_stamps(4_096), &names);
}

fn run_forms(bench: &Bench, stamps: Vec<u64>, names: &[(String, Form)]) {
    let count = stamps.len();
    let (times, turns) = if count > 4_096 { (1, 5) } else { (50, 200) };
    let mut job = Batch {
        form: Form::Tested,
        line: Line::opened(),
        times,
        stamps,
        out: vec![0; count],
    };
    let unit = Unit::Each(count as u64 * u64::from(times), "stamp");
    for (name, form) in names {
        job.form = *form;
        job.out.fill(0);
        bench.run(name, unit, turns, &mut job);
    }
}
