//! Reports of scripts and traces of stamp files, from bytes to text.

use crate::bench::{Bench, Job, Unit};
use crate::clocks::ClockId;
use crate::digest::of_bytes;
use crate::inputs::{script, stamp_file, Fronts, COMMANDS};
use crate::report::report;
use crate::trace::trace;

struct Report {
    script: Vec<u8>,
    text: Vec<u8>,
}

impl Job for Report {
    fn turn(&mut self) {
        self.text = Vec::new();
        self.text = report(&self.script).expect("a good script");
    }

    fn check(&self) -> Option<u64> {
        Some(of_bytes(&self.text))
    }
}

struct Trace {
    script: Vec<u8>,
    stamps: Vec<u8>,
    text: Vec<u8>,
}

impl Job for Trace {
    fn turn(&mut self) {
        self.text = Vec::new();
        self.text = trace(&self.script, &self.stamps, ClockId::Tai).expect("good stamps");
    }

    fn check(&self) -> Option<u64> {
        Some(of_bytes(&self.text))
    }
}

pub fn run(bench: &Bench) {
    if !bench.wants_any("text_") {
        return;
    }
    for (name, pairs, clock, turns) in [
        ("text_report_100000", 50_000, "tai", 20),
        ("text_report_utc_100000", 50_000, "realtime", 20),
        ("text_report_1000000", 500_000, "tai", 4),
    ] {
        let mut job = Report {
            script: script(pairs, Some(clock)),
            text: Vec::new(),
        };
        bench.run(name, Unit::Whole, turns, &mut job);
    }
    for (name, stamps, fronts) in [
        ("text_trace_equal_1000000", 1_000_000, Fronts::Equal),
        ("text_trace_thousands_1000000", 1_000_000, Fronts::Thousands),
        ("text_trace_tens_100000", 100_000, Fronts::Tens),
        ("text_trace_ones_100000", 100_000, Fronts::Ones),
        ("text_trace_random_100000", 100_000, Fronts::Random),
    ] {
        let mut job = Trace {
            script: script(COMMANDS, None),
            stamps: stamp_file(stamps, fronts),
            text: Vec::new(),
        };
        bench.run(name, Unit::Whole, 4, &mut job);
    }
}
