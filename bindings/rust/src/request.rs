// SPDX-License-Identifier: MIT OR Apache-2.0

use core::error::Error;
use core::fmt;

use crate::{mode, ClockId, Refusal, Snapshot, Timex};

/// A number that is out of its range.
#[derive(Clone, Copy, Debug, PartialEq, Eq, Hash)]
pub struct OutOfRange {
    /// The name of a field of [`Timex`]; `reading`; or `step` for a step, in ns.
    pub name: &'static str,
    /// The number.
    pub value: i128,
    /// The least number that is accepted.
    pub least: i128,
    /// The greatest number that is accepted. For a reading that is behind, the accepted ones are
    /// counted modulo 2^bits, so `most` may be below `least`.
    pub most: i128,
}

/// Says why a request to steer clocks was refused.
#[derive(Clone, Copy, Debug, PartialEq, Eq, Hash)]
pub struct Unsteered {
    /// The refusal.
    pub refusal: Refusal,
    /// The number that is the reason of `Invalid` or `Behind`.
    pub number: Option<OutOfRange>,
}

impl fmt::Display for OutOfRange {
    fn fmt(&self, out: &mut fmt::Formatter<'_>) -> fmt::Result {
        let OutOfRange { name, value, least, most } = self;
        write!(out, "{name} is {value} instead of {least}")?;
        if most == least {
            return Ok(());
        }
        write!(out, " to {most}")
    }
}

impl fmt::Display for Unsteered {
    fn fmt(&self, out: &mut fmt::Formatter<'_>) -> fmt::Result {
        match self.number {
            Some(number) => number.fmt(out),
            None => self.refusal.fmt(out),
        }
    }
}

impl Error for Unsteered {}

impl From<Unsteered> for Refusal {
    fn from(unsteered: Unsteered) -> Refusal {
        unsteered.refusal
    }
}

/// Returns a number if it isn't `least` to `most`.
fn unless_within<N, L, M>(name: &'static str, value: N, least: L, most: M) -> Option<OutOfRange>
where
    i128: From<N> + From<L> + From<M>,
{
    let (value, least, most) = (value.into(), least.into(), most.into());
    let is_within = (least..=most).contains(&value);
    (!is_within).then_some(OutOfRange { name, value, least, most })
}

/// The greatest frequency of a request, in 2^-16 ppm: its product with the kernel's PPM_SCALE is
/// an i64.
const MOST_FREQ: i64 = 140_737_488_355;

/// The first time in ns that REALTIME can't be set to.
const SETTABLE_LIMIT: i128 = 8_277_292_036_000_000_000;

impl Timex {
    /// Returns the first field that makes this a faulty request, in the order of
    /// `timekeeping_validate_timex` in the kernel's kernel/time/timekeeping.c.
    fn faulty_field(&self) -> Option<OutOfRange> {
        let modes = self.modes;
        let has = |bit: u32| modes & bit != 0;
        let mut found = None;
        if has(mode::ADJTIME) {
            let wanted = modes | mode::OFFSET;
            found = unless_within("modes", modes, wanted, wanted);
        } else if has(mode::TICK) {
            found = unless_within("tick", self.tick, 9_000, 11_000);
        }
        if found.is_none() && has(mode::SETOFFSET) {
            let part = if has(mode::NANO) { 1_000_000_000 } else { 1_000_000 };
            found = unless_within("sub", self.sub, 0, part - 1);
        }
        if found.is_none() && has(mode::FREQUENCY) {
            found = unless_within("freq", self.freq, -MOST_FREQ, MOST_FREQ);
        }
        found
    }

    /// Returns the step that REALTIME can't make, in ns, with the steps that it can make.
    fn faulty_step(&self, snapshot: &Snapshot, reading: u64) -> Option<OutOfRange> {
        let unit = if self.modes & mode::NANO != 0 { 1 } else { 1000 };
        let step = i128::from(self.sec) * 1_000_000_000 + i128::from(self.sub) * unit;
        let monotonic = snapshot.get(ClockId::Monotonic, reading).ok()?.nanos();
        let ahead = i128::from(snapshot.words()[5]); // REALTIME minus MONOTONIC, in ns
        unless_within("step", step, -ahead, SETTABLE_LIMIT - 1 - monotonic - ahead)
    }

    /// Returns the number that makes a request `Invalid`. The snapshot is of the clocks that
    /// refused it.
    pub(crate) fn invalid_number(&self, snapshot: &Snapshot, reading: u64) -> Option<OutOfRange> {
        self.faulty_field()
            .or_else(|| unless_within("reading", reading, 0, snapshot.counter().max_reading()))
            .or_else(|| self.faulty_step(snapshot, reading))
    }
}
