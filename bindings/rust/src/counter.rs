// SPDX-License-Identifier: MIT OR Apache-2.0

use core::fmt;
use core::hash::{Hash, Hasher};

use crate::{sys, Refusal};

/// A cycle counter: a reading has `bits` bits, and a cycle lasts `mult / 2^shift` ns.
#[derive(Clone, Copy)]
pub struct Counter {
    pub(crate) value: sys::CounterValue,
    numbers: [u32; 3],
}

impl Counter {
    /// Makes the counter of these numbers: readings of 8 to 64 bits, a mult of 256 to 3,869,339,906
    /// and a shift of 0 to 32.
    ///
    /// # Errors
    ///
    /// `OtherVersion`, `BadBits`, `BadShift`, `BadMult` or `BadAdjust`, tested in this order.
    pub fn new(bits: u32, mult: u32, shift: u32) -> Result<Counter, Refusal> {
        Counter::of_value(|| sys::counter_new(bits, mult, shift))
    }

    /// Makes the counter that runs at `hz` cycles a second, 1 to 2^32 - 1, for gaps of up to
    /// `maxsec` seconds, 1 to 600. A smaller `maxsec` gives a finer mult.
    ///
    /// # Errors
    ///
    /// `OtherVersion`, `BadBits` or `BadRate`, tested in this order.
    pub fn from_hz(bits: u32, hz: u64, maxsec: u32) -> Result<Counter, Refusal> {
        Counter::of_value(|| sys::counter_from_hz(bits, hz, maxsec))
    }

    /// Makes the counter that runs at `khz` cycles a millisecond, as [`from_hz`](Counter::from_hz)
    /// does. Call it for a counter above 4.29 GHz, or if only the kHz are known.
    ///
    /// # Errors
    ///
    /// `OtherVersion`, `BadBits` or `BadRate`, tested in this order.
    pub fn from_khz(bits: u32, khz: u64, maxsec: u32) -> Result<Counter, Refusal> {
        Counter::of_value(|| sys::counter_from_khz(bits, khz, maxsec))
    }

    /// Makes the counter that runs at `hz` cycles a second, 1 to 10^12, with the finest mult for gaps
    /// of up to `maxsec` seconds, 1 to 600: the greatest shift at which such gaps convert with
    /// products of 64 bits.
    ///
    /// # Errors
    ///
    /// `OtherVersion`, `BadBits` or `BadRate`, tested in this order.
    pub fn finest(bits: u32, hz: u64, maxsec: u32) -> Result<Counter, Refusal> {
        Counter::of_value(|| sys::counter_finest(bits, hz, maxsec))
    }

    /// Makes a counter, if the linked library has the values that this crate declares. Values that
    /// aren't made from a counter need the same test.
    fn of_value(make: impl FnOnce() -> Result<sys::CounterValue, u32>) -> Result<Counter, Refusal> {
        sys::check_version()?;
        let value = make().map_err(Refusal::of_code)?;
        Ok(Counter { value, numbers: sys::counter_numbers(&value) })
    }

    /// Returns the counter of a snapshot.
    pub(crate) fn of_snapshot(snapshot: &sys::SnapshotValue) -> Counter {
        let value = sys::snapshot_counter(snapshot);
        Counter { value, numbers: sys::counter_numbers(&value) }
    }

    /// Returns the number of bits of a reading.
    #[must_use]
    pub fn bits(&self) -> u32 {
        self.numbers[0]
    }

    /// Returns the mult: a cycle lasts `mult / 2^shift` ns.
    #[must_use]
    pub fn mult(&self) -> u32 {
        self.numbers[1]
    }

    /// Returns the shift: a cycle lasts `mult / 2^shift` ns.
    #[must_use]
    pub fn shift(&self) -> u32 {
        self.numbers[2]
    }

    /// Returns the cycles from one reading to a later one, modulo 2^bits. Bits of the readings
    /// above the counter's don't count.
    #[must_use]
    pub fn gap(&self, from: u64, to: u64) -> u64 {
        sys::counter_gap(&self.value, from, to)
    }

    /// Returns the nanoseconds of a number of cycles at the counter's own rate, rounded down:
    /// `cycles * mult / 2^shift`, or `u64::MAX` if they are more.
    #[must_use]
    pub fn nanos(&self, cycles: u64) -> u64 {
        sys::counter_nanos(&self.value, cycles)
    }

    /// Returns the greatest reading, 2^bits - 1 cycles.
    #[must_use]
    pub fn max_reading(&self) -> u64 {
        u64::MAX >> (64 - self.bits())
    }
}

impl PartialEq for Counter {
    fn eq(&self, other: &Counter) -> bool {
        self.numbers == other.numbers
    }
}

impl Eq for Counter {}

impl Hash for Counter {
    fn hash<H: Hasher>(&self, state: &mut H) {
        self.numbers.hash(state);
    }
}

impl fmt::Debug for Counter {
    fn fmt(&self, out: &mut fmt::Formatter<'_>) -> fmt::Result {
        out.debug_struct("Counter")
            .field("bits", &self.bits())
            .field("mult", &self.mult())
            .field("shift", &self.shift())
            .finish()
    }
}
