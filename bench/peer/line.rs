//! A clock as a line over the cycles since the last command, while its numbers fit a word and stay
//! in range.

use crate::inputs::OPENING;
use std::hint::black_box;

pub struct Line {
    last: u64,
    mult: u32,
    shift: u32,
    frac: u64,
    base: u64,
    mask: u64,
    half: u64,
    span: u64,
    limit: u64,
}

/// The fault of an item with its index, which only a panic prints.
#[allow(dead_code)]
#[derive(Debug)]
pub enum Fault {
    Unknown(usize),
    Invalid(usize),
    Range(usize),
}

impl Line {
    /// The line of the jobs' clocks. The compiler cannot know its numbers.
    pub fn opened() -> Line {
        black_box(Line {
            last: OPENING,
            mult: 16_777_216,
            shift: 24,
            frac: 0,
            base: 1_700_000_000_000_000_000,
            mask: (1 << 48) - 1,
            half: (1 << 47) - 1,
            span: 1_099_511_627_775,
            limit: 9_223_372_036_000_000_000,
        })
    }

    /// The clock at a stamp.
    #[inline(always)]
    pub fn at(&self, index: usize, stamp: u64) -> Result<u64, Fault> {
        if stamp > self.mask {
            return Err(Fault::Invalid(index));
        }
        let gap = stamp.wrapping_sub(self.last) & self.mask;
        let cycles = if gap > self.half { 0 } else { gap };
        if cycles <= self.span {
            return Ok(((cycles * u64::from(self.mult) + self.frac) >> self.shift) + self.base);
        }
        self.far(cycles).ok_or(Fault::Range(index))
    }

    /// The clock at a stamp beyond the span, by products of 128 bits.
    #[cold]
    fn far(&self, cycles: u64) -> Option<u64> {
        let units = u128::from(cycles) * u128::from(self.mult) + u128::from(self.frac);
        let nanos = (units >> self.shift) + u128::from(self.base);
        (nanos < u128::from(self.limit)).then_some(nanos as u64)
    }

    /// The same without a test. For a stamp that should be rejected, the result is wrong.
    #[inline(always)]
    pub fn untested(&self, stamp: u64) -> u64 {
        let gap = stamp.wrapping_sub(self.last) & self.mask;
        let cycles = if gap > self.half { 0 } else { gap };
        let units = cycles
            .wrapping_mul(u64::from(self.mult))
            .wrapping_add(self.frac);
        (units >> self.shift).wrapping_add(self.base)
    }
}
