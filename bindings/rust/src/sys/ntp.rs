// SPDX-License-Identifier: MIT OR Apache-2.0
//! The calls on steered clocks.

use core::mem::MaybeUninit;

use super::{made, CounterValue, SnapshotValue};
use crate::{Reply, TimeState, Timespec, Timex, NTP_SAVED_WORDS};

/// `struct tkc_ntp`
#[repr(C)]
#[derive(Clone, Copy)]
pub(crate) struct NtpValue([u64; 28]);

/// `struct tkc_timex`
#[repr(C)]
#[derive(Default)]
struct TimexValue {
    modes: u32,
    modes_padding: u32,
    offset: i64,
    freq: i64,
    maxerror: i64,
    esterror: i64,
    status: u32,
    status_padding: u32,
    constant: i64,
    precision: i64,
    tolerance: i64,
    sec: i64,
    sub: i64,
    tick: i64,
    pulse: [i64; 8],
    tai: u32,
    padding: [u32; 11],
}

const _: () = assert!(size_of::<TimexValue>() == 208);

extern "C" {
    fn tkc_ntp_open(
        out: *mut NtpValue,
        counter: *const CounterValue,
        reading: u64,
        sec: i64,
        nsec: u32,
        hz: u32,
    ) -> u32;
    fn tkc_ntp_open_at(
        out: *mut NtpValue,
        counter: *const CounterValue,
        reading: u64,
        sec: i64,
        nsec: u32,
        uptime_sec: i64,
        uptime_nsec: u32,
        hz: u32,
    ) -> u32;
    fn tkc_ntp_advance(ntp: *mut NtpValue, reading: u64) -> u32;
    fn tkc_ntp_advance_late(ntp: *mut NtpValue, reading: u64) -> u32;
    fn tkc_ntp_apply(ntp: *mut NtpValue, reading: u64, command: u32, number: i64, nsec: u32)
        -> u32;
    fn tkc_ntp_change_counter(
        ntp: *mut NtpValue,
        reading: u64,
        counter: *const CounterValue,
        first: u64,
    ) -> u32;
    fn tkc_adjtimex(
        timex: *mut TimexValue,
        state: *mut u32,
        ntp: *mut NtpValue,
        reading: u64,
    ) -> u32;
    fn tkc_ntp_next_second(out: *mut u64, ntp: *const NtpValue) -> u32;
    fn tkc_ntp_leap(second: *mut u64, ntp: *const NtpValue) -> i64;
    fn tkc_ntp_status(ntp: *const NtpValue) -> u32;
    fn tkc_ntp_frequency(ntp: *const NtpValue) -> i64;
    fn tkc_ntp_tick_length(ntp: *const NtpValue) -> i64;
    fn tkc_ntp_snapshot(out: *mut SnapshotValue, ntp: *const NtpValue);
    fn tkc_ntp_save(words: *mut u64, ntp: *const NtpValue);
    fn tkc_ntp_load(out: *mut NtpValue, words: *const u64) -> u32;
}

/// Returns the code of a call, unless it is 0.
#[inline]
fn done(code: u32) -> Result<(), u32> {
    match code {
        0 => Ok(()),
        code => Err(code),
    }
}

pub(crate) fn ntp_open(
    counter: &CounterValue,
    reading: u64,
    start: Timespec,
    hz: u32,
) -> Result<NtpValue, u32> {
    // SAFETY: `out` is valid for a write, and the counter is a value.
    made(|out| unsafe { tkc_ntp_open(out, counter, reading, start.sec, start.nsec, hz) })
}

pub(crate) fn ntp_open_at(
    counter: &CounterValue,
    reading: u64,
    start: Timespec,
    uptime: Timespec,
    hz: u32,
) -> Result<NtpValue, u32> {
    let (Timespec { sec, nsec }, past) = (start, uptime);
    // SAFETY: `out` is valid for a write, and the counter is a value.
    made(|out| unsafe {
        tkc_ntp_open_at(out, counter, reading, sec, nsec, past.sec, past.nsec, hz)
    })
}

#[inline]
pub(crate) fn ntp_advance(ntp: &mut NtpValue, reading: u64) -> Result<(), u32> {
    // SAFETY: the clocks are a value, and nobody else has them.
    done(unsafe { tkc_ntp_advance(ntp, reading) })
}

#[inline]
pub(crate) fn ntp_advance_late(ntp: &mut NtpValue, reading: u64) -> Result<(), u32> {
    // SAFETY: the clocks are a value, and nobody else has them.
    done(unsafe { tkc_ntp_advance_late(ntp, reading) })
}

#[inline]
pub(crate) fn ntp_apply(
    ntp: &mut NtpValue,
    reading: u64,
    (command, number, nsec): (u32, i64, u32),
) -> Result<(), u32> {
    // SAFETY: the clocks are a value, and nobody else has them.
    done(unsafe { tkc_ntp_apply(ntp, reading, command, number, nsec) })
}

pub(crate) fn ntp_change_counter(
    ntp: &mut NtpValue,
    reading: u64,
    counter: &CounterValue,
    first: u64,
) -> Result<(), u32> {
    // SAFETY: the clocks are a value that nobody else has, and the counter is a value.
    done(unsafe { tkc_ntp_change_counter(ntp, reading, counter, first) })
}

pub(crate) fn adjtimex(ntp: &mut NtpValue, reading: u64, request: &Timex) -> Result<Reply, u32> {
    let mut timex = TimexValue {
        modes: request.modes,
        offset: request.offset,
        freq: request.freq,
        maxerror: request.maxerror,
        esterror: request.esterror,
        status: request.status,
        constant: request.constant,
        sec: request.sec,
        sub: request.sub,
        tick: request.tick,
        ..TimexValue::default()
    };
    let mut state = 0;
    // SAFETY: both are references to plain numbers, the clocks are a value, and nobody else has
    // them.
    done(unsafe { tkc_adjtimex(&mut timex, &mut state, ntp, reading) })?;
    Ok(Reply { state: TimeState::of_number(state), tai: timex.tai, timex: fields(&timex) })
}

fn fields(timex: &TimexValue) -> Timex {
    Timex {
        modes: timex.modes,
        offset: timex.offset,
        freq: timex.freq,
        maxerror: timex.maxerror,
        esterror: timex.esterror,
        status: timex.status,
        constant: timex.constant,
        tick: timex.tick,
        sec: timex.sec,
        sub: timex.sub,
    }
}

pub(crate) fn ntp_next_second(ntp: &NtpValue) -> Result<u64, u32> {
    // SAFETY: `out` is valid for a write, and the clocks are a value.
    made(|out| unsafe { tkc_ntp_next_second(out, ntp) })
}

/// Returns the second of the coming leap and what REALTIME moves by, or 0 and 0.
pub(crate) fn ntp_leap(ntp: &NtpValue) -> (u64, i64) {
    let mut second = 0;
    // SAFETY: `second` is a number, and the clocks are a value.
    let by = unsafe { tkc_ntp_leap(&mut second, ntp) };
    (second, by)
}

pub(crate) fn ntp_status(ntp: &NtpValue) -> u32 {
    // SAFETY: the clocks are a value.
    unsafe { tkc_ntp_status(ntp) }
}

pub(crate) fn ntp_frequency(ntp: &NtpValue) -> i64 {
    // SAFETY: the clocks are a value.
    unsafe { tkc_ntp_frequency(ntp) }
}

pub(crate) fn ntp_tick(ntp: &NtpValue) -> i64 {
    // SAFETY: the clocks are a value.
    unsafe { tkc_ntp_tick_length(ntp) }
}

#[inline]
pub(crate) fn ntp_snapshot(ntp: &NtpValue) -> SnapshotValue {
    let mut out = MaybeUninit::uninit();
    // SAFETY: `out` is valid for a write, the clocks are a value, and the call writes all of `out`.
    unsafe {
        tkc_ntp_snapshot(out.as_mut_ptr(), ntp);
        out.assume_init()
    }
}

pub(crate) fn ntp_save(ntp: &NtpValue) -> [u64; NTP_SAVED_WORDS] {
    let mut words = [0; NTP_SAVED_WORDS];
    // SAFETY: the call writes 33 words, and the clocks are a value.
    unsafe { tkc_ntp_save(words.as_mut_ptr(), ntp) };
    words
}

pub(crate) fn ntp_load(words: &[u64; NTP_SAVED_WORDS]) -> Result<NtpValue, u32> {
    // SAFETY: `out` is valid for a write, and there are 33 words.
    made(|out| unsafe { tkc_ntp_load(out, words.as_ptr()) })
}
