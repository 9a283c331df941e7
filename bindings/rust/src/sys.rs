// SPDX-License-Identifier: MIT OR Apache-2.0
//! The calls of tkcore.h, and memory that other processes may write: all of this crate's `unsafe`.
//!
//! The library requires that a value which is passed to a call was made by a call, that pointers
//! are aligned and valid, and that memory it writes doesn't overlap other arguments. The values
//! here are made only by calls, and the pointers come from references.

use core::mem::MaybeUninit;
use core::slice;
use core::sync::atomic::AtomicU64;

use crate::snapshot::COPY;
use crate::{ClockWords, Refusal, Timespec, SAVED_WORDS, WORDS};

mod ntp;

pub(crate) use ntp::{
    adjtimex, ntp_advance, ntp_advance_late, ntp_apply, ntp_change_counter, ntp_frequency,
    ntp_leap, ntp_load, ntp_next_second, ntp_open, ntp_open_at, ntp_save, ntp_snapshot, ntp_status,
    ntp_tick, NtpValue,
};

/// The version of the header that these declarations follow, as `TKC_VERSION`.
const DECLARED_VERSION: u32 = 0x0000_0300; // 0.3.0

/// `TKC_BAD_WORDS`
const BAD_WORDS: u32 = 18;

/// `struct tkc_counter`
#[repr(C)]
#[derive(Clone, Copy)]
pub(crate) struct CounterValue([u32; 3]);

/// `struct tkc_clock`
#[repr(C)]
#[derive(Clone, Copy)]
pub(crate) struct ClockValue([u64; 13]);

/// `struct tkc_snapshot`
#[repr(C)]
#[derive(Clone, Copy)]
pub(crate) struct SnapshotValue([u64; 11]);

// (a Timespec has the layout of `struct tkc_time`, whose last field is its padding)
const _: () = assert!(size_of::<Timespec>() == 16 && align_of::<Timespec>() == 8);

// The library's text, unless build.rs links another one. `.text` is where the compiler goes on.
#[cfg(all(tkcore_text, target_arch = "x86_64"))]
core::arch::global_asm!(include_str!(env!("TKCORE_TEXT")), ".text", options(att_syntax, raw));
#[cfg(all(tkcore_text, target_arch = "aarch64"))]
core::arch::global_asm!(include_str!(env!("TKCORE_TEXT")), ".text", options(raw));

extern "C" {
    fn tkc_version() -> u32;
    fn tkc_counter_new(out: *mut CounterValue, bits: u32, mult: u32, shift: u32) -> u32;
    fn tkc_counter_from_hz(out: *mut CounterValue, bits: u32, hz: u64, maxsec: u32) -> u32;
    fn tkc_counter_from_khz(out: *mut CounterValue, bits: u32, khz: u64, maxsec: u32) -> u32;
    fn tkc_counter_finest(out: *mut CounterValue, bits: u32, hz: u64, maxsec: u32) -> u32;
    fn tkc_counter_numbers(
        bits: *mut u32,
        mult: *mut u32,
        shift: *mut u32,
        counter: *const CounterValue,
    );
    fn tkc_counter_gap(counter: *const CounterValue, from: u64, to: u64) -> u64;
    fn tkc_counter_nanos(counter: *const CounterValue, cycles: u64) -> u64;
    fn tkc_clock_open(
        out: *mut ClockValue,
        counter: *const CounterValue,
        reading: u64,
        sec: i64,
        nsec: u32,
    ) -> u32;
    fn tkc_clock_open_at(
        out: *mut ClockValue,
        counter: *const CounterValue,
        reading: u64,
        sec: i64,
        nsec: u32,
        uptime_sec: i64,
        uptime_nsec: u32,
    ) -> u32;
    fn tkc_clock_frequency(clock: *const ClockValue) -> i64;
    fn tkc_clock_tick(clock: *const ClockValue) -> i64;
    fn tkc_clock_apply(
        clock: *mut ClockValue,
        reading: u64,
        command: u32,
        number: i64,
        nsec: u32,
    ) -> u32;
    fn tkc_clock_change_counter(
        clock: *mut ClockValue,
        reading: u64,
        counter: *const CounterValue,
        first: u64,
    ) -> u32;
    fn tkc_clock_snapshot(out: *mut SnapshotValue, clock: *const ClockValue);
    fn tkc_snapshot_counter(out: *mut CounterValue, snapshot: *const SnapshotValue);
    fn tkc_snapshot_front(snapshot: *const SnapshotValue) -> u64;
    fn tkc_snapshot_tai(snapshot: *const SnapshotValue) -> u32;
    fn tkc_snapshot_asleep(snapshot: *const SnapshotValue) -> u32;
    fn tkc_clock_save(words: *mut u64, clock: *const ClockValue);
    fn tkc_clock_load(out: *mut ClockValue, words: *const u64) -> u32;
    fn tkc_snapshot_get(
        out: *mut Timespec,
        snapshot: *const SnapshotValue,
        clock: u32,
        reading: u64,
    ) -> u32;
    fn tkc_snapshot_coarse(out: *mut Timespec, snapshot: *const SnapshotValue, clock: u32) -> u32;
    fn tkc_snapshot_step(
        before: *mut Timespec,
        after: *mut Timespec,
        snapshot: *const SnapshotValue,
        reading: u64,
        sec: i64,
        nsec: u32,
    ) -> u32;
    fn tkc_snapshot_reading(
        out: *mut u64,
        snapshot: *const SnapshotValue,
        clock: u32,
        sec: i64,
        nsec: u32,
    ) -> u32;
    fn tkc_snapshot_convert(
        out: *mut u64,
        room: usize,
        done: *mut usize,
        snapshot: *const SnapshotValue,
        clock: u32,
        stamps: *const u64,
        count: usize,
    ) -> u32;
    fn tkc_snapshot_words(words: *mut u64, snapshot: *const SnapshotValue);
    fn tkc_snapshot_from_words(
        out: *mut SnapshotValue,
        counter: *const CounterValue,
        words: *const u64,
    ) -> u32;
    fn tkc_clock_words(
        words: *mut u64,
        frequency: *mut i64,
        tick: *mut i64,
        clock: *const ClockValue,
    );
    fn tkc_clock_from_words(
        out: *mut ClockValue,
        counter: *const CounterValue,
        words: *const u64,
        frequency: i64,
        tick: i64,
    ) -> u32;
}

/// Calls a function that writes a value if it returns 0. Returns the value, or the code.
#[inline]
fn made<T>(call: impl FnOnce(*mut T) -> u32) -> Result<T, u32> {
    let mut out = MaybeUninit::uninit();
    match call(out.as_mut_ptr()) {
        // SAFETY: the library has written the whole value.
        0 => Ok(unsafe { out.assume_init() }),
        code => Err(code),
    }
}

/// Returns the version of the linked library: `major << 16 | minor << 8 | patch`.
#[inline]
#[must_use]
pub fn version() -> u32 {
    // SAFETY: the call has no argument.
    unsafe { tkc_version() }
}

/// Returns `OtherVersion` unless the linked library has the values that this crate declares.
#[inline]
pub(crate) fn check_version() -> Result<(), Refusal> {
    if version() >> 8 == DECLARED_VERSION >> 8 {
        Ok(())
    } else {
        Err(Refusal::OtherVersion)
    }
}

pub(crate) fn counter_new(bits: u32, mult: u32, shift: u32) -> Result<CounterValue, u32> {
    // SAFETY: `out` is valid for a write.
    made(|out| unsafe { tkc_counter_new(out, bits, mult, shift) })
}

pub(crate) fn counter_from_hz(bits: u32, hz: u64, maxsec: u32) -> Result<CounterValue, u32> {
    // SAFETY: `out` is valid for a write.
    made(|out| unsafe { tkc_counter_from_hz(out, bits, hz, maxsec) })
}

pub(crate) fn counter_from_khz(bits: u32, khz: u64, maxsec: u32) -> Result<CounterValue, u32> {
    // SAFETY: `out` is valid for a write.
    made(|out| unsafe { tkc_counter_from_khz(out, bits, khz, maxsec) })
}

pub(crate) fn counter_finest(bits: u32, hz: u64, maxsec: u32) -> Result<CounterValue, u32> {
    // SAFETY: `out` is valid for a write.
    made(|out| unsafe { tkc_counter_finest(out, bits, hz, maxsec) })
}

/// Returns the bits, the mult and the shift.
pub(crate) fn counter_numbers(counter: &CounterValue) -> [u32; 3] {
    let (mut bits, mut mult, mut shift) = (0, 0, 0);
    // SAFETY: all four are references.
    unsafe { tkc_counter_numbers(&mut bits, &mut mult, &mut shift, counter) };
    [bits, mult, shift]
}

pub(crate) fn counter_gap(counter: &CounterValue, from: u64, to: u64) -> u64 {
    // SAFETY: the counter is a value.
    unsafe { tkc_counter_gap(counter, from, to) }
}

pub(crate) fn counter_nanos(counter: &CounterValue, cycles: u64) -> u64 {
    // SAFETY: the counter is a value.
    unsafe { tkc_counter_nanos(counter, cycles) }
}

pub(crate) fn clock_open(
    counter: &CounterValue,
    reading: u64,
    start: Timespec,
) -> Result<ClockValue, u32> {
    // SAFETY: `out` is valid for a write, and the counter is a value.
    made(|out| unsafe { tkc_clock_open(out, counter, reading, start.sec, start.nsec) })
}

pub(crate) fn clock_open_at(
    counter: &CounterValue,
    reading: u64,
    start: Timespec,
    uptime: Timespec,
) -> Result<ClockValue, u32> {
    let (Timespec { sec, nsec }, past) = (start, uptime);
    // SAFETY: `out` is valid for a write, and the counter is a value.
    made(|out| unsafe { tkc_clock_open_at(out, counter, reading, sec, nsec, past.sec, past.nsec) })
}

pub(crate) fn clock_frequency(clock: &ClockValue) -> i64 {
    // SAFETY: the clock is a value.
    unsafe { tkc_clock_frequency(clock) }
}

pub(crate) fn clock_tick(clock: &ClockValue) -> i64 {
    // SAFETY: the clock is a value.
    unsafe { tkc_clock_tick(clock) }
}

#[inline]
pub(crate) fn clock_apply(
    clock: &mut ClockValue,
    reading: u64,
    (command, number, nsec): (u32, i64, u32),
) -> Result<(), u32> {
    // SAFETY: the clock is a value, and nobody else has it.
    match unsafe { tkc_clock_apply(clock, reading, command, number, nsec) } {
        0 => Ok(()),
        code => Err(code),
    }
}

pub(crate) fn clock_change_counter(
    clock: &mut ClockValue,
    reading: u64,
    counter: &CounterValue,
    first: u64,
) -> Result<(), u32> {
    // SAFETY: the clock is a value that nobody else has, and the counter is a value.
    match unsafe { tkc_clock_change_counter(clock, reading, counter, first) } {
        0 => Ok(()),
        code => Err(code),
    }
}

#[inline]
pub(crate) fn clock_snapshot(clock: &ClockValue) -> SnapshotValue {
    let mut out = MaybeUninit::uninit();
    // SAFETY: `out` is valid for a write, the clock is a value, and the call writes all of `out`.
    unsafe {
        tkc_clock_snapshot(out.as_mut_ptr(), clock);
        out.assume_init()
    }
}

#[inline]
pub(crate) fn snapshot_get(
    snapshot: &SnapshotValue,
    clock: u32,
    reading: u64,
) -> Result<Timespec, u32> {
    // SAFETY: `out` is valid for a write of a `struct tkc_time`, and the snapshot is a value.
    made(|out| unsafe { tkc_snapshot_get(out, snapshot, clock, reading) })
}

/// Returns a clock's time at the last command. The call refuses only a number that no clock has.
#[inline]
pub(crate) fn snapshot_coarse(snapshot: &SnapshotValue, clock: u32) -> Timespec {
    let mut out = Timespec::default();
    // SAFETY: `out` is a `struct tkc_time`, and the snapshot is a value.
    unsafe { tkc_snapshot_coarse(&mut out, snapshot, clock) };
    out
}

/// Returns REALTIME without and with a step, or the code of its refusal.
pub(crate) fn snapshot_step(
    snapshot: &SnapshotValue,
    reading: u64,
    by: Timespec,
) -> Result<(Timespec, Timespec), u32> {
    let (mut before, mut after) = (Timespec::default(), Timespec::default());
    let Timespec { sec, nsec } = by;
    // SAFETY: both are `struct tkc_time`, and the snapshot is a value.
    match unsafe { tkc_snapshot_step(&mut before, &mut after, snapshot, reading, sec, nsec) } {
        0 => Ok((before, after)),
        code => Err(code),
    }
}

#[inline]
pub(crate) fn snapshot_reading(
    snapshot: &SnapshotValue,
    clock: u32,
    time: Timespec,
) -> Result<u64, u32> {
    // SAFETY: `out` is valid for a write, and the snapshot is a value.
    made(|out| unsafe { tkc_snapshot_reading(out, snapshot, clock, time.sec, time.nsec) })
}

/// Converts the stamps. On failure returns the code, and how many stamps were converted.
#[inline]
pub(crate) fn snapshot_convert(
    snapshot: &SnapshotValue,
    clock: u32,
    times: &mut [u64],
    stamps: &[u64],
) -> Result<(), (u32, usize)> {
    let mut done = 0;
    // SAFETY: the slices are valid for their lengths and don't overlap, and the snapshot is a
    // value.
    let code = unsafe {
        tkc_snapshot_convert(
            times.as_mut_ptr(),
            times.len(),
            &mut done,
            snapshot,
            clock,
            stamps.as_ptr(),
            stamps.len(),
        )
    };
    match code {
        0 => Ok(()),
        code => Err((code, done)),
    }
}

pub(crate) fn snapshot_front(snapshot: &SnapshotValue) -> u64 {
    // SAFETY: the snapshot is a value.
    unsafe { tkc_snapshot_front(snapshot) }
}

pub(crate) fn snapshot_tai(snapshot: &SnapshotValue) -> u32 {
    // SAFETY: the snapshot is a value.
    unsafe { tkc_snapshot_tai(snapshot) }
}

pub(crate) fn snapshot_asleep(snapshot: &SnapshotValue) -> bool {
    // SAFETY: the snapshot is a value.
    unsafe { tkc_snapshot_asleep(snapshot) != 0 }
}

pub(crate) fn snapshot_words(snapshot: &SnapshotValue) -> [u64; WORDS] {
    let mut words = [0; WORDS];
    // SAFETY: the call writes ten words, and the snapshot is a value.
    unsafe { tkc_snapshot_words(words.as_mut_ptr(), snapshot) };
    words
}

#[inline]
pub(crate) fn snapshot_from_words(
    counter: &CounterValue,
    words: &[u64; WORDS],
) -> Result<SnapshotValue, u32> {
    // SAFETY: `out` is valid for a write, the counter is a value, and there are ten words.
    made(|out| unsafe { tkc_snapshot_from_words(out, counter, words.as_ptr()) })
}

/// Makes the snapshot that the words of a copy represent in `out`. Returns the code.
#[inline]
fn make_of_copy(out: &mut MaybeUninit<SnapshotValue>, copy: &[u64; COPY]) -> u32 {
    let [.., bits, mult, shift] = *copy;
    let mut counter = MaybeUninit::uninit();
    if (bits | mult | shift) >> 32 != 0 {
        return BAD_WORDS;
    }
    let made = counter.as_mut_ptr();
    // SAFETY: `counter` is valid for a write.
    match unsafe { tkc_counter_new(made, bits as u32, mult as u32, shift as u32) } {
        // SAFETY: the library has written the counter, `out` is valid for a write, and a copy
        // begins with ten words.
        0 => unsafe { tkc_snapshot_from_words(out.as_mut_ptr(), made, copy.as_ptr()) },
        code => code,
    }
}

#[inline]
pub(crate) fn snapshot_of_copy(copy: &[u64; COPY]) -> Result<SnapshotValue, u32> {
    let mut snapshot = MaybeUninit::uninit();
    match make_of_copy(&mut snapshot, copy) {
        // SAFETY: the library has written the whole snapshot.
        0 => Ok(unsafe { snapshot.assume_init() }),
        code => Err(code),
    }
}

/// Reads a clock by the snapshot that the words of a copy represent, without moving the snapshot.
#[inline]
pub(crate) fn get_by_copy(copy: &[u64; COPY], clock: u32, reading: u64) -> Result<Timespec, u32> {
    let mut snapshot = MaybeUninit::uninit();
    match make_of_copy(&mut snapshot, copy) {
        // SAFETY: the library has written the whole snapshot.
        0 => snapshot_get(unsafe { snapshot.assume_init_ref() }, clock, reading),
        code => Err(code),
    }
}

pub(crate) fn snapshot_counter(snapshot: &SnapshotValue) -> CounterValue {
    let mut out = MaybeUninit::uninit();
    // SAFETY: `out` is valid for a write, which the call does, and the snapshot is a value.
    unsafe {
        tkc_snapshot_counter(out.as_mut_ptr(), snapshot);
        out.assume_init()
    }
}

#[inline]
pub(crate) fn clock_save(clock: &ClockValue) -> [u64; SAVED_WORDS] {
    let mut words = [0; SAVED_WORDS];
    // SAFETY: the call writes 15 words, and the clock is a value.
    unsafe { tkc_clock_save(words.as_mut_ptr(), clock) };
    words
}

pub(crate) fn clock_load(words: &[u64; SAVED_WORDS]) -> Result<ClockValue, u32> {
    // SAFETY: `out` is valid for a write, and there are 15 words.
    made(|out| unsafe { tkc_clock_load(out, words.as_ptr()) })
}

pub(crate) fn clock_words(clock: &ClockValue) -> ClockWords {
    let mut found = ClockWords { words: [0; WORDS], frequency: 0, tick: 0 };
    let ClockWords { words, frequency, tick } = &mut found;
    // SAFETY: the call writes ten words and two numbers, and the clock is a value.
    unsafe { tkc_clock_words(words.as_mut_ptr(), frequency, tick, clock) };
    found
}

pub(crate) fn clock_from_words(
    counter: &CounterValue,
    given: &ClockWords,
) -> Result<ClockValue, u32> {
    let words = given.words.as_ptr();
    // SAFETY: `out` is valid for a write, the counter is a value, and there are ten words.
    made(|out| unsafe { tkc_clock_from_words(out, counter, words, given.frequency, given.tick) })
}

/// Returns memory as words for a page or a latch, if it is aligned to 8 bytes.
///
/// Other processes may write the memory at any time, because all accesses of this crate are atomic.
/// A reader's memory may be read-only.
///
/// # Errors
///
/// `BadMemory` if the address is NULL or isn't aligned.
///
/// # Safety
///
/// The memory must be valid for reads of `size` bytes as long as the result is used, and for writes
/// too if a page or a latch is created or published there. No code of this process may access it
/// otherwise than atomically in that time.
pub unsafe fn shared_words<'a>(memory: *const u8, size: usize) -> Result<&'a [AtomicU64], Refusal> {
    let words = memory.cast::<AtomicU64>();
    if words.is_null() || !words.is_aligned() {
        return Err(Refusal::BadMemory);
    }
    // SAFETY: the caller says that the memory is valid and shared only atomically.
    Ok(unsafe { slice::from_raw_parts(words, size / 8) })
}
