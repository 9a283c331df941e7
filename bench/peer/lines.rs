//! The lines of reports and traces.

use crate::clocks::{ClockId, Desc, Refusal, Timespec};

const SECONDS_PER_DAY: u64 = 86_400;

/// The digits of each number below 100.
const PAIRS: &[u8; 200] = b"0001020304050607080910111213141516171819\
2021222324252627282930313233343536373839\
4041424344454647484950515253545556575859\
6061626364656667686970717273747576777879\
8081828384858687888990919293949596979899";

fn pair(number: u64) -> &'static [u8] {
    let place = number as usize * 2;
    &PAIRS[place..place + 2]
}

pub fn add_number(out: &mut Vec<u8>, mut number: u64) {
    let mut digits = [0; 20];
    let mut start = digits.len();
    while number >= 100 {
        start -= 2;
        digits[start..start + 2].copy_from_slice(pair(number % 100));
        number /= 100;
    }
    if number >= 10 {
        start -= 2;
        digits[start..start + 2].copy_from_slice(pair(number));
    } else {
        start -= 1;
        digits[start] = b'0' + number as u8;
    }
    out.extend_from_slice(&digits[start..]);
}

pub fn add_open(out: &mut Vec<u8>, desc: &Desc) {
    out.extend_from_slice(b"open");
    for number in [desc.bits, desc.mult, desc.shift] {
        out.push(b',');
        add_number(out, u64::from(number));
    }
    out.push(b'\n');
}

pub fn add_ok(out: &mut Vec<u8>, number: u64, time: Timespec) {
    out.extend_from_slice(b"ok,");
    add_number(out, number);
    out.push(b',');
    add_time(out, time);
    out.push(b'\n');
}

pub fn add_no(out: &mut Vec<u8>, refusal: Refusal) {
    let line: &[u8] = match refusal {
        Refusal::Full => b"no,full\n",
        Refusal::Asleep => b"no,asleep\n",
        Refusal::Awake => b"no,awake\n",
        Refusal::Invalid => b"no,invalid\n",
        Refusal::Behind => b"no,behind\n",
        Refusal::Range => b"no,range\n",
    };
    out.extend_from_slice(line);
}

pub fn add_at(out: &mut Vec<u8>, clock: ClockId, time: Timespec) {
    let beginning: &[u8] = match clock {
        ClockId::Realtime => b"at,realtime,",
        ClockId::Monotonic => b"at,monotonic,",
        ClockId::Boottime => b"at,boottime,",
        ClockId::Tai => b"at,tai,",
        ClockId::RealtimeCoarse => b"at,realtime_coarse,",
        ClockId::MonotonicCoarse => b"at,monotonic_coarse,",
        ClockId::MonotonicRaw => b"at,monotonic_raw,",
    };
    out.extend_from_slice(beginning);
    add_time(out, time);
    if matches!(clock, ClockId::Realtime | ClockId::RealtimeCoarse) {
        out.push(b',');
        add_utc(out, time);
    }
    out.push(b'\n');
}

fn add_time(out: &mut Vec<u8>, time: Timespec) {
    add_number(out, time.sec as u64);
    out.push(b'.');
    add_nanos(out, time.nsec);
}

/// A number in nine digits.
fn add_nanos(out: &mut Vec<u8>, nsec: u32) {
    let nsec = u64::from(nsec);
    out.push(b'0' + (nsec / 100_000_000) as u8);
    for unit in [1_000_000, 10_000, 100, 1] {
        out.extend_from_slice(pair(nsec / unit % 100));
    }
}

fn add_utc(out: &mut Vec<u8>, time: Timespec) {
    let seconds = time.sec as u64;
    let (year, month, day) = date(seconds / SECONDS_PER_DAY);
    let second = seconds % SECONDS_PER_DAY;
    out.extend_from_slice(pair(year / 100));
    out.extend_from_slice(pair(year % 100));
    for (mark, number) in [
        (b'-', month),
        (b'-', day),
        (b'T', second / 3_600),
        (b':', second / 60 % 60),
        (b':', second % 60),
    ] {
        out.push(mark);
        out.extend_from_slice(pair(number));
    }
    out.push(b'.');
    add_nanos(out, time.nsec);
    out.push(b'Z');
}

/// The date of a day counted from 1970-01-01, by periods of 400 years that begin in March.
fn date(day: u64) -> (u64, u64, u64) {
    let day = day + 719_468;
    let (era, of_era) = (day / 146_097, day % 146_097);
    let year = (of_era - of_era / 1_460 + of_era / 36_524 - of_era / 146_096) / 365;
    let of_year = of_era - (365 * year + year / 4 - year / 100);
    let from_march = (5 * of_year + 2) / 153;
    let month = if from_march < 10 {
        from_march + 3
    } else {
        from_march - 9
    };
    let year = era * 400 + year + u64::from(month <= 2);
    (year, month, of_year - (153 * from_march + 2) / 5 + 1)
}
