// SPDX-License-Identifier: MIT OR Apache-2.0
//! Steered clocks: the tables of tests/c/worked_ntp.c and worked_late_ntp.c, and requests of any
//! numbers.

mod support;

use std::fs;

use support::{calls, nanosecond_counter, of, some_command, table, Random, START};
use tkcore::{mode, status, ClockId, Command, Counter, OutOfRange, Refusal, Reply, SteeredClock};
use tkcore::{Timespec, Timex, Unsteered, NTP_SAVED_WORDS};

/// Returns the records and the answers of all tables, in their order.
fn rows() -> Vec<(String, String)> {
    let folder = concat!(env!("CARGO_MANIFEST_DIR"), "/../../tests/c/");
    let read = |name| fs::read_to_string(format!("{folder}{name}")).expect("the tables");
    ["worked_ntp.c", "worked_late_ntp.c"].map(read).iter().flat_map(|text| pairs(text)).collect()
}

/// Returns the texts of a file after the name of the header, in pairs.
fn pairs(text: &str) -> Vec<(String, String)> {
    let texts: Vec<&str> = text.split('"').skip(1).step_by(2).collect();
    let pairs = texts[1..].chunks_exact(2);
    pairs.map(|pair| (pair[0].to_string(), pair[1].to_string())).collect()
}

fn number(text: &str) -> i128 {
    match text.strip_prefix("0x") {
        Some(digits) => i128::from_str_radix(digits, 16).expect("a number"),
        None => text.parse().expect("a number"),
    }
}

fn name(refusal: Refusal) -> String {
    let name = format!("{refusal:?}");
    let upper =
        |c: char| if c.is_uppercase() { format!("_{c}") } else { c.to_uppercase().to_string() };
    format!("no,TKC{}", name.chars().map(upper).collect::<String>())
}

fn request(n: &[i128]) -> Timex {
    Timex {
        modes: n[1] as u32,
        offset: n[2] as i64,
        freq: n[3] as i64,
        maxerror: n[4] as i64,
        esterror: n[5] as i64,
        status: n[6] as u32,
        constant: n[7] as i64,
        tick: n[8] as i64,
        sec: n[9] as i64,
        sub: n[10] as i64,
    }
}

fn ask(clock: &mut SteeredClock, n: &[i128]) -> Result<String, Refusal> {
    let reply = clock.adjtimex(n[0] as u64, &request(n))?;
    let t = reply.timex;
    let digits = if t.status & status::NANO != 0 { 9 } else { 6 };
    let state = format!("{:?}", reply.state).to_lowercase();
    Ok(format!(
        "adj,{state},{}.{:0digits$},{},{},{},{},{},{},{},{}",
        t.sec,
        t.sub,
        t.offset,
        t.freq,
        t.maxerror,
        t.esterror,
        t.status,
        t.constant,
        t.tick,
        reply.tai
    ))
}

fn get(clock: &mut SteeredClock, n: &[i128]) -> Result<String, Refusal> {
    let id = match n[0] {
        0 => ClockId::Realtime,
        1 => ClockId::Monotonic,
        id => {
            assert_eq!(id, 11);
            ClockId::Tai
        }
    };
    clock.advance(n[1] as u64)?;
    let time = clock.snapshot().get(id, n[1] as u64)?;
    Ok(format!("at,{}.{:09}", time.sec, time.nsec))
}

fn asked(clock: &SteeredClock) -> String {
    let (second, by) = clock.coming_leap().unwrap_or((0, 0));
    let (status, frequency, tick) = (clock.status(), clock.frequency(), clock.tick());
    format!("asked,{by},{second},{status},{frequency},{tick}")
}

fn counter_of(n: &[i128]) -> Result<Counter, Refusal> {
    Counter::new(n[0] as u32, n[1] as u32, n[2] as u32)
}

fn counter_of_rate(n: &[i128]) -> Result<Counter, Refusal> {
    Counter::from_hz(n[0] as u32, n[1] as u64, n[2] as u32)
}

/// Changes the counter. The object's is that of its words, whether it was changed or not.
fn change(
    clock: &mut SteeredClock,
    reading: u64,
    other: &Counter,
    first: u64,
) -> Result<String, Refusal> {
    let changed = clock.change_counter(reading, other, first);
    let words = clock.save()[10..13].iter().map(|word| i128::from(*word)).collect::<Vec<_>>();
    assert_eq!(clock.counter(), &counter_of(&words).unwrap());
    assert_eq!(clock.snapshot().counter(), clock.counter());
    changed.map(|()| "ok".to_string())
}

fn answer(clock: &mut Option<SteeredClock>, record: &str) -> Result<String, Refusal> {
    let mut fields = record.split(',');
    let word = fields.next().expect("a word");
    let n: Vec<i128> = fields.map(number).collect();
    if word == "openhz" || word == "open" {
        let make = if word == "open" { counter_of } else { counter_of_rate };
        let counter = make(&n)?;
        let start = Timespec { sec: n[4] as i64, nsec: n[5] as u32 };
        *clock = Some(SteeredClock::open(&counter, n[3] as u64, start, n[6] as u32)?);
        return Ok("open".to_string());
    }
    let clock = clock.as_mut().expect("clocks");
    let done = |()| "ok".to_string();
    match word {
        "adjtimex" => ask(clock, &n),
        "get" => get(clock, &n),
        "next" => clock.next_second().map(|reading| format!("next,{reading}")),
        "asked" => Ok(asked(clock)),
        "front" => Ok(format!("front,{}", clock.snapshot().front())),
        "advance" => clock.advance(n[0] as u64).map(done),
        "late" => clock.advance_late(n[0] as u64).map(done),
        "tick" => tick(clock, n[0] as u64),
        "counter" => change(clock, n[0] as u64, &counter_of(&n[1..])?, n[4] as u64),
        _ => {
            assert_eq!(word, "apply");
            clock.apply(n[0] as u64, command(&n)).map(done)
        }
    }
}

/// Does what tkc_ntp_tick does, and returns the sum of the bits that it stores.
fn tick(clock: &mut SteeredClock, reading: u64) -> Result<String, Refusal> {
    let before = clock.save();
    clock.advance_late(reading)?;
    clock.apply(reading, Command::Update)?;
    let after = clock.save();
    let [rate, offset, next] = [2, 5, 31].map(|place| before[place] != after[place]);
    let bits = u32::from(next || offset) + 2 * u32::from(offset) + 4 * u32::from(rate);
    Ok(format!("tick,{bits}"))
}

fn command(n: &[i128]) -> Command {
    let time = Timespec { sec: n[2] as i64, nsec: n[3] as u32 };
    match n[1] {
        0 => Command::Update,
        1 => Command::SetTime(time),
        2 => Command::Step(time),
        3 => Command::Freq(time.sec),
        4 => Command::Tick(time.sec),
        5 => Command::Tai(time.sec),
        6 => Command::Suspend,
        8 => Command::Leap { by: time.sec, tai: time.nsec },
        number => {
            assert_eq!(number, 7);
            Command::Resume(time)
        }
    }
}

#[test]
fn worked_rows() {
    let rows = rows();
    assert_eq!(rows.len(), 291);
    let mut clock = None;
    for (record, wanted) in rows {
        let found = answer(&mut clock, &record).unwrap_or_else(name);
        assert_eq!(found, wanted, "{record}");
    }
}

/// The saved clocks of worked_saved_ntp.c.
#[test]
fn saved_clocks() {
    let start = Timespec { sec: 1_700_000_000, nsec: 5 };
    let mut clock = SteeredClock::open(&nanosecond_counter(), 7, start, 250).unwrap();
    clock.advance(9).unwrap();
    let saved = clock.save();
    let wanted = table("worked_saved_ntp.c", "steered_words");
    assert!(wanted.iter().map(|item| item.number::<u64>()).eq(saved));
    for row in table("worked_saved_ntp.c", "saved_ntp_words") {
        let row = row.list();
        let mut words = saved;
        words[row[0].number::<usize>()] = row[1].number();
        let made = SteeredClock::load(&words);
        assert_eq!(of(&made), row[2].refusal(), "{row:?}");
        assert!(made.map_or(true, |clock| clock.save() == words));
    }
}

/// Loaded clocks go on as the saved ones do.
#[test]
fn any_saved_clocks() {
    let counter = Counter::from_hz(64, 1_000_000_000, 600).unwrap();
    let mut clock = SteeredClock::open(&counter, 0, START, 250).unwrap();
    let (mut random, mut reading) = (Random(3), 0);
    for _ in 0..calls() / 10 {
        let saved: [u64; NTP_SAVED_WORDS] = clock.save();
        let mut loaded = SteeredClock::load(&saved).unwrap();
        assert_eq!((loaded.counter(), loaded.save()), (&counter, saved));
        reading += random.below(3_000_000_000);
        let request = some_request(&mut random);
        assert_eq!(loaded.adjtimex(reading, &request), clock.adjtimex(reading, &request));
        assert_eq!(loaded.save(), clock.save());
    }
}

fn some_request(random: &mut Random) -> Timex {
    let mut some = || random.some() as i64;
    let mut request = Timex {
        modes: some() as u32 & some() as u32,
        offset: some(),
        freq: some(),
        maxerror: some(),
        esterror: some(),
        status: some() as u32,
        constant: some(),
        tick: some(),
        sec: some(),
        sub: some(),
    };
    if random.below(4) > 0 {
        request.modes &= !mode::SETOFFSET;
        request.tick = 8_900 + random.below(2_200) as i64;
    }
    request
}

/// Returns the request and the reading with another number for the named one.
fn with(request: &Timex, reading: u64, name: &str, number: i128) -> (Timex, u64) {
    let mut other = *request;
    match name {
        "modes" => other.modes = number as u32,
        "tick" => other.tick = number as i64,
        "sub" => other.sub = number as i64,
        "freq" => other.freq = number as i64,
        "reading" => return (other, number as u64),
        _ => {
            assert_eq!(name, "step");
            other.modes |= mode::NANO;
            other.sec = number.div_euclid(1_000_000_000) as i64;
            other.sub = number.rem_euclid(1_000_000_000) as i64;
        }
    }
    (other, reading)
}

/// Checks that the number of a refused request is out of its range, and that neither end of that
/// range is refused for the same reason.
fn check_number(clock: &SteeredClock, request: &Timex, reading: u64, error: Unsteered) {
    let is_for_a_number = matches!(error.refusal, Refusal::Invalid | Refusal::Behind);
    assert_eq!(error.number.is_some(), is_for_a_number, "{error:?}");
    let Some(OutOfRange { name, value, least, most }) = error.number else { return };
    assert!(error.refusal == Refusal::Behind || !(least..=most).contains(&value), "{error:?}");
    for end in [least, most] {
        let (other, reading) = with(request, reading, name, end);
        let found = clock.clone().adjtimex(reading, &other).err();
        let reason = |it: Unsteered| it.number.map(|number| (it.refusal, number.name));
        assert_ne!(found.and_then(reason), Some((error.refusal, name)), "{error} at {end}");
    }
}

/// Makes a request. Returns whether it was accepted.
fn ask_any(clock: &mut SteeredClock, reading: u64, request: &Timex) -> bool {
    let before = clock.snapshot();
    let found = clock.adjtimex(reading, request);
    assert_eq!(clock.counter(), before.counter());
    match found {
        Ok(Reply { timex, tai, .. }) => {
            assert_eq!(timex.modes, request.modes);
            assert!((0..=16_000_000).contains(&timex.maxerror));
            assert!((-32_768_000..=32_768_000).contains(&timex.freq));
            assert!((9_000..=11_000).contains(&timex.tick) && tai <= 100_000);
        }
        Err(error) => {
            assert!(request.modes & mode::SETOFFSET != 0 || clock.snapshot() == before);
            check_number(clock, request, reading, error);
        }
    }
    found.is_ok()
}

#[test]
fn any_request() {
    let counter = Counter::from_hz(64, 1_000_000_000, 600).unwrap();
    let mut clock = Box::new(SteeredClock::open(&counter, 0, START, 250).unwrap());
    let (mut random, mut reading, mut accepted) = (Random(1), 0, 0);
    for _ in 0..calls() {
        reading += random.below(3_000_000_000);
        accepted += u64::from(ask_any(&mut clock, reading, &some_request(&mut random)));
    }
    assert!(accepted > calls() / 10 && accepted < calls());
}

/// Changes to a counter of 32 bits. Returns whether the change was accepted.
fn change_any(clock: &mut SteeredClock, random: &mut Random, reading: u64) -> bool {
    let (before, former) = (clock.save(), *clock.counter());
    let numbers = [(1 << 24, 24), (300, 5)][random.below(2) as usize];
    let other = Counter::new(32, numbers.0, numbers.1).unwrap();
    let first = if random.below(4) == 0 { random.some() } else { random.below(1 << 32) };
    let changed = change(clock, reading, &other, first);
    assert_eq!(*clock.counter(), if changed.is_ok() { other } else { former });
    match changed {
        Ok(_) => assert_eq!(clock.save()[1], first),
        Err(Refusal::Range) => {}
        Err(refusal) => {
            assert!(matches!(refusal, Refusal::Invalid | Refusal::Behind), "{refusal:?}");
            assert_eq!(clock.save(), before);
        }
    }
    changed.is_ok()
}

#[test]
fn any_call() {
    let counter = Counter::from_hz(32, 1_000_000_000, 2).unwrap();
    let opened = Box::new(SteeredClock::open(&counter, 5, START, 1000).unwrap());
    let (mut clock, mut random, mut accepted) = (opened.clone(), Random(2), 0);
    for number in 0..calls() {
        if number % 100 == 0 {
            clock = opened.clone();
        }
        // (at most half of the counter's range, and often in a row)
        let near = (clock.snapshot().words()[1] + random.below(1 << 30)) & 0xffff_ffff;
        let reading = if random.below(4) == 0 { random.some() } else { near };
        accepted += u64::from(match random.below(8) {
            0 => clock.advance(reading).is_ok(),
            6 => clock.advance_late(reading).is_ok(),
            7 => change_any(&mut clock, &mut random, reading),
            1 | 2 => clock.apply(reading, some_command(&mut random)).is_ok(),
            3 => clock.next_second().is_ok(),
            4 => SteeredClock::open(&counter, reading, random.time(), random.some() as u32).is_ok(),
            _ => ask_any(&mut clock, reading, &some_request(&mut random)),
        });
    }
    assert!(accepted > calls() / 10 && accepted < calls());
}

/// Loaded clocks and copies have the new counter. A snapshot from before keeps its own.
#[test]
fn changed_clocks_go_on() {
    let counter = Counter::from_hz(32, 1_000_000, 600).unwrap();
    let other = Counter::new(64, 1 << 23, 23).unwrap();
    let mut clock = SteeredClock::open(&counter, 0, START, 250).unwrap();
    let before = clock.snapshot();
    clock.change_counter(2_500_000, &other, u64::MAX).unwrap();
    assert_eq!((before.counter(), clock.snapshot().counter()), (&counter, &other));
    assert_eq!(clock.next_second(), Ok(499_999_999));
    for mut clock in [clock.clone(), SteeredClock::load(&clock.save()).unwrap()] {
        assert_eq!(clock.counter(), &other);
        clock.advance(2_000_000_000).unwrap();
        let former = clock.save();
        assert_eq!(clock.change_counter(u64::MAX - 1, &counter, 0), Err(Refusal::Behind));
        assert_eq!((clock.counter(), clock.save()), (&other, former));
    }
}

#[test]
fn openings_with_an_uptime() {
    let counter = Counter::from_hz(32, 1_000_000, 600).unwrap();
    let uptime = Timespec { sec: 3_600, nsec: 7 };
    let mut clock = SteeredClock::open_at(&counter, 5, START, uptime, 250).unwrap();
    assert_eq!(clock.advance(1_000_005), Ok(()));
    let now = clock.snapshot();
    for id in [ClockId::Monotonic, ClockId::MonotonicRaw, ClockId::Boottime] {
        assert_eq!(now.get(id, 1_000_005), Ok(Timespec { sec: 3_601, nsec: 7 }));
    }
    let (limit, long) = (Timespec { sec: 946_080_000, nsec: 0 }, Timespec { sec: 6, nsec: 0 });
    let short = Timespec { sec: 5, nsec: 0 };
    for (start, uptime, hz, refusal) in [
        (short, limit, 0, Refusal::Range),
        (short, long, 250, Refusal::Invalid),
        (short, short, 0, Refusal::Invalid),
    ] {
        let opened = SteeredClock::open_at(&counter, 5, start, uptime, hz);
        assert_eq!(opened.err(), Some(refusal));
    }
}

#[test]
fn refused_calls() {
    let counter = Counter::from_hz(32, 1_000_000, 600).unwrap();
    let start = Timespec { sec: 1_700_000_000, nsec: 0 };
    for hz in [0, 1025] {
        assert_eq!(SteeredClock::open(&counter, 0, start, hz).err(), Some(Refusal::Invalid));
    }
    let mut clock = SteeredClock::open(&counter, 5, start, 1024).unwrap();
    assert_eq!(clock.next_second(), Ok(1_000_005));
    assert_eq!(clock.advance(1 << 32), Err(Refusal::Invalid));
    assert_eq!(clock.advance(4), Err(Refusal::Behind));
    assert_eq!(clock.apply(6, Command::Suspend), Ok(()));
    let asleep = Unsteered { refusal: Refusal::Asleep, number: None };
    assert_eq!(clock.adjtimex(7, &Timex::default()), Err(asleep));
    assert_eq!(asleep.to_string(), Refusal::Asleep.to_string());
    assert_eq!(clock.next_second(), Err(Refusal::Never));
}

/// A request without a command lets no reading before it pass.
#[test]
fn behind_a_request() {
    let counter = Counter::from_hz(32, 1_000_000, 600).unwrap();
    let mut clock = SteeredClock::open(&counter, 10, START, 1000).unwrap();
    let request = Timex { modes: mode::MAXERROR, maxerror: 5, ..Timex::default() };
    clock.adjtimex(1000, &request).unwrap();
    for reading in [999, 11, 9, (1 << 31) + 10] {
        let error = clock.clone().adjtimex(reading, &request).unwrap_err();
        let text = format!("reading is {reading} instead of 1000 to 2147483657");
        assert_eq!((error.refusal, error.to_string()), (Refusal::Behind, text));
        check_number(&clock, &request, reading, error);
    }
}

/// Requests that are refused for a number, and the text that names it. The clocks are opened at 5
/// cycles of 1 us, and 5 s of MONOTONIC have passed at the reading 5000005.
#[test]
fn refused_numbers() {
    let step =
        |modes, sec, sub| Timex { modes: modes | mode::SETOFFSET, sec, sub, ..Timex::default() };
    let tick = |tick| Timex { modes: mode::TICK, tick, ..Timex::default() };
    let freq = |freq| Timex { modes: mode::FREQUENCY, freq, ..Timex::default() };
    let none = Timex::default();
    let rows = [
        (8, Timex { modes: mode::ADJTIME | 4, ..none }, "modes is 32772 instead of 32773"),
        (8, tick(8_999), "tick is 8999 instead of 9000 to 11000"),
        (8, tick(11_001), "tick is 11001 instead of 9000 to 11000"),
        (8, step(0, 0, -1), "sub is -1 instead of 0 to 999999"),
        (8, step(0, 0, 1_000_000), "sub is 1000000 instead of 0 to 999999"),
        (8, step(mode::NANO, 0, 1_000_000_000), "sub is 1000000000 instead of 0 to 999999999"),
        (8, freq(140_737_488_356), "freq is 140737488356 instead of -140737488355 to 140737488355"),
        (1 << 32, none, "reading is 4294967296 instead of 0 to 4294967295"),
        (4, none, "reading is 4 instead of 5 to 2147483652"),
        (
            5_000_005,
            step(mode::NANO, -1_700_000_001, 999_999_999),
            "step is -1700000000000000001 instead of -1700000000000000000 to 6577292030999999999",
        ),
        (
            5_000_005,
            step(0, 6_577_292_031, 0),
            "step is 6577292031000000000 instead of -1700000000000000000 to 6577292030999999999",
        ),
    ];
    let counter = Counter::from_hz(32, 1_000_000, 600).unwrap();
    let opened = SteeredClock::open(&counter, 5, START, 1000).unwrap();
    for (reading, request, text) in rows {
        let error = opened.clone().adjtimex(reading, &request).unwrap_err();
        assert_eq!(error.to_string(), text);
        check_number(&opened, &request, reading, error);
    }
}
