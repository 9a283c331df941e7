// SPDX-License-Identifier: MIT OR Apache-2.0
//! The calls whose codes and results were computed manually: the tables of tests/c/worked_*.c,
//! except the changes of counter (changes.rs). Rows with a number that no command or no clock has
//! are left out: the types exclude them.

mod support;

use support::{
    command, commanded, nanosecond_counter, of, opened, opened_wide, stored, table, Item,
};
use tkcore::{Clock, ClockId, ClockWords, Command, Counter, Refusal, Snapshot, Timespec, WORDS};

#[test]
fn counters_of_numbers() {
    for row in table("worked_counters.c", "descriptions") {
        let row = row.list();
        let numbers: [u32; 3] = [row[0].number(), row[1].number(), row[2].number()];
        let made = Counter::new(numbers[0], numbers[1], numbers[2]);
        assert_eq!(of(&made), row[3].refusal(), "{row:?}");
        if let Ok(counter) = made {
            assert_eq!([counter.bits(), counter.mult(), counter.shift()], numbers);
        }
    }
}

#[test]
fn counters_of_rates() {
    type Make = fn(u32, u64, u32) -> Result<Counter, Refusal>;
    let makers: [(&str, Make); 3] = [
        ("rates_hz", Counter::from_hz),
        ("rates_khz", Counter::from_khz),
        ("rates_finest", Counter::finest),
    ];
    for (name, make) in makers {
        for row in table("worked_counters.c", name) {
            let row = row.list();
            let made = make(row[0].number(), row[1].number(), row[2].number());
            assert_eq!(of(&made), row[3].refusal(), "{row:?}");
            if made.is_ok() {
                let wanted = Counter::new(row[0].number(), row[4].number(), row[5].number());
                assert_eq!(made, wanted);
            }
        }
    }
}

#[test]
fn openings() {
    for row in table("worked_commands.c", "openings") {
        let row = row.list();
        let start = Timespec { sec: row[1].number(), nsec: row[2].number() };
        let made = Clock::open(&nanosecond_counter(), row[0].number(), start);
        assert_eq!(of(&made), row[3].refusal(), "{row:?}");
        if let Ok(clock) = made {
            assert_eq!(clock.words(), stored("worked_commands.c", "OPENED"));
        }
    }
}

#[test]
fn cycles() {
    for row in table("worked_cycles.c", "gaps") {
        let numbers: Vec<u64> = row.numbers();
        let counter = Counter::new(numbers[0] as u32, 16_777_216, 24).unwrap();
        assert_eq!(counter.gap(numbers[1], numbers[2]), numbers[3]);
    }
    for row in table("worked_cycles.c", "all_nanos") {
        let numbers: Vec<u64> = row.numbers();
        let counter = Counter::new(64, numbers[0] as u32, numbers[1] as u32).unwrap();
        assert_eq!(counter.nanos(numbers[2]), numbers[3]);
    }
}

#[test]
fn openings_with_an_uptime() {
    for row in table("worked_openings.c", "openings") {
        let row = row.list();
        let start = Timespec { sec: row[1].number(), nsec: row[2].number() };
        let uptime = Timespec { sec: row[3].number(), nsec: row[4].number() };
        let reading = row[0].number();
        let made = Clock::open_at(&nanosecond_counter(), reading, start, uptime);
        assert_eq!(of(&made), row[5].refusal(), "{row:?}");
        let Ok(clock) = made else { continue };
        for (id, time) in [
            (ClockId::Monotonic, uptime),
            (ClockId::MonotonicRaw, uptime),
            (ClockId::Boottime, uptime),
            (ClockId::Realtime, start),
            (ClockId::Tai, start),
        ] {
            assert_eq!(clock.snapshot().get(id, reading), Ok(time));
        }
    }
}

#[test]
fn numbers_of_clocks_and_snapshots() {
    let mut clock = commanded();
    let ClockWords { words, frequency, tick } = clock.words();
    assert_eq!((clock.frequency(), clock.tick()), (frequency, tick));
    let snapshot = clock.snapshot();
    let found = (snapshot.front(), snapshot.tai_offset(), snapshot.is_asleep());
    assert_eq!(found, (words[0], 37, false));
    clock.apply(10_000, Command::Suspend).unwrap();
    assert!(clock.snapshot().is_asleep());
}

#[test]
fn one_command_of_each_kind() {
    assert_eq!(commanded().words(), stored("worked_rows.c", "COMMANDED"));
}

fn try_commands(mut clock: Clock, name: &str) -> Clock {
    for row in table("worked_commands.c", name) {
        let row = row.list();
        let Some(command) = command(&row[1], row[2].number(), row[3].number()) else { continue };
        let before = clock.words();
        let applied = clock.apply(row[0].number(), command);
        assert_eq!(of(&applied), row[4].refusal(), "{row:?}");
        assert!(applied.is_ok() || clock.words() == before);
    }
    clock
}

#[test]
fn refused_commands() {
    try_commands(opened(), "refused_commands");
    try_commands(opened_wide(), "last_commands");
    let mut words = opened().words();
    words.words[0] = 9_223_372_036_854_775_806;
    let clock = Clock::from_words(&nanosecond_counter(), &words).unwrap();
    let full = try_commands(clock, "counted_commands");
    assert_eq!(full.words().words[0], 9_223_372_036_854_775_807);
}

#[test]
fn an_inserted_second() {
    let clock = try_commands(opened(), "leap_commands");
    assert_eq!(clock.words(), stored("worked_commands.c", "LEAPT"));
}

#[test]
fn reads() {
    for row in table("worked_reads.c", "reads") {
        let row = row.list();
        let wanted = Timespec { sec: row[1].number(), nsec: row[2].number() };
        let clock = row[0].clock().unwrap();
        assert_eq!(commanded().snapshot().get(clock, 9100), Ok(wanted));
    }
}

#[test]
fn clocks_at_the_last_command() {
    let snapshot = commanded().snapshot();
    for row in table("worked_queries.c", "coarse") {
        let row = row.list();
        let wanted = Timespec { sec: row[1].number(), nsec: row[2].number() };
        assert_eq!(snapshot.coarse(row[0].clock().unwrap()), wanted);
    }
}

#[test]
fn steps_that_are_not_made() {
    for (name, opening) in [("steps", commanded as fn() -> Clock), ("far_steps", opened_wide)] {
        for row in table("worked_queries.c", name) {
            let row = row.list();
            let time = |item: &Item| {
                let item = item.list();
                Timespec { sec: item[0].number(), nsec: item[1].number() }
            };
            let by = Timespec { sec: row[1].number(), nsec: row[2].number() };
            let found = opening().snapshot().stepped(row[0].number(), by);
            let made = opening().apply(row[0].number(), Command::Step(by));
            assert_eq!(of(&found), row[3].refusal(), "{row:?}");
            assert_eq!(of(&made), row[3].refusal(), "{row:?}");
            if let Ok(times) = found {
                assert_eq!(times, (time(&row[4]), time(&row[5])));
            }
        }
    }
}

fn snapshot_of(is_wide: u8) -> Snapshot {
    (if is_wide == 1 { opened_wide() } else { commanded() }).snapshot()
}

#[test]
fn refused_reads() {
    for row in table("worked_reads.c", "refused_reads") {
        let row = row.list();
        let Some(clock) = row[1].clock() else { continue };
        let found = snapshot_of(row[0].number()).get(clock, row[2].number());
        assert_eq!(of(&found), row[3].refusal(), "{row:?}");
    }
}

#[test]
fn lists() {
    let mut tried = 0;
    for row in table("worked_lists.c", "lists") {
        let row = row.list();
        let Some(clock) = row[1].clock() else { continue };
        let (room, count): (usize, usize) = (row[2].number(), row[3].number());
        let mut stamps: Vec<u64> = row[4].numbers();
        stamps.resize(5, 0);
        let mut times = [7; 5];
        let found =
            snapshot_of(row[0].number()).convert(clock, &mut times[..room], &stamps[..count]);
        let old = |item: &support::Item| if item.name_or("") == "OLD" { 7 } else { item.number() };
        let wanted: Vec<u64> = row[7].list().iter().map(old).collect();
        assert_eq!(times[..], wanted, "{row:?}");
        assert_eq!(found.err().map(|it| it.refusal), row[5].refusal());
        if let Err(ended) = found.as_ref().map_err(|it| *it) {
            let is_at_a_stamp = ended.refusal != Refusal::BadRoom;
            let done = if is_at_a_stamp { row[6].number() } else { 0 };
            assert_eq!(ended.done, done);
            assert_eq!(ended.stamp, if is_at_a_stamp { stamps[done] } else { 0 });
        }
        tried += 1;
    }
    assert_eq!(tried, 5);
}

#[test]
fn lists_far_from_the_last_command() {
    for row in table("worked_far_lists.c", "rates") {
        let row = row.list();
        let counter = Counter::new(64, row[0].number(), row[1].number()).unwrap();
        let mut clock = Clock::open(&counter, 1000, Timespec::default()).unwrap();
        clock.apply(1_234_567, tkcore::Command::Update).unwrap();
        let words = clock.snapshot().words();
        let monotonic = |cycles: u64| {
            let units = u128::from(cycles) * u128::from(words[2]) + u128::from(words[3]);
            u128::from(words[4]) * 1_000_000_000 + (units >> counter.shift())
        };
        let cycles: Vec<u64> = (1..60)
            .flat_map(|power| (0..3).map(move |step| (1 << power) - 1 + step))
            .chain((0..40).map(|step| u64::MAX / u64::from(counter.mult()) - 20 + step))
            .filter(|it| monotonic(*it) < 946_080_000_000_000_000)
            .collect();
        let stamps: Vec<u64> = cycles.iter().map(|it| 1_234_567 + it).collect();
        let mut times = vec![0; stamps.len()];
        clock.snapshot().convert(ClockId::Monotonic, &mut times, &stamps).unwrap();
        for (time, cycles) in times.iter().zip(cycles) {
            assert_eq!(u128::from(*time), monotonic(cycles), "{cycles} cycles");
        }
    }
}

#[test]
fn readings_of_times() {
    let snapshot = commanded().snapshot();
    for row in table("worked_readings.c", "read_times") {
        let row = row.list();
        let clock = row[0].clock().unwrap();
        let time = snapshot.get(clock, row[1].number()).unwrap();
        assert_eq!(snapshot.reading_at(clock, time), Ok(row[2].number()));
        assert_eq!(snapshot.get(clock, row[2].number()), Ok(time));
    }
    for row in table("worked_readings.c", "reached_times") {
        let row = row.list();
        let time = Timespec { sec: row[1].number(), nsec: row[2].number() };
        assert_eq!(snapshot.reading_at(row[0].clock().unwrap(), time), Ok(row[3].number()));
    }
}

#[test]
fn times_that_no_clock_reaches() {
    for row in table("worked_readings.c", "missed_times") {
        let row = row.list();
        let Some(clock) = row[1].clock() else { continue };
        let mut clocks = if row[0].name() == "WIDE_CLOCKS" { opened_wide() } else { commanded() };
        if row[0].name() == "ASLEEP_CLOCKS" {
            clocks.apply(10_000, tkcore::Command::Suspend).unwrap();
        }
        let time = Timespec { sec: row[2].number(), nsec: row[3].number() };
        let found = clocks.snapshot().reading_at(clock, time);
        assert_eq!(of(&found), row[4].refusal(), "{row:?}");
    }
}

#[test]
fn words_give_the_values_back() {
    let (counter, clock) = (nanosecond_counter(), commanded());
    let stored = stored("worked_rows.c", "COMMANDED");
    assert_eq!(Snapshot::from_words(&counter, &stored.words), Ok(clock.snapshot()));
    assert_eq!(Clock::from_words(&counter, &stored), Ok(clock));
}

#[test]
fn saved_clocks() {
    let clock = commanded();
    let saved = clock.save();
    let ClockWords { words, frequency, tick } = clock.words();
    assert_eq!(saved[..WORDS], words);
    assert_eq!(saved[WORDS..], [32, 16_777_216, 24, frequency as u64, tick as u64]);
    assert_eq!(Clock::load(&saved), Ok(clock));
    for row in table("worked_saved.c", "saved_words") {
        let row = row.list();
        let mut words = saved;
        words[row[0].number::<usize>()] = row[1].number();
        let made = Clock::load(&words);
        assert_eq!(of(&made), row[2].refusal(), "{row:?}");
        assert!(made.map_or(true, |clock| clock.save() == words));
    }
}

#[test]
fn wrong_words() {
    for row in table("worked_words.c", "wrong_words") {
        let row = row.list();
        let mut words = [0, 0, 16_777_216, 0, 0, 0, 0, 0, 0, 0];
        words[row[0].number::<usize>()] = row[1].number();
        let snapshot = Snapshot::from_words(&nanosecond_counter(), &words);
        assert_eq!(of(&snapshot), Some(Refusal::BadWords), "{row:?}");
        let words = ClockWords { words, frequency: 0, tick: 10_000 };
        let clock = Clock::from_words(&nanosecond_counter(), &words);
        assert_eq!(of(&clock), Some(Refusal::BadWords), "{row:?}");
    }
}

#[test]
fn words_of_running_clocks() {
    for row in table("worked_words.c", "running") {
        let row = row.list();
        let words = [5, 0, row[0].number(), 0, 0, 0, 0, 0, row[3].number(), 0];
        let words = ClockWords { words, frequency: row[1].number(), tick: row[2].number() };
        let made = Clock::from_words(&nanosecond_counter(), &words);
        assert_eq!(of(&made), row[4].refusal(), "{row:?}");
        assert!(made.map_or(true, |clock| clock.words() == words));
    }
}
