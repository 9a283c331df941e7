// SPDX-License-Identifier: MIT OR Apache-2.0
//! The changes of counter whose codes and results were computed manually: the tables of
//! tests/c/worked_changes.c and tests/c/worked_refused_changes.c.

mod support;

use support::{command, nanosecond_counter, of, opened, opened_wide, stored, table};
use tkcore::{Clock, Command, Counter, Timespec};

const CHANGES: &str = "worked_changes.c";
const REFUSED_CHANGES: &str = "worked_refused_changes.c";

/// The names of the counters that tests/c/worked_changes.c lists.
const COUNTERS: [&str; 11] = [
    "NANOSECOND",
    "WIDE",
    "FINE",
    "EXACT",
    "SLOW",
    "NARROW",
    "MILLISECOND",
    "HALVES",
    "WHOLE",
    "COARSE",
    "HALF",
];

fn counter_named(name: &str) -> Counter {
    let place = COUNTERS.iter().position(|it| *it == name).expect("a counter");
    let numbers: Vec<u32> = table(CHANGES, "counters")[place].numbers();
    Counter::new(numbers[0], numbers[1], numbers[2]).unwrap()
}

fn apply_all(clock: &mut Clock, file: &str, name: &str) {
    for row in table(file, name) {
        let row = row.list();
        let command = command(&row[1], row[2].number(), row[3].number()).unwrap();
        let before = clock.clone();
        let applied = clock.apply(row[0].number(), command);
        assert_eq!(of(&applied), row[4].refusal(), "{row:?}");
        assert_eq!(*clock == before, applied.is_err(), "{row:?}");
    }
}

fn change_all(clock: &mut Clock, file: &str, name: &str) {
    for row in table(file, name) {
        let row = row.list();
        let (before, counter) = (clock.clone(), counter_named(row[1].name()));
        let changed = clock.change_counter(row[0].number(), &counter, row[2].number());
        assert_eq!(of(&changed), row[3].refusal(), "{row:?}");
        if changed.is_ok() {
            assert_eq!(*clock.counter(), counter);
        } else {
            assert_eq!(*clock, before);
        }
    }
}

fn read_all(clock: &Clock, file: &str, name: &str) {
    for row in table(file, name) {
        let row = row.list();
        let wanted = Timespec { sec: row[2].number(), nsec: row[3].number() };
        let found = clock.snapshot().get(row[0].clock().unwrap(), row[1].number());
        assert_eq!(found, Ok(wanted), "{row:?}");
    }
}

#[test]
fn changes_of_counter() {
    let mut clock = opened();
    apply_all(&mut clock, CHANGES, "fastest");
    change_all(&mut clock, CHANGES, "to_fine");
    assert_eq!(clock.words(), stored(CHANGES, "FINE_WORDS"));
    read_all(&clock, CHANGES, "fine_reads");
    change_all(&mut clock, CHANGES, "to_nanoseconds");
    assert_eq!(clock.words(), stored(CHANGES, "NANOSECOND_WORDS"));
    read_all(&clock, CHANGES, "nanosecond_reads");
    let mut clock = Clock::open(&counter_named("NARROW"), 200, Timespec::default()).unwrap();
    apply_all(&mut clock, CHANGES, "to_255");
    change_all(&mut clock, CHANGES, "to_wide");
    read_all(&clock, CHANGES, "wide_reads");
    let mut clock = opened();
    apply_all(&mut clock, CHANGES, "suspension");
    change_all(&mut clock, CHANGES, "asleep_changes");
    read_all(&clock, CHANGES, "asleep_reads");
    apply_all(&mut clock, CHANGES, "resumption");
    read_all(&clock, CHANGES, "resumed_reads");
    let start = Timespec { sec: 5, nsec: 0 };
    let mut clock = Clock::open(&counter_named("FINE"), 0, start).unwrap();
    change_all(&mut clock, CHANGES, "to_halves");
    read_all(&clock, CHANGES, "halves_reads");
    change_all(&mut clock, CHANGES, "to_whole");
    read_all(&clock, CHANGES, "whole_reads");
}

#[test]
fn a_thousand_changes_of_counter() {
    let mut clock = opened();
    clock.apply(0, Command::Freq(32_768_000)).unwrap();
    let counters = ["FINE", "COARSE", "NANOSECOND"].map(counter_named);
    for turn in 0..1000 {
        let counter = &counters[turn as usize % 3];
        clock.change_counter(4 * turn + 10, counter, 3 * turn + 3).unwrap();
    }
    assert_eq!(clock.words(), stored(CHANGES, "CHANGED_WORDS"));
}

#[test]
fn refused_changes_of_counter() {
    for name in ["near_boottime_end", "near_tai_end"] {
        let counter = counter_named("NANOSECOND");
        let mut clock = Clock::open(&counter, 0, Timespec::default()).unwrap();
        apply_all(&mut clock, REFUSED_CHANGES, name);
        change_all(&mut clock, REFUSED_CHANGES, "changes_at_a_limit");
    }
    let mut clock = opened_wide();
    change_all(&mut clock, REFUSED_CHANGES, "last_changes");
    read_all(&clock, REFUSED_CHANGES, "last_reads");
    let mut clock = opened();
    apply_all(&mut clock, REFUSED_CHANGES, "slowest");
    change_all(&mut clock, REFUSED_CHANGES, "refused_changes");
    change_all(&mut clock, REFUSED_CHANGES, "slowest_changes");
    read_all(&clock, REFUSED_CHANGES, "slowest_reads");
    let mut clock = opened();
    for name in ["slowest", "usual_again"] {
        apply_all(&mut clock, REFUSED_CHANGES, name);
    }
    change_all(&mut clock, REFUSED_CHANGES, "usual_changes");
    let mut words = opened().words();
    words.words[0] = 9_223_372_036_854_775_806;
    let mut clock = Clock::from_words(&nanosecond_counter(), &words).unwrap();
    change_all(&mut clock, REFUSED_CHANGES, "counted_changes");
}
