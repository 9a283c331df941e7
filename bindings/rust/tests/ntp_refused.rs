// SPDX-License-Identifier: MIT OR Apache-2.0
//! Readings that every call on steered clocks refuses: the tables of tests/c/worked_saved_ntp.c. No
//! refused call changes the clocks.

mod support;

use support::{nanosecond_counter, of, table, Item};
use tkcore::{mode, Command, Counter, Refusal, SteeredClock, Timex, NTP_SAVED_WORDS};

/// Returns a table of 33 words.
fn words(name: &str) -> [u64; NTP_SAVED_WORDS] {
    let words: Vec<u64> = table("worked_saved_ntp.c", name).iter().map(Item::number).collect();
    words.try_into().expect("33 words")
}

/// Returns the saved clocks with these words changed.
fn load(changes: &[(usize, u64)]) -> SteeredClock {
    let mut words = words("steered_words");
    for (place, word) in changes {
        words[*place] = *word;
    }
    SteeredClock::load(&words).unwrap()
}

/// Returns the counter to which the clocks change.
fn other() -> Counter {
    Counter::new(64, 1 << 23, 23).unwrap()
}

fn refuse_all(clock: &mut SteeredClock, reading: u64, refusal: Refusal) {
    refuse(clock, 0, reading, refusal);
}

/// Checks that the calls after the first ones are refused. The first two give no command of a
/// caller, and the third only one.
fn refuse(clock: &mut SteeredClock, first: u32, reading: u64, refusal: Refusal) {
    let (before, counter) = (clock.save(), *clock.counter());
    let request = Timex { modes: mode::MAXERROR, maxerror: 5, ..Timex::default() };
    for number in first..6 {
        let found = match number {
            0 => clock.advance(reading).err(),
            1 => clock.advance_late(reading).err(),
            2 => clock.change_counter(reading, &other(), 0).err(),
            3 => clock.apply(reading, Command::Update).err(),
            4 => clock.apply(reading, Command::Tick(9000)).err(),
            _ => clock.adjtimex(reading, &request).err().map(|error| error.refusal),
        };
        assert_eq!(found, Some(refusal), "call {number} at {reading}");
        assert_eq!(clock.save(), before, "call {number} at {reading}");
        assert_eq!(*clock.counter(), counter, "call {number} at {reading}");
    }
}

#[test]
fn readings_before_the_last_account() {
    for row in table("worked_saved_ntp.c", "late_readings") {
        let row = row.list();
        let refusal = row[1].refusal().expect("a refusal");
        refuse_all(&mut load(&[(10, 64), (32, 1 << 60)]), row[0].number(), refusal);
    }
}

#[test]
fn as_many_commands_as_are_counted() {
    let mut clock = load(&[(0, (1 << 63) - 2)]);
    // no second is due, so no command is needed
    assert_eq!(clock.advance_late(9), Ok(()));
    refuse(&mut clock, 3, 9, Refusal::Full);
    refuse_all(&mut clock, 6, Refusal::Behind);
}

/// A second that is due begins with its 3 commands, or not at all. Then a change needs room for one.
#[test]
fn full_changes() {
    for row in table("worked_saved_ntp.c", "full_changes") {
        let row = row.list();
        let mut saved = words(row[0].name());
        saved[0] = row[1].number();
        let mut clock = SteeredClock::load(&saved).unwrap();
        let changed = clock.change_counter(row[2].number(), &other(), 11);
        assert_eq!(of(&changed), row[3].refusal(), "{row:?}");
        let mut wanted = words(row[5].name());
        wanted[0] = row[4].number();
        assert_eq!(clock.save(), wanted, "{row:?}");
        let counter = if changed.is_ok() { other() } else { nanosecond_counter() };
        assert_eq!(*clock.counter(), counter, "{row:?}");
    }
}

/// `first` is tested before the reading, and before all else.
#[test]
fn first_readings_above_the_mask() {
    let narrow = Counter::new(8, 256, 0).unwrap();
    let mut clock = load(&[(0, u64::MAX)]);
    let before = clock.save();
    for reading in [6, 9, 1 << 32] {
        for first in [256, u64::MAX] {
            assert_eq!(clock.change_counter(reading, &narrow, first), Err(Refusal::Invalid));
        }
    }
    assert_eq!(clock.change_counter(1 << 32, &narrow, 255), Err(Refusal::Invalid));
    assert_eq!(clock.change_counter(6, &narrow, 255), Err(Refusal::Behind));
    assert_eq!(clock.change_counter(9, &narrow, 255), Err(Refusal::Full));
    assert_eq!((clock.save(), *clock.counter()), (before, nanosecond_counter()));
}

/// A call that finds no room for its own commands leaves the clocks with the seconds up to its
/// reading begun.
#[test]
fn fronts_without_room() {
    type Call = fn(&mut SteeredClock, u64) -> Option<Refusal>;
    let ask: Call = |clock, reading| {
        clock.adjtimex(reading, &Timex::default()).err().map(|error| error.refusal)
    };
    for row in table("worked_saved_ntp.c", "full_fronts") {
        let row = row.list();
        let (front, reading): (u64, u64) = (row[0].number(), row[1].number());
        let [second, update, request] = [2, 3, 4].map(|place: usize| row[place].refusal());
        let (before, mut begun) = (load(&[(0, front)]), load(&[(0, front)]));
        assert_eq!(begun.advance(reading).err(), second, "{row:?}");
        assert!(second.is_none() || begun.save() == before.save(), "{row:?}");
        let calls: [(Option<Refusal>, u64, Call); 5] = [
            (second, 0, |clock, reading| clock.advance(reading).err()),
            (second, 0, |clock, reading| clock.advance_late(reading).err()),
            (update, 1, |clock, reading| clock.apply(reading, Command::Update).err()),
            (request, 1, |clock, reading| clock.apply(reading, Command::Freq(65_536_000)).err()),
            (request, 0, ask),
        ];
        for (wanted, commands, call) in calls {
            let mut clock = before.clone();
            assert_eq!(call(&mut clock, reading), wanted, "{row:?}");
            match wanted {
                None => assert_eq!(clock.snapshot().front(), front + commands, "{row:?}"),
                Some(Refusal::Full) => assert_eq!(clock.save(), begun.save(), "{row:?}"),
                Some(_) => assert_eq!(clock.save(), before.save(), "{row:?}"),
            }
        }
    }
}
