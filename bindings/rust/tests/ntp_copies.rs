// SPDX-License-Identifier: MIT OR Apache-2.0
//! A clone of clocks is a value of its own: the original moves, and the clone doesn't.

mod support;

use support::{commanded, nanosecond_counter, START};
use tkcore::{mode, Command, Counter, SteeredClock, Timex};

#[test]
fn clones_of_clocks() {
    let fine = Counter::new(56, 33_554_432, 24).unwrap();
    let mut clock = commanded();
    let (mut other, shown) = (clock.clone(), clock.snapshot());
    clock.apply(10_007, Command::Tick(9000)).unwrap();
    clock.change_counter(10_009, &fine, 4).unwrap();
    assert_eq!((other.save(), *other.counter()), (commanded().save(), nanosecond_counter()));
    assert_eq!((shown, *shown.counter()), (commanded().snapshot(), nanosecond_counter()));
    let saved = clock.save();
    other.apply(10_008, Command::Suspend).unwrap();
    assert_ne!(other.save(), commanded().save());
    assert_eq!(clock.save(), saved);
}

fn steered() -> SteeredClock {
    let mut clock = SteeredClock::open(&nanosecond_counter(), 0, START, 250).unwrap();
    let request = Timex { modes: mode::FREQUENCY, freq: 65_536, ..Timex::default() };
    clock.adjtimex(5, &request).unwrap();
    clock
}

#[test]
fn clones_of_steered_clocks() {
    let request = Timex { modes: mode::MAXERROR, maxerror: 9, ..Timex::default() };
    let mut clock = steered();
    let (mut other, shown) = (clock.clone(), clock.snapshot());
    clock.advance(2_000_000_000).unwrap();
    clock.apply(2_000_000_001, Command::Tai(37)).unwrap();
    assert_eq!(other.save(), steered().save());
    assert_eq!(shown, steered().snapshot());
    let saved = clock.save();
    other.adjtimex(6, &request).unwrap();
    assert_ne!(other.save(), steered().save());
    assert_eq!(clock.save(), saved);
}
