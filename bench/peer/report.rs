//! The report of a script.

use crate::clocks::{Base, Clock, Command, Refusal, Timespec, NANOS};
use crate::keeper::LISTED_LIMIT;
use crate::lines::{add_at, add_no, add_ok, add_open};
use crate::script::{self, Row, ScriptError};

/// A line for the opening, and one for each later record. Commands are counted, and not kept.
pub fn report(script: &[u8]) -> Result<Vec<u8>, ScriptError> {
    let (mut clock, mut rows) = script::open(script)?;
    let mut text = Vec::new();
    let mut accepted = 0;
    add_open(&mut text, &clock.base.desc);
    while let Some(row) = rows.next_row()? {
        match row {
            Row::Act { reading, cmd } => match act(&mut clock, accepted, reading, cmd) {
                Ok(()) => {
                    accepted += 1;
                    add_ok(&mut text, accepted, monotonic(&clock.base));
                }
                Err(refusal) => add_no(&mut text, refusal),
            },
            Row::Look { reading, clock: id } => match clock.base.get(id, reading) {
                Ok(time) => add_at(&mut text, id, time),
                Err(refusal) => add_no(&mut text, refusal),
            },
        }
    }
    Ok(text)
}

/// Applies a command, unless as many were accepted as a journal can list.
pub fn act(clock: &mut Clock, accepted: u64, reading: u64, cmd: Command) -> Result<(), Refusal> {
    if accepted >= LISTED_LIMIT as u64 {
        return Err(Refusal::Full);
    }
    clock.apply(reading, cmd)
}

/// MONOTONIC at the last command.
fn monotonic(base: &Base) -> Timespec {
    let nanos = base.monotonic_now();
    Timespec {
        sec: (nanos / NANOS) as i64,
        nsec: (nanos % NANOS) as u32,
    }
}
