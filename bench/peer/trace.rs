//! A clock at each stamp of a file. The numbers that a read needs are kept for each number of
//! commands.

use crate::clocks::{Base, ClockId, Refusal};
use crate::lines::add_number;
use crate::report::act;
use crate::script::{self, Row, ScriptError};
use std::fmt;

/// The first fault: the script's before the stamp file's, and an item's with its index.
#[derive(Debug)]
pub enum TraceError {
    Script(ScriptError),
    Stamps(ScriptError),
    Unknown(usize),
    Invalid(usize),
    Range(usize),
}

impl fmt::Display for TraceError {
    fn fmt(&self, f: &mut fmt::Formatter<'_>) -> fmt::Result {
        match self {
            TraceError::Script(error) => write!(f, "script: {error}"),
            TraceError::Stamps(error) => write!(f, "stamps: {error}"),
            TraceError::Unknown(item) => write!(f, "item {item}: unknown front"),
            TraceError::Invalid(item) => write!(f, "item {item}: stamp above the mask"),
            TraceError::Range(item) => write!(f, "item {item}: value out of range"),
        }
    }
}

pub fn trace(script: &[u8], stamps: &[u8], clock: ClockId) -> Result<Vec<u8>, TraceError> {
    let bases = bases(script).map_err(TraceError::Script)?;
    let items = script::stamps(stamps).map_err(TraceError::Stamps)?;
    let mut text = Vec::new();
    for (item, (front, stamp)) in items.into_iter().enumerate() {
        let base = usize::try_from(front)
            .ok()
            .and_then(|front| bases.get(front));
        let base = base.ok_or(TraceError::Unknown(item))?;
        let nanos = base.nanos(clock, stamp).map_err(|refusal| match refusal {
            Refusal::Invalid => TraceError::Invalid(item),
            _ => TraceError::Range(item),
        })?;
        add_number(&mut text, nanos);
        text.push(b'\n');
    }
    Ok(text)
}

/// The numbers that a read needs, at the opening and after each accepted command.
fn bases(script: &[u8]) -> Result<Vec<Base>, ScriptError> {
    let (mut clock, mut rows) = script::open(script)?;
    let mut bases = vec![clock.base];
    while let Some(row) = rows.next_row()? {
        if let Row::Act { reading, cmd } = row {
            if act(&mut clock, bases.len() as u64 - 1, reading, cmd).is_ok() {
                bases.push(clock.base);
            }
        }
    }
    Ok(bases)
}
