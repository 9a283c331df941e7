//! Scripts and stamp files, parsed from records.

use crate::clocks::{Clock, ClockId, Command, Desc, Timespec};
use crate::csv::{Records, SIZE_LIMIT};
use std::borrow::Cow;
use std::fmt;

/// The first fault of a script or of a stamp file, with the number of its record.
#[derive(Debug)]
pub enum ScriptError {
    TooLarge,
    Empty,
    Opening,
    Word(u64),
    Fields(u64),
    Number(u64),
}

impl fmt::Display for ScriptError {
    fn fmt(&self, f: &mut fmt::Formatter<'_>) -> fmt::Result {
        match self {
            ScriptError::TooLarge => write!(f, "larger than {SIZE_LIMIT} bytes"),
            ScriptError::Empty => write!(f, "no record"),
            ScriptError::Opening => write!(f, "record 1: not a valid opening"),
            ScriptError::Word(row) => write!(f, "record {row}: unknown word"),
            ScriptError::Fields(row) => write!(f, "record {row}: wrong number of fields"),
            ScriptError::Number(row) => write!(f, "record {row}: not a number in range"),
        }
    }
}

/// The command or the read of a record after the first one.
#[derive(Clone, Copy)]
pub enum Row {
    Act { reading: u64, cmd: Command },
    Look { reading: u64, clock: ClockId },
}

/// The rows of a script, read one at a time.
pub struct Rows<'a> {
    records: Records<'a>,
    row: u64,
}

/// The clocks that a script opens, and its rows.
pub fn open(bytes: &[u8]) -> Result<(Clock, Rows<'_>), ScriptError> {
    if bytes.len() > SIZE_LIMIT {
        return Err(ScriptError::TooLarge);
    }
    let mut records = Records::new(bytes);
    let fields = Fields {
        row: 1,
        fields: records.next_record().ok_or(ScriptError::Empty)?,
    };
    let clock = opened(&fields)?;
    Ok((clock, Rows { records, row: 1 }))
}

fn opened(fields: &Fields) -> Result<Clock, ScriptError> {
    let make = match fields.at(0) {
        b"open" => Desc::new,
        b"openhz" => Desc::from_hz,
        _ => return Err(ScriptError::Opening),
    };
    fields.expect_count(7)?;
    let (bits, first, second) = (fields.short(1)?, fields.short(2)?, fields.short(3)?);
    let (reading, real) = (fields.number(4)?, fields.time(5)?);
    let desc = make(bits, first, second).ok_or(ScriptError::Opening)?;
    Clock::open(desc, reading, real).ok_or(ScriptError::Opening)
}

impl Rows<'_> {
    pub fn next_row(&mut self) -> Result<Option<Row>, ScriptError> {
        self.row += 1;
        match self.records.next_record() {
            Some(fields) => read_row(&Fields {
                row: self.row,
                fields,
            })
            .map(Some),
            None => Ok(None),
        }
    }
}

fn read_row(fields: &Fields) -> Result<Row, ScriptError> {
    let (reading, cmd) = match fields.at(0) {
        b"update" => (fields.plain()?, Command::Update),
        b"get" => {
            fields.expect_count(3)?;
            let (reading, clock) = (fields.number(1)?, clock_of(fields.at(2)));
            let clock = clock.ok_or(ScriptError::Word(fields.row))?;
            return Ok(Row::Look { reading, clock });
        }
        b"set" => fields.timed(Command::SetTime)?,
        b"step" => fields.timed(Command::Step)?,
        b"freq" => fields.valued(Command::Freq)?,
        b"tick" => fields.valued(Command::Tick)?,
        b"tai" => fields.valued(Command::Tai)?,
        b"suspend" => (fields.plain()?, Command::Suspend),
        b"resume" => fields.timed(Command::Resume)?,
        _ => return Err(ScriptError::Word(fields.row)),
    };
    Ok(Row::Act { reading, cmd })
}

/// The fronts and the stamps of a file.
pub fn stamps(bytes: &[u8]) -> Result<Vec<(u64, u64)>, ScriptError> {
    if bytes.len() > SIZE_LIMIT {
        return Err(ScriptError::TooLarge);
    }
    let mut records = Records::new(bytes);
    let mut items = Vec::new();
    let mut row = 1;
    while let Some(fields) = records.next_record() {
        let fields = Fields { row, fields };
        fields.expect_count(2)?;
        items.push((fields.number(0)?, fields.number(1)?));
        row += 1;
    }
    Ok(items)
}

pub fn clock_of(word: &[u8]) -> Option<ClockId> {
    Some(match word {
        b"monotonic" => ClockId::Monotonic,
        b"realtime" => ClockId::Realtime,
        b"tai" => ClockId::Tai,
        b"boottime" => ClockId::Boottime,
        b"monotonic_coarse" => ClockId::MonotonicCoarse,
        b"realtime_coarse" => ClockId::RealtimeCoarse,
        b"monotonic_raw" => ClockId::MonotonicRaw,
        _ => return None,
    })
}

/// A record and its number.
struct Fields<'r, 'a> {
    row: u64,
    fields: &'r [Cow<'a, [u8]>],
}

impl Fields<'_, '_> {
    fn at(&self, place: usize) -> &[u8] {
        &self.fields[place]
    }

    fn expect_count(&self, count: usize) -> Result<(), ScriptError> {
        if self.fields.len() != count {
            return Err(ScriptError::Fields(self.row));
        }
        Ok(())
    }

    fn number(&self, place: usize) -> Result<u64, ScriptError> {
        number(self.at(place)).ok_or(ScriptError::Number(self.row))
    }

    fn short(&self, place: usize) -> Result<u32, ScriptError> {
        let number = self.number(place)?;
        u32::try_from(number).map_err(|_| ScriptError::Number(self.row))
    }

    fn signed(&self, place: usize) -> Result<i64, ScriptError> {
        let number = match self.at(place) {
            [b'-', digits @ ..] => number(digits).and_then(|n| 0i64.checked_sub_unsigned(n)),
            digits => number(digits).and_then(|n| i64::try_from(n).ok()),
        };
        number.ok_or(ScriptError::Number(self.row))
    }

    fn time(&self, place: usize) -> Result<Timespec, ScriptError> {
        let (sec, nsec) = (self.signed(place)?, self.short(place + 1)?);
        Ok(Timespec { sec, nsec })
    }

    fn plain(&self) -> Result<u64, ScriptError> {
        self.expect_count(2)?;
        self.number(1)
    }

    fn timed(&self, make: fn(Timespec) -> Command) -> Result<(u64, Command), ScriptError> {
        self.expect_count(4)?;
        Ok((self.number(1)?, make(self.time(2)?)))
    }

    fn valued(&self, make: fn(i64) -> Command) -> Result<(u64, Command), ScriptError> {
        self.expect_count(3)?;
        Ok((self.number(1)?, make(self.signed(2)?)))
    }
}

/// At least one digit, within 64 bits. Up to nineteen digits fit a word.
fn number(field: &[u8]) -> Option<u64> {
    if field.is_empty() || !field.iter().all(u8::is_ascii_digit) {
        return None;
    }
    let mut digits = field.iter().map(|digit| u64::from(digit - b'0'));
    if field.len() <= 19 {
        return Some(digits.fold(0, |value, digit| value * 10 + digit));
    }
    digits.try_fold(0u64, |value, digit| {
        value.checked_mul(10)?.checked_add(digit)
    })
}
