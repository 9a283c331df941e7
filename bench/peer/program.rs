//! The whole program: it reads files, writes a text, and writes a fault to standard error.

use crate::csv::SIZE_LIMIT;
use crate::script::clock_of;
use crate::{report, trace};
use std::fmt::Display;
use std::fs::File;
use std::io::{self, Read, Write};
use std::process::ExitCode;

/// Writes the report of the script on standard input.
pub fn replay() -> ExitCode {
    let script = whole(io::stdin().lock()).map_err(|_| "cannot read".to_string());
    finish(
        script.and_then(|script| report::report(&script).map_err(|error| format!("script: {error}"))),
    )
}

/// Writes the clock at each stamp of a file.
pub fn trace(clock: &str, script: &str, stamps: &str) -> ExitCode {
    let Some(clock) = clock_of(clock.as_bytes()) else {
        return refused();
    };
    let inputs = (|| io::Result::Ok((whole(File::open(script)?)?, whole(File::open(stamps)?)?)))();
    let inputs = inputs.map_err(|_| "cannot read".to_string());
    finish(inputs.and_then(|(script, stamps)| {
        trace::trace(&script, &stamps, clock).map_err(|error| error.to_string())
    }))
}

/// Handles all other words.
pub fn refused() -> ExitCode {
    eprintln!("tkcore: words refused");
    ExitCode::from(2)
}

/// Reads all bytes, up to one more than a script may have.
fn whole(reader: impl Read) -> io::Result<Vec<u8>> {
    let mut bytes = Vec::new();
    reader.take(SIZE_LIMIT as u64 + 1).read_to_end(&mut bytes)?;
    Ok(bytes)
}

fn finish(text: Result<Vec<u8>, impl Display>) -> ExitCode {
    match text {
        Ok(text) if io::stdout().write_all(&text).is_ok() => ExitCode::SUCCESS,
        Ok(_) => ExitCode::FAILURE,
        Err(fault) => {
            eprintln!("tkcore: {fault}");
            ExitCode::FAILURE
        }
    }
}
