// SPDX-License-Identifier: MIT OR Apache-2.0
//! What the tests share: the tables of tests/c, the clocks that they begin with, random numbers.
#![allow(dead_code)] // each test uses a part

use std::{env, fs};

use tkcore::{Clock, ClockId, ClockWords, Command, Counter, Refusal, Timespec, WORDS};

/// A part of a table in C: a number, a name without `TKC_`, or a list in braces.
#[derive(Clone, Debug, PartialEq)]
pub enum Item {
    Number(i128),
    Name(String),
    List(Vec<Item>),
}

impl Item {
    pub fn number<T: TryFrom<i128>>(&self) -> T {
        let Item::Number(number) = self else { panic!("{self:?} isn't a number") };
        T::try_from(*number).ok().expect("a number in range")
    }

    pub fn name(&self) -> &str {
        let Item::Name(name) = self else { panic!("{self:?} isn't a name") };
        name
    }

    /// Returns the name, or `other` for a number or a list.
    pub fn name_or<'a>(&'a self, other: &'a str) -> &'a str {
        if let Item::Name(name) = self {
            name
        } else {
            other
        }
    }

    pub fn list(&self) -> &[Item] {
        let Item::List(items) = self else { panic!("{self:?} isn't a list") };
        items
    }

    pub fn numbers<T: TryFrom<i128>>(&self) -> Vec<T> {
        self.list().iter().map(Item::number).collect()
    }

    /// Returns the refusal of a code's name, or `None` for OK and for codes that types exclude.
    pub fn refusal(&self) -> Option<Refusal> {
        Some(match self.name() {
            "OK" => return None,
            "FULL" => Refusal::Full,
            "ASLEEP" => Refusal::Asleep,
            "AWAKE" => Refusal::Awake,
            "INVALID" => Refusal::Invalid,
            "BEHIND" => Refusal::Behind,
            "RANGE" => Refusal::Range,
            "FURTHER" => Refusal::Further,
            "NEVER" => Refusal::Never,
            "BAD_WORDS" => Refusal::BadWords,
            "BAD_ROOM" => Refusal::BadRoom,
            "BAD_BITS" => Refusal::BadBits,
            "BAD_SHIFT" => Refusal::BadShift,
            "BAD_MULT" => Refusal::BadMult,
            "BAD_ADJUST" => Refusal::BadAdjust,
            "BAD_RATE" => Refusal::BadRate,
            other => panic!("no refusal is named {other}"),
        })
    }

    /// Returns the clock, or `None` for a number that no clock has.
    pub fn clock(&self) -> Option<ClockId> {
        let Item::Name(name) = self else { return None };
        CLOCKS.into_iter().find(|(known, _)| name == known).map(|(_, clock)| clock)
    }
}

pub const CLOCKS: [(&str, ClockId); 7] = [
    ("CLOCK_REALTIME", ClockId::Realtime),
    ("CLOCK_MONOTONIC", ClockId::Monotonic),
    ("CLOCK_MONOTONIC_RAW", ClockId::MonotonicRaw),
    ("CLOCK_REALTIME_COARSE", ClockId::RealtimeCoarse),
    ("CLOCK_MONOTONIC_COARSE", ClockId::MonotonicCoarse),
    ("CLOCK_BOOTTIME", ClockId::Boottime),
    ("CLOCK_TAI", ClockId::Tai),
];

/// Returns the items of a table of a file in tests/c.
pub fn table(file: &str, name: &str) -> Vec<Item> {
    let path = format!("{}/../../tests/c/{file}", env!("CARGO_MANIFEST_DIR"));
    let text = without_comments(&fs::read_to_string(path).expect("a file of tests/c"));
    let start = [format!("{name}[] = {{"), format!("{name} = {{")]
        .iter()
        .find_map(|head| text.find(head).map(|at| at + head.len()))
        .expect("a table");
    items(&mut text[start..].chars())
}

fn without_comments(text: &str) -> String {
    let mut parts = text.split("/*");
    let first = parts.next().unwrap_or_default().to_string();
    first
        + &parts.filter_map(|part| part.split_once("*/")).map(|(_, rest)| rest).collect::<String>()
}

/// Returns the items up to the closing brace.
fn items(text: &mut std::str::Chars) -> Vec<Item> {
    let (mut found, mut word) = (Vec::new(), String::new());
    loop {
        let next = text.next().expect("a closing brace");
        match next {
            '{' => {
                word.clear(); // (of `.words = {`)
                found.push(Item::List(items(text)));
            }
            ',' | '}' => {
                let named = word.rsplit('=').next().unwrap_or_default().trim();
                if !named.is_empty() {
                    found.push(item(named));
                }
                word.clear();
                if next == '}' {
                    return found;
                }
            }
            _ => word.push(next),
        }
    }
}

fn factor(text: &str) -> Option<i128> {
    text.trim().trim_end_matches('U').parse().ok()
}

fn item(word: &str) -> Item {
    let known = match word {
        "true" => Some(1),
        "false" => Some(0),
        "INT64_MIN" => Some(i128::from(i64::MIN)),
        "INT64_MAX" => Some(i128::from(i64::MAX)),
        "UINT32_MAX" => Some(i128::from(u32::MAX)),
        "UINT64_MAX" => Some(i128::from(u64::MAX)),
        _ => word.split('*').map(factor).product(),
    };
    match known {
        Some(number) => Item::Number(number),
        None => Item::Name(word.trim_start_matches("TKC_").to_string()),
    }
}

/// Returns a row's command, or `None` for a number that no command has.
pub fn command(word: &Item, number: i64, nsec: u32) -> Option<Command> {
    let Item::Name(name) = word else { return None };
    let time = Timespec { sec: number, nsec };
    Some(match name.as_str() {
        "CMD_UPDATE" => Command::Update,
        "CMD_SET_TIME" => Command::SetTime(time),
        "CMD_STEP" => Command::Step(time),
        "CMD_FREQ" => Command::Freq(number),
        "CMD_TICK" => Command::Tick(number),
        "CMD_TAI_OFFSET" => Command::Tai(number),
        "CMD_SUSPEND" => Command::Suspend,
        "CMD_RESUME" => Command::Resume(time),
        "CMD_LEAP" => Command::Leap { by: number, tai: nsec },
        other => panic!("no command is named {other}"),
    })
}

/// Returns the refusal of a call, or `None` if it succeeded.
pub fn of<T>(made: &Result<T, Refusal>) -> Option<Refusal> {
    made.as_ref().err().copied()
}

fn words_of(numbers: &[u64]) -> [u64; WORDS] {
    numbers.try_into().expect("ten words")
}

/// Returns the words that a constant of tests/c lists.
pub fn stored(file: &str, name: &str) -> ClockWords {
    let items = table(file, name);
    let words = words_of(&items[0].numbers::<u64>());
    ClockWords { words, frequency: items[1].number(), tick: items[2].number() }
}

pub const START: Timespec = Timespec { sec: 1_700_000_000, nsec: 0 };

pub fn nanosecond_counter() -> Counter {
    Counter::new(32, 16_777_216, 24).unwrap()
}

pub fn opened() -> Clock {
    Clock::open(&nanosecond_counter(), 0, START).unwrap()
}

pub fn opened_wide() -> Clock {
    Clock::open(&Counter::new(64, 4_194_304, 0).unwrap(), 0, START).unwrap()
}

/// Returns the clocks that `commanded` of tests/c/worked_rows.c makes.
pub fn commanded() -> Clock {
    let mut clock = opened();
    for row in table("worked_rows.c", "commands") {
        let row = row.list();
        let command = command(&row[1], row[2].number(), row[3].number()).unwrap();
        clock.apply(row[0].number(), command).unwrap();
    }
    clock
}

/// Returns the number of random calls of a test: `TKCORE_CALLS`, but at least 100,000.
pub fn calls() -> u64 {
    let asked = env::var("TKCORE_CALLS").map_or(0, |text| text.parse().expect("a number"));
    asked.max(100_000)
}

pub fn some_command(random: &mut Random) -> Command {
    match random.below(9) {
        0 => Command::Update,
        1 => Command::SetTime(random.time()),
        2 => Command::Step(random.time()),
        3 => Command::Freq(random.some() as i64),
        4 => Command::Tick(random.some() as i64),
        5 => Command::Tai(random.some() as i64),
        6 => Command::Suspend,
        7 => Command::Leap { by: random.below(4) as i64 - 2, tai: random.some() as u32 },
        _ => Command::Resume(random.time()),
    }
}

/// Random numbers, which are often next to a power of two.
pub struct Random(pub u64);

impl Random {
    pub fn any(&mut self) -> u64 {
        self.0 ^= self.0 << 13;
        self.0 ^= self.0 >> 7;
        self.0 ^= self.0 << 17;
        self.0
    }

    pub fn below(&mut self, end: u64) -> u64 {
        self.any() % end
    }

    pub fn some(&mut self) -> u64 {
        let power = 1 << self.below(64);
        match self.below(6) {
            0 => self.any(),
            1 => self.below(1000),
            2 => 0u64.wrapping_sub(self.below(1000)),
            3 => self.any() >> self.below(64),
            _ => u64::wrapping_add(power - 1, self.below(3)),
        }
    }

    pub fn time(&mut self) -> Timespec {
        Timespec { sec: self.some() as i64, nsec: self.some() as u32 }
    }

    pub fn clock(&mut self) -> ClockId {
        CLOCKS[self.below(7) as usize].1
    }
}
