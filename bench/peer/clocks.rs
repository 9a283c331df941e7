//! The clocks: products of 128 bits, and no division if less than a second has passed.

pub const NANOS: u64 = 1_000_000_000;
const LIMIT: u64 = 9_223_372_036 * NANOS;
const MONOTONIC_SEC_LIMIT: u64 = 946_080_000;
const SETTABLE_SEC_LIMIT: i64 = 8_277_292_036;

/// A cycle lasts `mult / 2^shift` ns.
#[derive(Clone, Copy)]
pub struct Desc {
    pub bits: u32,
    pub mult: u32,
    pub shift: u32,
}

impl Desc {
    pub fn new(bits: u32, mult: u32, shift: u32) -> Option<Desc> {
        let is_described = (8..=64).contains(&bits)
            && shift <= 32
            && mult >= 256
            && fastest(mult) <= u64::from(u32::MAX);
        is_described.then_some(Desc { bits, mult, shift })
    }

    /// Picks mult and shift as the kernel's `clocks_calc_mult_shift` does.
    pub fn from_hz(bits: u32, hz: u32, maxsec: u32) -> Option<Desc> {
        if !(8..=64).contains(&bits) || hz == 0 || !(1..=600).contains(&maxsec) {
            return None;
        }
        let room = (u64::from(maxsec) * u64::from(hz)).leading_zeros().min(32);
        let rounded = |shift: u32| ((NANOS << shift) + u64::from(hz / 2)) / u64::from(hz);
        let shift = (1..=32).rev().find(|shift| rounded(*shift) >> room == 0)?;
        let mult = rounded(shift) as u32;
        if fastest(mult) > u64::from(u32::MAX) {
            return Some(Desc {
                bits,
                mult: mult / 2,
                shift: shift - 1,
            });
        }
        Some(Desc { bits, mult, shift })
    }

    pub fn mask(&self) -> u64 {
        u64::MAX >> (64 - self.bits)
    }

    pub fn half(&self) -> u64 {
        self.mask() >> 1
    }

    fn gap(&self, last: u64, now: u64) -> u64 {
        now.wrapping_sub(last) & self.mask()
    }

    fn second(&self) -> u64 {
        NANOS << self.shift
    }

    fn mult_at(&self, frequency: i64, tick: i64) -> u32 {
        let rate = tick * 6_553_600 + frequency.clamp(-32_768_000, 32_768_000);
        (u128::from(self.mult) * rate as u128 / 65_536_000_000) as u32
    }
}

fn fastest(mult: u32) -> u64 {
    u64::from(mult) + u64::from(mult) * 11 / 100
}

#[derive(Clone, Copy, PartialEq)]
pub enum ClockId {
    Realtime,
    Monotonic,
    Boottime,
    Tai,
    RealtimeCoarse,
    MonotonicCoarse,
    MonotonicRaw,
}

impl ClockId {
    fn limit(self) -> u64 {
        match self {
            ClockId::Monotonic | ClockId::MonotonicCoarse => MONOTONIC_SEC_LIMIT * NANOS,
            _ => LIMIT,
        }
    }
}

#[derive(Clone, Copy)]
pub struct Timespec {
    pub sec: i64,
    pub nsec: u32,
}

impl Timespec {
    fn nanos(self) -> u64 {
        self.sec as u64 * NANOS + u64::from(self.nsec)
    }

    fn is_settable(self) -> bool {
        (0..SETTABLE_SEC_LIMIT).contains(&self.sec) && u64::from(self.nsec) < NANOS
    }

    fn is_suspension(self) -> bool {
        (0..(LIMIT / NANOS) as i64).contains(&self.sec) && u64::from(self.nsec) < NANOS
    }
}

#[derive(Clone, Copy)]
pub enum Command {
    Update,
    SetTime(Timespec),
    Step(Timespec),
    Freq(i64),
    Tick(i64),
    Tai(i64),
    Suspend,
    Resume(Timespec),
}

impl Command {
    fn is_well_formed(self) -> bool {
        match self {
            Command::SetTime(time) => time.is_settable(),
            Command::Step(by) => u64::from(by.nsec) < NANOS,
            Command::Tick(tick) => (9_000..=11_000).contains(&tick),
            Command::Tai(seconds) => (0..=100_000).contains(&seconds),
            Command::Resume(away) => away.is_suspension(),
            Command::Update | Command::Freq(_) | Command::Suspend => true,
        }
    }

    /// The length of a suspension, in ns.
    fn away(self) -> u64 {
        match self {
            Command::Resume(away) => away.nanos(),
            _ => 0,
        }
    }

    /// The offset of TAI that the command sets, in seconds.
    fn tai(self) -> Option<u32> {
        match self {
            Command::Tai(seconds) => Some(seconds as u32),
            _ => None,
        }
    }

    fn sets_real(self) -> bool {
        matches!(self, Command::SetTime(_) | Command::Step(_))
    }
}

#[derive(Clone, Copy, Debug, PartialEq)]
pub enum Refusal {
    Full,
    Asleep,
    Awake,
    Invalid,
    Behind,
    Range,
}

/// Whole seconds, and the rest below a second in `2^-shift` ns.
#[derive(Clone, Copy)]
struct Amount {
    sec: u64,
    frac: u64,
}

impl Amount {
    fn grown(self, desc: &Desc, cycles: u64, mult: u32) -> Option<Amount> {
        let units = u128::from(cycles) * u128::from(mult) + u128::from(self.frac);
        let second = desc.second();
        let (seconds, frac) = match u64::try_from(units) {
            Ok(units) if units < second => (0, units),
            Ok(units) => (units / second, units % second),
            Err(_) => {
                let seconds = u64::try_from(units / u128::from(second)).ok()?;
                (seconds, (units % u128::from(second)) as u64)
            }
        };
        let sec = self.sec.checked_add(seconds)?;
        (sec < LIMIT / NANOS).then_some(Amount { sec, frac })
    }

    fn nanos(self, desc: &Desc) -> u64 {
        self.sec * NANOS + (self.frac >> desc.shift)
    }

    fn nanos_after(self, desc: &Desc, cycles: u64, mult: u32) -> u128 {
        let units = u128::from(cycles) * u128::from(mult) + u128::from(self.frac);
        u128::from(self.sec * NANOS) + (units >> desc.shift)
    }
}

/// The numbers that a read of the clocks needs.
#[derive(Clone, Copy)]
pub struct Base {
    pub desc: Desc,
    pub last: u64,
    mult: u32,
    monotonic: Amount,
    raw: Amount,
    real_offset: u64,
    boot_offset: u64,
    tai: u32,
    asleep: bool,
}

impl Base {
    fn cycles_since(&self, reading: u64) -> u64 {
        let gap = self.desc.gap(self.last, reading);
        if self.asleep || gap > self.desc.half() {
            0
        } else {
            gap
        }
    }

    fn monotonic_at(&self, reading: u64) -> u128 {
        let cycles = self.cycles_since(reading);
        self.monotonic.nanos_after(&self.desc, cycles, self.mult)
    }

    /// MONOTONIC at the last command, in ns.
    pub fn monotonic_now(&self) -> u64 {
        self.monotonic.nanos(&self.desc)
    }

    /// A clock at a reading, in ns.
    pub fn nanos(&self, clock: ClockId, reading: u64) -> Result<u64, Refusal> {
        if reading > self.desc.mask() {
            return Err(Refusal::Invalid);
        }
        let real = u128::from(self.real_offset);
        let tai = u128::from(u64::from(self.tai) * NANOS);
        let nanos = match clock {
            ClockId::Monotonic => self.monotonic_at(reading),
            ClockId::Realtime => self.monotonic_at(reading) + real,
            ClockId::Boottime => self.monotonic_at(reading) + u128::from(self.boot_offset),
            ClockId::Tai => self.monotonic_at(reading) + real + tai,
            ClockId::RealtimeCoarse => u128::from(self.monotonic_now()) + real,
            ClockId::MonotonicCoarse => u128::from(self.monotonic_now()),
            ClockId::MonotonicRaw => {
                let cycles = self.cycles_since(reading);
                self.raw.nanos_after(&self.desc, cycles, self.desc.mult)
            }
        };
        if nanos >= u128::from(clock.limit()) {
            return Err(Refusal::Range);
        }
        Ok(nanos as u64)
    }

    pub fn get(&self, clock: ClockId, reading: u64) -> Result<Timespec, Refusal> {
        let nanos = self.nanos(clock, reading)?;
        Ok(Timespec {
            sec: (nanos / NANOS) as i64,
            nsec: (nanos % NANOS) as u32,
        })
    }

    /// MONOTONIC and MONOTONIC_RAW at a later reading.
    fn grown(&self, reading: u64) -> Option<(Amount, Amount)> {
        let cycles = self.desc.gap(self.last, reading);
        let monotonic = self.monotonic.grown(&self.desc, cycles, self.mult)?;
        let raw = self.raw.grown(&self.desc, cycles, self.desc.mult)?;
        (monotonic.sec < MONOTONIC_SEC_LIMIT).then_some((monotonic, raw))
    }

    pub fn words(&self, front: u64) -> [u64; 10] {
        [
            front,
            self.last,
            u64::from(self.mult),
            self.monotonic.frac,
            self.monotonic.sec,
            self.real_offset,
            self.boot_offset,
            u64::from(self.tai) * 2 + u64::from(self.asleep),
            self.raw.frac,
            self.raw.sec,
        ]
    }

    pub fn frac(&self) -> u64 {
        self.monotonic.frac
    }
}

/// The running clocks.
#[derive(Clone, Copy)]
pub struct Clock {
    pub base: Base,
    frequency: i64,
    tick: i64,
}

impl Clock {
    pub fn open(desc: Desc, reading: u64, real: Timespec) -> Option<Clock> {
        if reading > desc.mask() || !real.is_settable() {
            return None;
        }
        let zero = Amount { sec: 0, frac: 0 };
        let base = Base {
            desc,
            last: reading,
            mult: desc.mult,
            monotonic: zero,
            raw: zero,
            real_offset: real.nanos(),
            boot_offset: 0,
            tai: 0,
            asleep: false,
        };
        Some(Clock {
            base,
            frequency: 0,
            tick: 10_000,
        })
    }

    pub fn apply(&mut self, reading: u64, cmd: Command) -> Result<(), Refusal> {
        let is_resume = matches!(cmd, Command::Resume(_));
        if self.base.asleep && !is_resume {
            return Err(Refusal::Asleep);
        }
        if !self.base.asleep && is_resume {
            return Err(Refusal::Awake);
        }
        if reading > self.base.desc.mask() || !cmd.is_well_formed() {
            return Err(Refusal::Invalid);
        }
        if !is_resume && self.base.desc.gap(self.base.last, reading) > self.base.desc.half() {
            return Err(Refusal::Behind);
        }
        self.act(reading, cmd)
    }

    /// Applies a command whose reading and numbers are valid. It writes nothing before all tests
    /// have passed.
    fn act(&mut self, reading: u64, cmd: Command) -> Result<(), Refusal> {
        let base = &mut self.base;
        let (monotonic, raw) = match cmd {
            Command::Resume(_) => (base.monotonic, base.raw),
            _ => base.grown(reading).ok_or(Refusal::Range)?,
        };
        let now = monotonic.nanos(&base.desc);
        let tai = cmd.tai().unwrap_or(base.tai);
        let away = cmd.away();
        let boot_offset = base.boot_offset.saturating_add(away);
        let mut real_offset = base.real_offset.saturating_add(away);
        let tai_offset = real_offset.saturating_add(u64::from(tai) * NANOS);
        if now.saturating_add(boot_offset) >= LIMIT
            || (!cmd.sets_real() && now.saturating_add(tai_offset) >= LIMIT)
        {
            return Err(Refusal::Range);
        }
        match cmd {
            Command::SetTime(time) => {
                real_offset = time.nanos().checked_sub(now).ok_or(Refusal::Invalid)?;
            }
            Command::Step(by) => {
                real_offset = stepped(now, real_offset, by).ok_or(Refusal::Invalid)?;
            }
            Command::Freq(frequency) => self.frequency = frequency,
            Command::Tick(tick) => self.tick = tick,
            Command::Suspend | Command::Resume(_) => base.asleep = !base.asleep,
            Command::Update | Command::Tai(_) => (),
        }
        if matches!(cmd, Command::Freq(_) | Command::Tick(_)) {
            base.mult = base.desc.mult_at(self.frequency, self.tick);
        }
        base.last = reading;
        base.monotonic = monotonic;
        base.raw = raw;
        base.real_offset = real_offset;
        base.boot_offset = boot_offset;
        base.tai = tai;
        Ok(())
    }
}

/// REALTIME less MONOTONIC after a step, in ns, if the result is allowed.
fn stepped(now: u64, real_offset: u64, by: Timespec) -> Option<u64> {
    let moved = i128::from(by.sec) * i128::from(NANOS) + i128::from(by.nsec);
    let real = i128::from(now) + i128::from(real_offset) + moved;
    let settable = i128::from(now)..i128::from(SETTABLE_SEC_LIMIT) * i128::from(NANOS);
    settable
        .contains(&real)
        .then_some((real - i128::from(now)) as u64)
}
