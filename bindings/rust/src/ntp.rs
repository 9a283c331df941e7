// SPDX-License-Identifier: MIT OR Apache-2.0

use core::fmt;

use crate::{sys, Command, Counter, OutOfRange, Refusal, Snapshot, Timespec, Unsteered};

/// The bits of a request's `modes` (`ADJ_OFFSET` .. of adjtimex(2)).
pub mod mode {
    /// `offset` is given.
    pub const OFFSET: u32 = 0x0001;
    /// `freq` is given.
    pub const FREQUENCY: u32 = 0x0002;
    /// `maxerror` is given.
    pub const MAXERROR: u32 = 0x0004;
    /// `esterror` is given.
    pub const ESTERROR: u32 = 0x0008;
    /// `status` is given.
    pub const STATUS: u32 = 0x0010;
    /// `constant` is the time constant.
    pub const TIMECONST: u32 = 0x0020;
    /// `constant` is the TAI offset, in seconds.
    pub const TAI: u32 = 0x0080;
    /// REALTIME is stepped by `sec` and `sub`.
    pub const SETOFFSET: u32 = 0x0100;
    /// Offsets and times are in microseconds.
    pub const MICRO: u32 = 0x1000;
    /// Offsets and times are in nanoseconds.
    pub const NANO: u32 = 0x2000;
    /// `tick` is given.
    pub const TICK: u32 = 0x4000;
    /// The request is the call adjtime, together with `OFFSET`; with `NANO` it only reads.
    pub const ADJTIME: u32 = 0x8000;
}

/// The bits of a status (`STA_PLL` .. of adjtimex(2)).
pub mod status {
    /// Offsets steer the clock.
    pub const PLL: u32 = 0x0001;
    /// Offsets that come at least 256 s after the last one steer by the FLL too.
    pub const FLL: u32 = 0x0008;
    /// A second is inserted at the end of the day.
    pub const INS: u32 = 0x0010;
    /// The last second of the day is deleted.
    pub const DEL: u32 = 0x0020;
    /// The clock is not synchronized.
    pub const UNSYNC: u32 = 0x0040;
    /// Offsets leave the frequency as it is.
    pub const FREQHOLD: u32 = 0x0080;
    /// The clock's hardware is at fault.
    pub const CLOCKERR: u32 = 0x1000;
    /// Offsets and times are in nanoseconds.
    pub const NANO: u32 = 0x2000;
    /// The last offset steered by the FLL.
    pub const MODE: u32 = 0x4000;
}

/// A request to steer clocks, or the fields of its reply (`struct timex` of adjtimex(2)).
///
/// `modes` says which of the other fields of a request are given. A request may have any numbers.
#[derive(Clone, Copy, Debug, Default, PartialEq, Eq, Hash)]
pub struct Timex {
    /// The bits of [`mode`].
    pub modes: u32,
    /// The offset between the clock and its reference, in ns or us. In a reply: the phase still to
    /// give.
    pub offset: i64,
    /// The frequency, in 2^-16 ppm.
    pub freq: i64,
    /// The greatest error, in us.
    pub maxerror: i64,
    /// The estimated error, in us.
    pub esterror: i64,
    /// The bits of [`status`].
    pub status: u32,
    /// The time constant of the PLL, or the TAI offset in seconds.
    pub constant: i64,
    /// The tick, in us.
    pub tick: i64,
    /// The seconds of a request's step, or of REALTIME in a reply.
    pub sec: i64,
    /// The part of a second after `sec`, in ns or us.
    pub sub: i64,
}

/// The state of a steered clock: the result of adjtimex(2).
#[derive(Clone, Copy, Debug, PartialEq, Eq, Hash)]
pub enum TimeState {
    /// No leap second is announced.
    Ok,
    /// A second will be inserted at the end of the day.
    Ins,
    /// The last second of the day will be deleted.
    Del,
    /// The inserted second is in progress.
    Oop,
    /// The leap second is over, and the status still asks for it.
    Wait,
    /// The clock is not synchronized, or its hardware is at fault.
    Error,
}

impl TimeState {
    pub(crate) fn of_number(number: u32) -> TimeState {
        match number {
            0 => TimeState::Ok,
            1 => TimeState::Ins,
            2 => TimeState::Del,
            3 => TimeState::Oop,
            4 => TimeState::Wait,
            _ => TimeState::Error,
        }
    }
}

/// The reply to a request.
#[derive(Clone, Copy, Debug, PartialEq, Eq, Hash)]
pub struct Reply {
    /// The clock's state.
    pub state: TimeState,
    /// TAI minus REALTIME, in seconds.
    pub tai: u32,
    /// The other fields. `modes` is the request's, and the time is REALTIME's.
    pub timex: Timex,
}

/// The number of 64-bit words that represent steered clocks with their counter.
pub const NTP_SAVED_WORDS: usize = 33;

/// The running clocks of a counter, steered by a discipline as the kernel's are by adjtimex(2).
///
/// Every call with a reading first lets the seconds of REALTIME up to this reading begin, each at
/// its own reading, with its leap second and its rate. So calling often or seldom leaves the same
/// clocks. [`Snapshot::front`](crate::Snapshot::front) counts each command that the clocks accept,
/// those of the discipline too.
///
/// ```
/// use tkcore::{mode, status, Counter, Refusal, SteeredClock, TimeState, Timespec, Timex};
///
/// let counter = Counter::from_hz(64, 1_000_000_000, 600)?;
/// let start = Timespec { sec: 1_700_000_000, nsec: 0 };
/// let mut clock = SteeredClock::open(&counter, 0, start, 250)?;
/// let reply = clock.adjtimex(0, &Timex {
///     modes: mode::OFFSET | mode::STATUS | mode::TIMECONST | mode::MAXERROR | mode::NANO,
///     offset: 100_000_000,
///     status: status::PLL,
///     constant: 6,
///     ..Timex::default()
/// })?;
/// assert_eq!(reply.state, TimeState::Ok);
/// let later = clock.adjtimex(1_500_000_000, &Timex::default())?;
/// assert_eq!(later.timex.offset, 99_609_375);
/// # Ok::<(), Refusal>(())
/// ```
#[derive(Clone)]
pub struct SteeredClock {
    value: sys::NtpValue,
    counter: Counter,
}

impl SteeredClock {
    /// Opens clocks as [`Clock::open`](crate::Clock::open) does, with a fresh discipline. Phases
    /// are divided into `hz` parts of a second, 1 to 1024: with the kernel's HZ, replies are the
    /// kernel's to the last digit.
    ///
    /// # Errors
    ///
    /// `Invalid` if the reading, `start` or `hz` is out of its range.
    pub fn open(
        counter: &Counter,
        reading: u64,
        start: Timespec,
        hz: u32,
    ) -> Result<SteeredClock, Refusal> {
        let value = sys::ntp_open(&counter.value, reading, start, hz).map_err(Refusal::of_code)?;
        Ok(SteeredClock { value, counter: *counter })
    }

    /// Opens clocks as [`open`](SteeredClock::open) does, except that MONOTONIC, MONOTONIC_RAW and
    /// BOOTTIME are `uptime`, 0 s to below 946,080,000 s and at most `start`.
    ///
    /// # Errors
    ///
    /// In this order: those of [`Clock::open_at`](crate::Clock::open_at); `Invalid` if `hz` is out
    /// of its range.
    pub fn open_at(
        counter: &Counter,
        reading: u64,
        start: Timespec,
        uptime: Timespec,
        hz: u32,
    ) -> Result<SteeredClock, Refusal> {
        let value = sys::ntp_open_at(&counter.value, reading, start, uptime, hz)
            .map_err(Refusal::of_code)?;
        Ok(SteeredClock { value, counter: *counter })
    }

    /// Makes the steered clocks that the result of [`save`](SteeredClock::save) represents.
    ///
    /// # Errors
    ///
    /// `OtherVersion`, and then `BadWords` if no steered clocks of any counter have these words.
    pub fn load(words: &[u64; NTP_SAVED_WORDS]) -> Result<SteeredClock, Refusal> {
        sys::check_version()?;
        let value = sys::ntp_load(words).map_err(Refusal::of_code)?;
        let counter = Counter::of_snapshot(&sys::ntp_snapshot(&value));
        Ok(SteeredClock { value, counter })
    }

    /// Returns the words that represent the steered clocks with their counter, as `tkc_ntp_save` of
    /// tkcore.h lists them.
    #[must_use]
    pub fn save(&self) -> [u64; NTP_SAVED_WORDS] {
        sys::ntp_save(&self.value)
    }

    /// Lets each second of REALTIME up to a reading begin.
    ///
    /// # Errors
    ///
    /// In this order: `Asleep`; `Invalid`; `Behind`, if the reading is behind the last command's;
    /// `Range`; `Behind`, if it is behind the beginning of the present second or the last request
    /// with modes. Nothing has changed then. `Full`, if the front is above 2^63 - 4 where a second
    /// is due: the seconds before it have begun.
    #[inline]
    pub fn advance(&mut self, reading: u64) -> Result<(), Refusal> {
        sys::ntp_advance(&mut self.value, reading).map_err(Refusal::of_code)
    }

    /// Lets each second of REALTIME up to a reading begin, with all commands of the clocks at this
    /// reading (`tkc_ntp_advance_late` of tkcore.h).
    ///
    /// So MONOTONIC doesn't go back for reads up to the reading that use a former snapshot. If
    /// others read snapshots, make this call before each other call, at the same reading.
    ///
    /// # Errors
    ///
    /// The errors of [`advance`](SteeredClock::advance).
    ///
    /// ```
    /// # use tkcore::{mode, status, ClockId, Counter, Refusal, SteeredClock, Timespec, Timex};
    /// # let counter = Counter::from_hz(64, 1_000_000_000, 600)?;
    /// # let mut clock = SteeredClock::open(&counter, 0, Timespec::default(), 250)?;
    /// # let offset = Timex { offset: -100_000, status: status::PLL, ..Timex::default() };
    /// # let modes = mode::OFFSET | mode::STATUS;
    /// # clock.adjtimex(0, &Timex { modes, ..offset }).expect("a reply");
    /// let (former, reading) = (clock.snapshot(), 1_500_000_000);
    /// clock.advance_late(reading)?;
    /// let now = clock.snapshot().get(ClockId::Monotonic, reading)?;
    /// assert_eq!(now, former.get(ClockId::Monotonic, reading)?);
    /// # Ok::<(), Refusal>(())
    /// ```
    #[inline]
    pub fn advance_late(&mut self, reading: u64) -> Result<(), Refusal> {
        sys::ntp_advance_late(&mut self.value, reading).map_err(Refusal::of_code)
    }

    /// Advances, and applies a command. `Freq` and `Tick` are requests to the discipline, and
    /// `SetTime` and `Step` clear it.
    ///
    /// # Errors
    ///
    /// `Invalid` for a tick that is out of its range; the errors of `advance`, except for `Resume`;
    /// `Full`, if the front is above 2^63 - 4 then, or above 2^63 - 7 for a frequency or a tick;
    /// then the errors of [`Clock::apply`](crate::Clock::apply), and the clocks have only advanced.
    #[inline]
    pub fn apply(&mut self, reading: u64, command: Command) -> Result<(), Refusal> {
        sys::ntp_apply(&mut self.value, reading, command.arguments()).map_err(Refusal::of_code)
    }

    /// Advances, and lets the clocks go on over another counter, starting at its reading `first`.
    /// `reading` is a reading of the present counter; take both at the same moment.
    ///
    /// Every clock keeps its time. The discipline stays, and what the clocks lag behind is carried
    /// over. While the clocks are asleep, no second begins, they aren't brought forward to
    /// `reading`, which may then be behind, and they stay asleep. All later readings are of the new
    /// counter. A `Snapshot` keeps its own. The change adds 1 to the front.
    ///
    /// # Errors
    ///
    /// In this order: `Invalid` if `first` is above 2^bits - 1 of `counter`; the errors of
    /// [`advance`](SteeredClock::advance), or, while the clocks are asleep, only `Invalid` for
    /// `reading`. Nothing has changed then, except at `Full`. `Full`, if the front is 2^63 - 1 or
    /// more, and `Range`, if MONOTONIC_RAW would be too far ahead of MONOTONIC for the new counter:
    /// the clocks have only advanced.
    ///
    /// ```
    /// # use tkcore::{ClockId, Counter, Refusal, SteeredClock, Timespec};
    /// # let counter = Counter::from_hz(64, 1_000_000_000, 600)?;
    /// # let mut clock = SteeredClock::open(&counter, 0, Timespec::default(), 250)?;
    /// let slower = Counter::from_hz(32, 1_000_000, 600)?;
    /// clock.change_counter(1_500_000_000, &slower, 7)?;
    /// assert_eq!(clock.counter(), &slower);
    /// assert_eq!(clock.next_second(), Ok(500_007));
    /// let now = clock.snapshot().get(ClockId::Monotonic, 500_007)?;
    /// assert_eq!(now, Timespec { sec: 2, nsec: 0 });
    /// # Ok::<(), Refusal>(())
    /// ```
    pub fn change_counter(
        &mut self,
        reading: u64,
        counter: &Counter,
        first: u64,
    ) -> Result<(), Refusal> {
        sys::ntp_change_counter(&mut self.value, reading, &counter.value, first)
            .map_err(Refusal::of_code)?;
        self.counter = *counter;
        Ok(())
    }

    /// Advances, does what a request asks for, and returns the reply (adjtimex(2)).
    ///
    /// # Errors
    ///
    /// In this order: `Invalid` for a request that is faulty; the errors of `advance`; `Full`, if
    /// the front is above 2^63 - 7 then; the errors of the step of [`mode::SETOFFSET`], and the clocks
    /// have only advanced; then `Range` for REALTIME or the TAI offset, and the step was made.
    /// `Invalid` comes with the number that is out of its range: of a field, of the reading, or of
    /// the step in ns.
    ///
    /// ```
    /// # use tkcore::{mode, Counter, Refusal, SteeredClock, Timespec, Timex};
    /// # let counter = Counter::from_hz(64, 1_000_000_000, 600)?;
    /// # let mut clock = SteeredClock::open(&counter, 0, Timespec::default(), 250)?;
    /// let faulty = Timex { modes: mode::TICK, tick: 8_999, ..Timex::default() };
    /// let error = clock.adjtimex(0, &faulty).unwrap_err();
    /// assert_eq!(error.refusal, Refusal::Invalid);
    /// assert_eq!(error.to_string(), "tick is 8999 instead of 9000 to 11000");
    /// # Ok::<(), Refusal>(())
    /// ```
    pub fn adjtimex(&mut self, reading: u64, request: &Timex) -> Result<Reply, Unsteered> {
        sys::adjtimex(&mut self.value, reading, request)
            .map_err(|code| self.unsteered(code, reading, request))
    }

    #[cold]
    fn unsteered(&self, code: u32, reading: u64, request: &Timex) -> Unsteered {
        let refusal = Refusal::of_code(code);
        let number = match refusal {
            Refusal::Invalid => request.invalid_number(&self.snapshot(), reading),
            Refusal::Behind => Some(self.behind(reading)),
            _ => None,
        };
        Unsteered { refusal, number }
    }

    /// Returns a reading that is behind, with the range of those that aren't.
    fn behind(&self, reading: u64) -> OutOfRange {
        let (last, mask) = (self.snapshot().words()[1], self.counter.max_reading());
        let at = |gap: u64| last.wrapping_add(gap) & mask;
        let is_behind = |gap: u64| self.clone().advance(at(gap)) == Err(Refusal::Behind);
        let (mut least, mut ahead) = (0, 0);
        while ahead < mask / 2 && is_behind(ahead) {
            (least, ahead) = (ahead + 1, (2 * ahead + 1).min(mask / 2));
        }
        while least < ahead {
            let middle = least + (ahead - least) / 2;
            (least, ahead) = if is_behind(middle) { (middle + 1, ahead) } else { (least, middle) };
        }
        let [value, least, most] = [reading, at(least), at(mask / 2)].map(i128::from);
        OutOfRange { name: "reading", value, least, most }
    }

    /// Returns the reading at which the next second of REALTIME begins, to set a timer to.
    ///
    /// # Errors
    ///
    /// `Further` or `Never` if REALTIME doesn't reach it within half of the counter's range.
    pub fn next_second(&self) -> Result<u64, Refusal> {
        sys::ntp_next_second(&self.value).map_err(Refusal::of_code)
    }

    /// Returns the second of REALTIME, since 1970, whose beginning is the coming leap second, and
    /// what REALTIME moves by there: -1 s if a second is inserted, 1 s if one is deleted.
    ///
    /// `None` means that no leap is coming: none is planned, its status bit was cleared, or a set, a
    /// step or a [`Resume`](Command::Resume) jumped over it. A leap is planned as the first second
    /// begins after its bit was set.
    #[must_use]
    pub fn coming_leap(&self) -> Option<(u64, i64)> {
        let (second, by) = sys::ntp_leap(&self.value);
        (by != 0).then_some((second, by))
    }

    /// Returns the bits of the [`status`]: the field of a reply.
    #[must_use]
    pub fn status(&self) -> u32 {
        sys::ntp_status(&self.value)
    }

    /// Returns the frequency of the discipline, in 2^-16 ppm: the field `freq` of a reply.
    #[must_use]
    pub fn frequency(&self) -> i64 {
        sys::ntp_frequency(&self.value)
    }

    /// Returns the tick of the discipline, in us: the field of a reply.
    #[must_use]
    pub fn tick(&self) -> i64 {
        sys::ntp_tick(&self.value)
    }

    /// Returns the counter of the clocks.
    #[must_use]
    pub fn counter(&self) -> &Counter {
        &self.counter
    }

    /// Returns a snapshot of the clocks, for reads up to the beginning of the next second.
    #[inline]
    #[must_use]
    pub fn snapshot(&self) -> Snapshot {
        Snapshot { value: sys::ntp_snapshot(&self.value), counter: self.counter }
    }
}

impl fmt::Debug for SteeredClock {
    fn fmt(&self, out: &mut fmt::Formatter<'_>) -> fmt::Result {
        out.debug_struct("SteeredClock").field("snapshot", &self.snapshot()).finish()
    }
}
