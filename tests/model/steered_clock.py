"""The clocks of a counter, steered by a discipline, in unbounded integers: what the calls of `SteeredClock`
in crates/tk_ntp return, and `tkc_ntp_..` and `tkc_adjtimex` of include/tkcore.h. It shares no code with them.

The discipline is that of ntp.py. Here it gets a clock: the seconds of REALTIME begin at readings of the
counter, and the length of each second becomes a tick and a frequency.
"""
from copy import copy
from dataclasses import dataclass, replace

from model import LEAST_FREQUENCY, LEAST_TICK, NANOS, TAI_LIMIT, Counter, is_bad_setting, is_settable, limit, value_of
from ntp import (ADJTIME, ERROR_LIMIT, FREQUENCY, MAX_FREQUENCY, NANO, OFFSET, ONE, PPM16, READONLY, SETOFFSET, TAI,
                 TICK, Discipline, Timex, clamp)
from pps import SIGNAL_BITS, take

NOMINAL = NANOS * ONE                               # the length of a nominal second
TICK_RATE = 6_553_600                               # a tick of 1 us, in 2^-16 ppm
FREQUENCY_LIMIT = 32_768_000
SETTING = "set", "step", "leap"                     # the commands that set or step REALTIME
RATES = 9_000 * TICK_RATE - FREQUENCY_LIMIT, 11_000 * TICK_RATE + FREQUENCY_LIMIT
STATES = "Ok", "Ins", "Del", "Oop", "Wait"          # of a leap second, by their numbers
LEAST_LAG = -2**124                                 # the lag whose two words are 0


class Refused(Exception):
    """Why a call is refused."""


@dataclass
class Clock:
    """The running clocks; amounts are in 2^-shift ns."""
    counter: Counter
    last: int
    real_offset: int
    amount: int = 0
    raw_amount: int = 0
    boot_offset: int = 0
    tai: int = 0
    frequency: int = 0
    tick: int = 10_000
    asleep: bool = False

    def mult(self):
        return self.counter.multiplier(self.frequency, self.tick)

    def cycles(self, reading):
        """The cycles since the last command: none while asleep, or at a reading behind it."""
        return 0 if self.asleep or self.counter.is_behind(self.last, reading) else self.counter.gap(self.last, reading)

    def value(self, clock, reading):
        monotonic = (self.amount + self.cycles(reading) * self.mult()) >> self.counter.shift
        offsets = {"monotonic": 0, "realtime": self.real_offset, "boottime": self.boot_offset,
                   "tai": self.real_offset + self.tai * NANOS}
        return monotonic + offsets[clock]

    def reading_of(self, time):
        """The first reading, starting at the last one, at which REALTIME is `time` or later, or None."""
        missing = ((time - self.real_offset) << self.counter.shift) - self.amount
        cycles = max(0, -(-missing // self.mult()))
        if self.asleep and missing > 0 or cycles > (2**self.counter.bits - 1) // 2:
            return None
        reading = (self.last + cycles) % 2**self.counter.bits
        return reading if self.value("realtime", reading) < limit("realtime") else None

    def refusal(self, reading, word, fields):
        """Why a command is refused, or None."""
        if self.asleep != (word == "resume"):
            return "asleep" if self.asleep else "awake"
        if reading >= 2**self.counter.bits or is_bad_setting(word, fields):
            return "invalid"
        if word != "resume" and self.counter.is_behind(self.last, reading):
            return "behind"
        after = replace(self)
        after.do(reading, word, fields)
        tested = ["monotonic", "boottime"] + (["realtime", "tai"] if word not in SETTING else [])
        if any(after.value(clock, reading) >= limit(clock) for clock in tested):
            return "range"
        real = after.value("realtime", reading)
        if word in SETTING and (real < after.value("monotonic", reading) or not is_settable(*divmod(real, NANOS))):
            return "invalid"
        return None

    def do(self, reading, word, fields):
        value, cycles = value_of(word, fields), 0 if word == "resume" else self.cycles(reading)
        self.amount += cycles * self.mult()
        self.raw_amount += cycles * self.counter.mult
        self.last = reading
        if word == "set":
            self.real_offset = value - (self.amount >> self.counter.shift)
        elif word == "step":
            self.real_offset += value
        elif word == "leap":
            self.real_offset, self.tai = self.real_offset + value[0] * NANOS, value[1]
        elif word == "resume":
            self.real_offset, self.boot_offset, self.asleep = self.real_offset + value, self.boot_offset + value, False
        elif word == "suspend":
            self.asleep = True
        elif word != "update":
            setattr(self, {"freq": "frequency"}.get(word, word), value)

    def over(self, reading, counter, first):
        """The clocks over another counter, to whose reading `first` they change at `reading`."""
        here = replace(self)
        if not self.asleep:
            here.do(reading, "update", ())
        amount, raw = (it << counter.shift >> self.counter.shift for it in (here.amount, here.raw_amount))
        return replace(here, counter=counter, last=first, amount=amount, raw_amount=raw)

    def is_rated(self):
        """Whether MONOTONIC_RAW is no further ahead than the slowest rate of the counter allows."""
        return self.raw_amount * self.counter.multiplier(LEAST_FREQUENCY, LEAST_TICK) <= self.amount * self.counter.mult

    def words(self, front):
        """The ten words of the clocks' snapshot."""
        second = NANOS << self.counter.shift
        return [front, self.last, self.mult(), self.amount % second, self.amount // second, self.real_offset,
                self.boot_offset, self.tai * 2 + self.asleep, self.raw_amount % second, self.raw_amount // second]


def rate_for(length, tick):
    """The frequency and the tick that make a second this long, by the tick that was asked for."""
    rate = clamp(length // PPM16, *RATES)
    if abs(rate - tick * TICK_RATE) > FREQUENCY_LIMIT:
        tick = clamp((rate + TICK_RATE // 2) // TICK_RATE, 9_000, 11_000)
    return rate - tick * TICK_RATE, tick


def are_in_range(hz, _status, state, is_due, due, offset, constant, maxerror, esterror, tick, frequency, reftime,
                 _adjust, phase, high, low, following, _mark):
    """Whether these are the numbers of a discipline, in the order of `Steered.numbers`."""
    longest, gained = 500_000_000 * ONE, MAX_FREQUENCY
    return (1 <= hz <= 1024 and state < len(STATES) and (is_due == 1 or is_due == due == 0)
            and constant <= 10 and maxerror <= ERROR_LIMIT and esterror <= ERROR_LIMIT and 9_000 <= tick <= 11_000
            and reftime < 2**63 and abs(offset) <= longest // hz and abs(frequency) <= gained
            and abs(phase) <= longest // hz + gained // hz and abs(high * 2**64 + low + LEAST_LAG) <= 2**123
            and following <= 9_223_372_037)


class Steered:
    """Clocks and a discipline. `last_account` is the reading that the lag was computed at, `next` the second of
    REALTIME that begins next, `front` the number of commands that the clocks have accepted, those of the discipline
    included. `signal` is a signal of a pulse per second (pps.py), if there is one."""

    def __init__(self, counter, reading, real, hz, uptime=0):
        units = uptime << counter.shift
        self.clock = Clock(counter, reading, real - uptime, amount=units, raw_amount=units)
        self.ntp, self.front, self.signal = Discipline(hz), 0, None
        self.lag, self.last_account, self.next = 0, reading, real // NANOS + 1

    def numbers(self):
        """What the discipline, the lag, the next second and the last account are kept in."""
        ntp = self.ntp
        return [ntp.hz, ntp.status, STATES.index(ntp.state), int(ntp.due is not None), ntp.due or 0, ntp.offset,
                ntp.constant, ntp.maxerror, ntp.esterror, ntp.tick, ntp.frequency, ntp.reftime, ntp.adjust,
                ntp.length - ntp.base, *divmod(self.lag - LEAST_LAG, 2**64), self.next, self.last_account]

    def saved(self):
        """The 33 words of the clocks with their counter; numbers with a sign are in two's complement."""
        clock = self.clock
        counter = [clock.counter.bits, clock.counter.mult, clock.counter.shift]
        words = clock.words(self.front) + counter + [clock.frequency, clock.tick] + self.numbers()
        return [number % 2**64 for number in words]

    def coming_leap(self):
        """What REALTIME leaps by as one of the seconds from the next one on begins, and that second; or 0 and 0."""
        due = self.ntp.due
        by = copy(self.ntp).leap(due) if due is not None and due >= self.next else 0
        return by, due if by else 0

    def restore(self, hz, status, state, is_due, due, offset, constant, maxerror, esterror, tick, frequency, reftime,
                adjust, phase, high, low, following, last_account):
        """Continues from such numbers."""
        self.ntp = Discipline(hz)
        vars(self.ntp).update(status=status, state=STATES[state], due=due if is_due else None, offset=offset,
                              constant=constant, maxerror=maxerror, esterror=esterror, tick=tick, frequency=frequency,
                              reftime=reftime, adjust=adjust)
        self.ntp.update_frequency()
        self.ntp.length = self.ntp.base + phase
        self.lag, self.next, self.last_account = high * 2**64 + low + LEAST_LAG, following, last_account

    def command(self, reading, word, *fields):
        refusal = self.clock.refusal(reading, word, fields)
        if refusal:
            raise Refused(refusal)
        if word != "resume":
            self.account(reading)
        self.clock.do(reading, word, fields)
        self.front += 1

    def account(self, reading):
        """What the cycles since the last account should have added, minus what they did, is the lag's growth."""
        counter = self.clock.counter
        short = counter.mult * self.ntp.second_length() - self.clock.mult() * NOMINAL
        most = (NANOS << counter.shift) * (NOMINAL // 2)
        self.lag = clamp(self.lag + counter.gap(self.last_account, reading) * short, -most, most)
        self.last_account = reading

    def steer(self, reading):
        """Sets the rate that the present second needs, unless the multiplier is the same."""
        counter = self.clock.counter
        most = MAX_FREQUENCY + 2 * NOMINAL // counter.mult
        made_up = clamp(self.lag // (NANOS << counter.shift), -most, most)
        frequency, tick = rate_for(self.ntp.second_length() + made_up, self.ntp.tick)
        if counter.multiplier(frequency, tick) == self.clock.mult():
            return
        if tick != self.clock.tick:
            self.give(reading, "tick", tick)
        if frequency != self.clock.frequency:
            self.give(reading, "freq", frequency)

    def leap(self, reading, by):
        """Makes a leap, if the clocks take it. Returns what REALTIME leaps by, in seconds."""
        tai = self.clock.tai - by
        made = self.give(reading, "leap", by, tai) if 0 <= tai <= TAI_LIMIT else self.give(reading, "step", by, 0)
        return by if made else 0

    def give(self, reading, word, *fields):
        """Gives a command. Returns whether the clocks take it."""
        try:
            self.command(reading, word, *fields)
        except Refused:
            return False
        return True

    def due(self, reading):
        """The reading at which the next second begins, if it isn't after `reading`."""
        at = self.clock.reading_of(self.next * NANOS)
        return None if at is None or self.clock.cycles(at) > self.clock.cycles(reading) else at

    def overflow(self):
        """Lets the discipline's next second begin, and returns its leap. A signal counts the second at once."""
        leap = self.ntp.overflow(self.next)
        self.next += 1
        if self.signal and self.signal.second():
            self.ntp.status &= ~SIGNAL_BITS
        return leap

    def advance(self, reading):
        """Lets each second up to a reading begin, at the reading at which it begins."""
        self.test(reading)
        while (at := self.due(reading)) is not None:
            self.account(at)
            leap = self.overflow()
            if leap:
                self.next += self.leap(at, leap)
            self.steer(at)

    def advance_late(self, reading):
        """Lets each second up to a reading begin late: its commands are at that reading."""
        self.test(reading)
        while (at := self.due(reading)) is not None:
            self.account(self.last_account if self.clock.counter.is_behind(self.last_account, at) else at)
            leap = self.overflow()
            self.account(reading)
            if leap:
                self.next += self.leap(reading, leap)
            self.steer(reading)

    def test(self, reading):
        refusal = self.clock.refusal(reading, "update", ())
        if refusal is None and self.clock.counter.is_behind(self.last_account, reading):
            refusal = "behind"
        if refusal:
            raise Refused(refusal)

    def apply(self, reading, word, *fields):
        if word == "freq":
            self.adjtimex(reading, Timex(FREQUENCY, freq=clamp(fields[0], -FREQUENCY_LIMIT, FREQUENCY_LIMIT)))
            return
        if word == "tick":
            self.adjtimex(reading, Timex(TICK, tick=fields[0]))
            return
        if word != "resume":
            self.advance(reading)
        self.command(reading, word, *fields)
        if word in SETTING:
            self.ntp.clear()
            self.lag = 0
            if self.signal:
                self.signal.clear()
        if word in (*SETTING, "resume"):
            self.last_account, self.next = reading, self.clock.value("realtime", reading) // NANOS + 1
            self.steer(reading)

    def adjtimex(self, reading, t):
        """The fields of the reply, from the state to the TAI offset."""
        if t.is_faulty():
            raise Refused("invalid")
        self.advance(reading)
        if t.modes & SETOFFSET:
            self.apply(reading, "step", t.sec, t.sub * (1 if t.modes & NANO else 1000))
        real = self.clock.value("realtime", reading)
        if real >= limit("realtime"):
            raise Refused("range")
        sec, nsec = divmod(real, NANOS)
        offset, status = None, self.ntp.status
        if t.modes & ADJTIME:
            offset = self.ntp.adjust
            if not t.modes & READONLY:
                self.ntp.adjust = t.offset
        elif t.modes:
            if t.modes & TAI and 0 <= t.constant <= TAI_LIMIT and t.constant != self.clock.tai:
                self.command(reading, "tai", t.constant)
            self.account(reading)
            self.ntp.request(t, sec, self.clock.tai)
            if t.modes & (OFFSET | FREQUENCY | TICK):
                self.steer(reading)
        if self.signal:
            self.signal.ask(t, status)
        return self.ntp.reply(offset, sec, nsec, self.clock.tai)

    def pulse(self, reading, nsec, raw):
        """A pulse of the signal. The seconds up to its reading begin first."""
        if nsec >= NANOS or raw >= 2**63:
            raise Refused("invalid")
        self.advance(reading)
        pulse = self.signal.pulse(nsec, raw)
        if pulse.frequency is not None:
            self.account(reading)
        take(self.ntp, pulse)
        if pulse.frequency is not None:
            self.steer(reading)

    def change_counter(self, reading, counter, first):
        """Goes on over another counter: the seconds up to `reading` begin first, and the lag is carried over."""
        old, asleep = self.clock.counter, self.clock.asleep
        if first >= 2**counter.bits or asleep and reading >= 2**old.bits:
            raise Refused("invalid")
        if not asleep:
            self.advance(reading)
            if refusal := self.clock.refusal(reading, "update", ()):
                raise Refused(refusal)
        after = self.clock.over(reading, counter, first)
        if not after.is_rated():
            raise Refused("range")
        if not asleep:
            self.account(reading)
        most = (NANOS << old.shift) * (NOMINAL // 2)
        self.lag = clamp(self.lag, -most, most) << counter.shift >> old.shift
        self.clock, self.last_account = after, first
        self.front += 1

    def next_second(self):
        """The reading at which the next second of REALTIME begins, or None."""
        return self.clock.reading_of(self.next * NANOS)

    def is_next_further(self):
        """Whether REALTIME is on its way to that second at the end of the readings that are searched."""
        clock, end, time = self.clock, limit("realtime"), self.next * NANOS
        most = (2**clock.counter.bits - 1) // 2
        far = clock.value("realtime", (clock.last + most) % 2**clock.counter.bits)
        return not clock.asleep and time < end and far < time
