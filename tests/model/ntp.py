#!/usr/bin/env python3
"""Runs random orders through the program of `crates/tk_ntp_orders` and through the definitions of
the discipline in unbounded integers, and stops at the first answer that differs.

    tests/model/ntp.py PROGRAM [COUNT [SEED]]     COUNT is the number of orders, 100,000 if not given
    tests/model/ntp.py < orders                   writes the answers to these orders

The definitions are those of kernel/time/ntp.c, without the boot parameter of the tick; pps.py adds pulse
per second. The first lines of the program's source explain orders and answers.
"""
import random
import subprocess
import sys
from dataclasses import dataclass

ONE = 2**32                                         # a nanosecond, as a length
DAY = 86_400
OFFSET, FREQUENCY, MAXERROR, ESTERROR, STATUS, TIMECONST = 0x1, 0x2, 0x4, 0x8, 0x10, 0x20
TAI, SETOFFSET, MICRO, NANO, TICK, ADJTIME, READONLY = 0x80, 0x100, 0x1000, 0x2000, 0x4000, 0x8000, 0x2000
STA_PLL, STA_FLL, STA_INS, STA_DEL, STA_UNSYNC, STA_FREQHOLD = 0x1, 0x8, 0x10, 0x20, 0x40, 0x80
STA_PPSFREQ, STA_PPSTIME = 0x2, 0x4
STA_PPSSIGNAL, STA_PPSJITTER, STA_PPSWANDER, STA_PPSERROR = 0x100, 0x200, 0x400, 0x800
STA_CLOCKERR, STA_NANO, STA_MODE, STA_RONLY = 0x1000, 0x2000, 0x4000, 0xff00
ERROR_LIMIT = 16_000_000                            # us
PPM16 = 65_536_000                                  # 2^-16 ppm of a second, as a length
MAX_FREQUENCY = 500_000 * ONE
FIELDS = ("modes", "offset", "freq", "maxerror", "esterror", "status", "constant", "tick", "sec", "sub")


def clamp(number, low, high):
    return max(low, min(high, number))


def toward_zero(number, divisor):
    return abs(number) // divisor * (1 if number >= 0 else -1)


def freq_of(frequency):
    """A frequency in 2^-16 ppm (PPM_SCALE_INV)."""
    return toward_zero((frequency >> 19) * 34_359_739, ONE)


@dataclass(frozen=True)
class Timex:
    """A request."""
    modes: int = 0
    offset: int = 0
    freq: int = 0
    maxerror: int = 0
    esterror: int = 0
    status: int = 0
    constant: int = 0
    tick: int = 0
    sec: int = 0
    sub: int = 0

    def is_faulty(self):
        """timekeeping_validate_timex"""
        if self.modes & ADJTIME:
            if not self.modes & OFFSET:
                return True
        elif self.modes & TICK and not 9_000 <= self.tick <= 11_000:
            return True
        if self.modes & SETOFFSET and not 0 <= self.sub < (10**9 if self.modes & NANO else 10**6):
            return True
        return bool(self.modes & FREQUENCY) and abs(self.freq) > (2**63 - 1) // PPM16


@dataclass
class Discipline:
    hz: int
    status: int = STA_UNSYNC
    state: str = "Ok"
    due: int | None = None                          # the second of REALTIME that is a leap
    offset: int = 0                                 # in each of hz parts of a second, a length
    constant: int = 2
    maxerror: int = ERROR_LIMIT
    esterror: int = ERROR_LIMIT
    frequency: int = 0                              # what each second gains, a length
    reftime: int = 0
    adjust: int = 0                                 # us
    tick: int = 10_000                              # us
    base: int = 0                                   # the length of 1/hz s without phase
    length: int = 0                                 # with the phase of the present second

    def __post_init__(self):
        self.clear()

    def second_length(self):
        return self.length * self.hz

    def update_frequency(self):
        """ntp_update_frequency"""
        base = (self.tick * 100_000 * ONE + self.frequency) // self.hz
        self.length += base - self.base
        self.base = base

    def clear(self):
        """ntp_clear"""
        self.adjust, self.offset, self.due = 0, 0, None
        self.status |= STA_UNSYNC
        self.maxerror = self.esterror = ERROR_LIMIT
        self.update_frequency()
        self.length = self.base

    def leap(self, sec):
        """The leap second in second_overflow: what REALTIME leaps by."""
        if self.state == "Ok":
            if self.status & STA_INS:
                self.state, self.due = "Ins", sec + DAY - sec % DAY
            elif self.status & STA_DEL:
                self.state, self.due = "Del", sec + DAY - (sec + 1) % DAY
        elif self.state == "Ins":
            if not self.status & STA_INS:
                self.state, self.due = "Ok", None
            elif sec == self.due:
                self.state = "Oop"
                return -1
        elif self.state == "Del":
            if not self.status & STA_DEL:
                self.state, self.due = "Ok", None
            elif sec == self.due:
                self.state, self.due = "Wait", None
                return 1
        elif self.state == "Oop":
            self.state, self.due = "Wait", None
        elif not self.status & (STA_INS | STA_DEL):
            self.state = "Ok"
        return 0

    def is_whole(self):
        """Whether a second corrects the whole offset (ntp_offset_chunk)."""
        return bool(self.status & STA_PPSTIME and self.status & STA_PPSSIGNAL)

    def overflow(self, sec):
        """second_overflow"""
        leap = self.leap(sec)
        self.maxerror += 500
        if self.maxerror > ERROR_LIMIT:
            self.maxerror = ERROR_LIMIT
            self.status |= STA_UNSYNC
        part = self.offset if self.is_whole() else toward_zero(self.offset, 2**(2 + self.constant))
        self.offset -= part
        self.length = self.base + part
        if abs(self.adjust) > 500:
            sign = 1 if self.adjust > 0 else -1
            self.adjust -= sign * 500
            self.length += sign * (MAX_FREQUENCY // self.hz)
        else:
            self.length += toward_zero(self.adjust * 1000, self.hz) * ONE
            self.adjust = 0
        return leap

    def take_status(self, status, now):
        """process_adj_status"""
        if self.status & STA_PLL and not status & STA_PLL:
            self.state, self.status, self.due = "Ok", STA_UNSYNC, None
        if not self.status & STA_PLL and status & STA_PLL:
            self.reftime = now
        self.status = self.status & STA_RONLY | status & ~STA_RONLY

    def take_offset(self, offset, now):
        """ntp_update_offset"""
        if not self.status & STA_PLL:
            return
        if not self.status & STA_NANO:
            offset = clamp(offset, -10**6, 10**6) * 1000
        offset = clamp(offset, -500_000_000, 500_000_000)
        secs = 0 if self.status & STA_FREQHOLD else max(0, now - self.reftime)
        self.reftime = now
        change = 0
        self.status &= ~STA_MODE
        if secs >= 256 and (self.status & STA_FLL or secs > 2048):
            self.status |= STA_MODE
            change = toward_zero(offset << 30, secs)
        secs = min(secs, 8 << self.constant)
        change += (offset * secs) << (24 - 2 * self.constant)
        self.frequency = clamp(self.frequency + change, -MAX_FREQUENCY, MAX_FREQUENCY)
        self.offset = toward_zero(offset * ONE, self.hz)

    def request(self, t, now, tai):
        """process_adjtimex_modes. Returns the TAI offset."""
        if t.modes & STATUS:
            self.take_status(t.status, now)
        if t.modes & NANO:
            self.status |= STA_NANO
        if t.modes & MICRO:
            self.status &= ~STA_NANO
        if t.modes & FREQUENCY:
            self.frequency = clamp(t.freq * PPM16, -MAX_FREQUENCY, MAX_FREQUENCY)
        if t.modes & MAXERROR:
            self.maxerror = clamp(t.maxerror, 0, ERROR_LIMIT)
        if t.modes & ESTERROR:
            self.esterror = clamp(t.esterror, 0, ERROR_LIMIT)
        if t.modes & TIMECONST:
            self.constant = clamp(clamp(t.constant, 0, 10) + (0 if self.status & STA_NANO else 4), 0, 10)
        if t.modes & TAI and 0 <= t.constant <= 100_000:
            tai = t.constant
        if t.modes & OFFSET:
            self.take_offset(t.offset, now)
        if t.modes & TICK:
            self.tick = t.tick
        if t.modes & (TICK | FREQUENCY | OFFSET):
            self.update_frequency()
        return tai

    def reply_freq(self):
        """The frequency in 2^-16 ppm."""
        return freq_of(self.frequency)

    def reply(self, offset, sec, nsec, tai):
        """The fields of a reply, from STATE to TAI."""
        nano = self.status & STA_NANO
        if offset is None:
            offset = toward_zero(self.offset * self.hz, ONE)
            offset = offset if nano else toward_zero(offset, 1000)
        freq = self.reply_freq()
        state = "Error" if self.status & (STA_UNSYNC | STA_CLOCKERR) else self.state
        return (state, sec, nsec if nano else nsec // 1000, offset, freq, self.maxerror, self.esterror,
                self.status, self.constant, self.tick, tai)


class Session:
    """A discipline and the TAI offset, and the answers to orders."""

    def __init__(self):
        self.ntp, self.tai = None, 0

    def answers(self, order):
        word, *numbers = order.split(",")
        numbers = [int(number) for number in numbers]
        if word == "new":
            return [self.open(*numbers)]
        if self.ntp is None:
            return ["no"]
        if word == "second":
            return [self.begin(*numbers)]
        if word == "clear":
            self.clear()
            return [f"clear,{self.ntp.second_length()}"]
        return self.ask(*numbers[:2], Timex(*numbers[2:]))

    def open(self, hz):
        self.ntp, self.tai = Discipline(hz) if 1 <= hz <= 1024 else None, 0
        return f"new,{self.ntp.second_length()}" if self.ntp else "no"

    def clear(self):
        self.ntp.clear()

    def begin(self, sec):
        leap = self.ntp.overflow(sec)
        self.tai = self.tai - leap if 0 <= self.tai - leap <= 100_000 else self.tai
        return f"second,{leap},{self.tai},{self.ntp.second_length()}"

    def ask(self, sec, nsec, t):
        if t.is_faulty() or sec < 0:
            return ["no"]
        lines, offset = [], None
        if t.modes & SETOFFSET:
            self.ntp.clear()
            lines.append(f"step,{t.sec},{t.sub * (1 if t.modes & NANO else 1000)}")
        if t.modes & ADJTIME:
            offset = self.ntp.adjust
            if not t.modes & READONLY:
                self.ntp.adjust = t.offset
        else:
            self.tai = self.ntp.request(t, sec, self.tai)
        reply = self.ntp.reply(offset, sec, nsec, self.tai)
        return lines + [",".join(map(str, ("adj", *reply, self.ntp.second_length())))]


class Orders:
    """Random orders, many of them at an edge."""

    EDGES = [0, 1, 10, 500, 501, 1000, 8_999, 9_000, 10_000, 11_000, 11_001, 100_000, 100_001, 999_999, 10**6,
             ERROR_LIMIT, ERROR_LIMIT + 1, 32_768_000, 32_768_001, 5 * 10**8, 5 * 10**8 + 1, 999_999_999, 10**9,
             (2**63 - 1) // PPM16, (2**63 - 1) // PPM16 + 1, 2**31, 2**32, 2**63 - 1]

    def __init__(self, seed):
        self.random = random.Random(seed)
        self.sec = 0

    def number(self):
        pick = self.random.randrange(4)
        if pick == 0:
            edge = self.random.choice(self.EDGES)
            return edge if self.random.random() < 0.5 else -edge
        if pick == 1:
            return self.random.randrange(-2**63, 2**63)
        return self.random.randrange(-2**self.random.randrange(1, 40), 2**self.random.randrange(1, 40))

    def word(self, bits):
        """A word of some of these bits, seldom any word."""
        if self.random.randrange(20) == 0:
            return self.random.randrange(2**32)
        word = 0
        for _ in range(self.random.randrange(1, 4)):
            word |= self.random.choice(bits)
        return word

    def request(self):
        modes = self.word([OFFSET, OFFSET, FREQUENCY, MAXERROR, ESTERROR, STATUS, TIMECONST, TAI, MICRO, NANO, TICK])
        if self.random.randrange(5) == 0:
            modes = self.random.choice([0, modes, SETOFFSET, SETOFFSET | NANO, ADJTIME, ADJTIME | OFFSET,
                                        ADJTIME | OFFSET | READONLY])
        status = self.word([STA_PLL, STA_PLL, STA_PLL, STA_FLL, STA_INS, STA_DEL, STA_FREQHOLD])
        if self.random.randrange(10) == 0:
            status = self.word([STA_UNSYNC, STA_CLOCKERR, STA_NANO, STA_MODE])
        tick = self.random.choice([9_000, 9_900, 10_000, 10_100, 11_000])
        sub = self.random.choice([0, 999_999, self.random.randrange(10**6)])
        freq = self.random.randrange(-40_000_000, 40_000_000)
        if self.random.randrange(10) == 0:
            tick = self.random.choice([8_999, 11_001, self.number()])
            sub = self.random.choice([-1, 10**6, 999_999_999, 10**9, self.number()])
            freq = self.number()
        chosen = {"modes": modes, "status": status, "tick": tick, "sub": sub, "freq": freq}
        return [chosen[name] if name in chosen else self.number() for name in FIELDS]

    def next(self):
        pick = self.random.randrange(100)
        if pick == 0 or self.sec == 0:
            self.sec = self.random.choice([1, 1_483_228_797, 1_700_000_000, 2**62, 2**63 - 10**6])
            some, bad = self.random.randrange(1, 1025), self.random.choice([0, 1025])
            return f"new,{self.random.choice([1, 7, 100, 250, 250, 300, 1000, 1000, 1024] + 5 * [some] + [bad])}"
        if pick < 45:
            # the next second, one that is left out, one before, or one at the end of a day
            self.sec += self.random.choice([1, 1, 1, 1, 1, 1, 2, 300, 2_100, -1, DAY - self.sec % DAY - 2])
            self.sec = clamp(self.sec, 0, 2**63 - 1)
            return f"second,{self.sec}"
        if pick == 45:
            return "clear"
        return ",".join(map(str, ("adjtimex", self.sec, self.random.randrange(10**9), *self.request())))


def compare(program, count, seed, orders=Orders, new_session=Session):
    orders = orders(seed)
    for first in range(0, count, 100_000):
        some = [orders.next() for _ in range(min(100_000, count - first))]
        said = subprocess.run([program], input="\n".join(some) + "\n", capture_output=True, text=True, check=True)
        lines, session = iter(said.stdout.splitlines()), new_session()
        for order in some:
            for expected in session.answers(order):
                line = next(lines, None)
                if line != expected:
                    sys.exit(f"seed {seed}: {order}\n  the program: {line}\n  the model:   {expected}")
    print(f"seed {seed}: {count} orders are answered as the definitions have it")


def main(count=100_000, orders=Orders, new_session=Session):
    """Compares a program, or answers the orders of standard input, as the arguments ask for."""
    if len(sys.argv) == 1:
        session = new_session()
        for order in sys.stdin:
            for line in session.answers(order.strip()):
                print(line)
        return
    count = int(sys.argv[2]) if len(sys.argv) > 2 else count
    seed = int(sys.argv[3]) if len(sys.argv) > 3 else random.randrange(2**32)
    compare(sys.argv[1], count, seed, orders, new_session)


if __name__ == "__main__":
    main()
