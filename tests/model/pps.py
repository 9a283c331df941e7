#!/usr/bin/env python3
"""The definitions of pulse per second in unbounded integers: a signal's state, what a pulse makes of it and
of a discipline, and what a reply reports (kernel/time/ntp.c with CONFIG_NTP_PPS).

    tests/model/pps.py PROGRAM [COUNT [SEED]]     compares the program of crates/tk_ntp_orders with them
    tests/model/pps.py < orders                   writes the answers to these orders

`tests/kernel_ntp/compare_pps.py` compares them with the kernel's own code. The orders are those of ntp.py and
`pps,NSEC,RAW`: a pulse comes NSEC ns after a second of REALTIME, when MONOTONIC_RAW is RAW ns. From the
order `signal` on, the discipline has a signal, and an `adj` is followed by the signal's part of the reply:

    pps,STATE,PPSFREQ,JITTER,SHIFT,STABIL,JITCNT,CALCNT,ERRCNT,STBCNT
"""
from dataclasses import dataclass

import ntp
from ntp import (ADJTIME, DAY, FREQUENCY, MAX_FREQUENCY, ONE, PPM16, SETOFFSET, STA_FREQHOLD, STA_NANO, STA_PLL,
                 STA_PPSERROR, STA_PPSFREQ, STA_PPSJITTER, STA_PPSSIGNAL, STA_PPSTIME, STA_PPSWANDER, STATUS, clamp,
                 freq_of, toward_zero)

NANOS = 10**9
VALID = 10                                          # s after a pulse in which the signal counts as present
LEAST_SHIFT, GREATEST_SHIFT = 2, 8                  # 4 s and 256 s
PATIENCE = 4                                        # good or bad intervals until the length changes
MOST_WANDER = 100_000                               # ns/s
BITS = STA_PPSJITTER | STA_PPSWANDER | STA_PPSERROR
SIGNAL_BITS = BITS | STA_PPSSIGNAL
MOST = 2**63 - 1


@dataclass
class Pulse:
    """What a pulse is for a discipline."""
    status: int = 0
    frequency: int | None = None                    # a length
    correction: int | None = None                   # ns


@dataclass
class Pps:
    """A signal."""
    valid: int = 0                                  # s until the signal counts as lost
    correction: int = 0                             # ns, of the last pulse
    jitter: int = 0                                 # ns, a mean
    start: int = 0                                  # ns of MONOTONIC_RAW; below 1 s there is no interval
    shift: int = LEAST_SHIFT
    balance: int = 0                                # good intervals minus bad ones
    frequency: int = 0                              # a length
    stabil: int = 0                                 # 2^-16 ppm, a mean
    calcnt: int = 0
    jitcnt: int = 0
    stbcnt: int = 0
    errcnt: int = 0

    def shorten(self):
        """pps_reset_freq_interval"""
        self.shift, self.balance = LEAST_SHIFT, 0

    def clear(self):
        """pps_clear"""
        self.shorten()
        self.correction = self.start = self.frequency = 0

    def second(self):
        """pps_dec_valid. Returns whether the signal counts as lost."""
        if self.valid > 0:
            self.valid -= 1
            return False
        self.clear()
        return True

    def ask(self, t, status):
        """What a request changes, if the status was this one before it."""
        if t.modes & SETOFFSET:
            self.clear()
        if t.modes & ADJTIME:
            return
        if t.modes & STATUS and status & STA_PLL and not t.status & STA_PLL:
            self.shorten()
        if t.modes & FREQUENCY:
            self.frequency = clamp(t.freq * PPM16, -MAX_FREQUENCY, MAX_FREQUENCY)

    def judge(self, is_good):
        """pps_inc_freq_interval, pps_dec_freq_interval"""
        sign = 1 if is_good else -1
        self.balance += sign
        if self.balance * sign >= PATIENCE:
            self.balance = sign * PATIENCE
            if LEAST_SHIFT <= self.shift + sign <= GREATEST_SHIFT:
                self.shift, self.balance = self.shift + sign, 0

    def measure(self, sec, nsec, pulse):
        """hardpps_update_freq: MONOTONIC_RAW has counted this long in `sec` seconds."""
        if sec > 2 * 2**self.shift:
            pulse.status |= STA_PPSERROR
            self.errcnt += 1
            self.judge(False)
            return
        pulse.frequency = toward_zero(-nsec * ONE, sec)
        delta = abs(toward_zero(pulse.frequency - self.frequency, ONE))
        self.frequency = pulse.frequency
        if delta > MOST_WANDER:
            pulse.status |= STA_PPSWANDER
            self.stbcnt += 1
        self.judge(delta <= MOST_WANDER)
        self.stabil += (delta * 2**16 // 1000 - self.stabil) // 4

    def correct(self, nsec, pulse):
        """hardpps_update_phase"""
        former, self.correction = self.correction, -nsec
        jitter = abs(self.correction - former)
        if jitter > self.jitter * 16:
            pulse.status |= STA_PPSJITTER
            self.jitcnt += 1
        else:
            pulse.correction = self.correction
        self.jitter += (jitter - self.jitter) // 4

    def pulse(self, nsec, raw):
        """__hardpps: a pulse at `nsec` ns of a second of REALTIME, and `raw` ns of MONOTONIC_RAW."""
        self.valid = VALID
        if self.start < NANOS:
            self.start = raw
            return Pulse()
        sec, past = nearest(raw - self.start)
        if sec == 0 or abs(past) > 500_000 * sec:
            self.start = raw
            return Pulse(STA_PPSJITTER)
        pulse = Pulse()
        if sec >= 2**self.shift:
            self.calcnt += 1
            self.start = raw
            self.measure(sec, past, pulse)
        self.correct(nearest(nsec)[1], pulse)
        return pulse

    def reply(self, status, state):
        """is_error_status, pps_fill_timex: the state and the fields."""
        jitter = self.jitter if status & STA_NANO else self.jitter // 1000
        return ("Error" if is_error(status) else state, freq_of(self.frequency), jitter, self.shift, self.stabil,
                self.jitcnt, self.calcnt, self.errcnt, self.stbcnt)


def nearest(nanos):
    """The nearest second, and what is past it (pps_normalize_ts)."""
    sec = -((NANOS // 2 - nanos) // NANOS)
    return sec, nanos - sec * NANOS


def is_error(status):
    """Whether a signal makes a status an error."""
    lacks = status & (STA_PPSFREQ | STA_PPSTIME) and not status & STA_PPSSIGNAL
    time = status & STA_PPSTIME and status & STA_PPSJITTER
    frequency = status & STA_PPSFREQ and status & (STA_PPSWANDER | STA_PPSERROR)
    return bool(lacks or time or frequency)


def take(discipline, pulse):
    """What a discipline takes from a pulse."""
    discipline.status = discipline.status & ~BITS | STA_PPSSIGNAL | pulse.status
    if pulse.frequency is not None and discipline.status & STA_PPSFREQ and not discipline.status & STA_FREQHOLD:
        discipline.frequency = pulse.frequency
        discipline.update_frequency()
    if pulse.correction is not None and discipline.status & STA_PPSTIME:
        discipline.offset = toward_zero(pulse.correction * ONE, discipline.hz)
        discipline.adjust = 0


class Session(ntp.Session):
    """A discipline that may have a signal."""
    pps = None

    def answers(self, order):
        word, *numbers = order.split(",")
        if self.ntp is None or word not in ("signal", "pps"):
            return super().answers(order)
        if word == "signal":
            self.pps = Pps()
            return ["signal"]
        if self.pps is None:
            return ["no"]
        take(self.ntp, self.pps.pulse(*map(int, numbers)))
        return [f"pps,{self.ntp.status},{self.ntp.second_length()}"]

    def open(self, hz):
        self.pps = None
        return super().open(hz)

    def begin(self, sec):
        line = super().begin(sec)
        if self.pps and self.pps.second():
            self.ntp.status &= ~SIGNAL_BITS
        return line

    def clear(self):
        super().clear()
        if self.pps:
            self.pps.clear()

    def ask(self, sec, nsec, t):
        before = self.ntp.status
        lines = super().ask(sec, nsec, t)
        if self.pps and lines != ["no"]:
            self.pps.ask(t, before)
            state = lines[-1].split(",")[1]
            lines.append(",".join(map(str, ("pps", *self.pps.reply(self.ntp.status, state)))))
        return lines


class Orders(ntp.Orders):
    """Random orders: seconds with a pulse each, from signals of several kinds."""

    def __init__(self, seed, signals=0.9):
        super().__init__(seed)
        self.waiting, self.signals = [], signals

    def next(self):
        if not self.waiting:
            self.waiting = list(self.some())
        return self.waiting.pop(0)

    def some(self):
        pick = self.random.randrange(12)
        if pick == 0 or self.sec == 0:
            self.sec = self.random.choice([1, 1_483_228_797, 1_700_000_000])
            self.raw = self.random.choice([0, NANOS - 1, NANOS, self.random.randrange(2**50)])
            self.drift = self.random.choice([0, 20_000, self.random.randrange(-600_000, 600_000)])
            yield f"new,{self.random.choice([1, 7, 100, 250, 300, 1000, 1024])}"
            if self.random.random() < self.signals:
                yield "signal"
        elif pick == 1:
            yield "clear"
        elif pick < 5:
            yield self.asked()
        else:
            yield from self.pulses()

    def asked(self):
        """A request, often one of the bits of a signal."""
        fields = self.request()
        if self.random.randrange(3):
            bits = [STA_PPSFREQ, STA_PPSTIME, STA_PLL, STA_NANO, STA_FREQHOLD]
            status = STA_PLL if self.random.randrange(6) else 0
            for _ in range(self.random.randrange(4)):
                status |= self.random.choice(bits)
            fields[0] |= STATUS
            fields[5] = status
        return ",".join(map(str, ("adjtimex", self.sec, self.random.randrange(NANOS), *fields)))

    def pulses(self):
        """Some seconds, most with a pulse."""
        noise = self.random.choice([0, 1, 5, 100, 10_000, 10**7])
        lost = self.random.choice([0, 0, 0, 0, 20, 3, 1])
        turn = self.random.choice([500, 500, 10**6, 10**6, 2])
        asks = self.random.choice([30, 30, 1000])
        phase = self.random.choice([0, 1000, NANOS // 2, self.random.randrange(NANOS)])
        for _ in range(self.random.choice([1, 3, 12, 40, 300, 3000])):
            self.sec += 1
            self.raw = max(0, self.raw + self.gap(noise, turn))
            yield f"second,{self.sec}"
            if not lost or self.random.randrange(lost):
                yield f"pps,{(phase + self.noise(noise)) % NANOS},{self.raw}"
            if not self.random.randrange(asks):
                yield self.asked()

    def gap(self, noise, turn):
        """The time of MONOTONIC_RAW in a second. Once in `turn` seconds it changes."""
        if not self.random.randrange(turn):
            by = self.random.choice([100_000, 100_001, -100_000, -100_001, self.random.randrange(-400_000, 400_000)])
            self.drift = clamp(self.drift + by, -600_000, 600_000)
        pick = self.random.randrange(500)
        if pick == 0:
            return self.random.choice([0, -1, NANOS // 2, NANOS // 2 + 1, -NANOS, 3 * NANOS, 700 * NANOS,
                                       self.random.randrange(2 * NANOS), NANOS + 500_000, NANOS - 500_001])
        return NANOS + self.drift + self.noise(noise)

    def noise(self, most):
        spike = 1 if self.random.randrange(60) else 50
        return self.random.randrange(-most * spike, most * spike + 1)


if __name__ == "__main__":
    ntp.main(orders=Orders, new_session=Session)
