#!/usr/bin/env python3
"""Runs random records through ntp_orders.c and through the definitions in Python, and stops at the
first answer or snapshot that differs.

    tests/c/compare_ntp.py PROGRAM [RECORDS [SEED]]     RECORDS is 100,000 if not given

2,700,000 records make 1,000,000 replies, in five to ten minutes. 100,000 records or more must meet
all that ntp_bounds.py lists.
"""
import random
import subprocess
import sys
from pathlib import Path

sys.path.insert(0, str(Path(__file__).resolve().parents[1] / "model"))

# pylint: disable=wrong-import-position
import ntp
import ntp_bounds
import pps
from model import Counter, from_hz, is_settable, limit
from steered_clock import Refused, Steered

COMMANDS = ["update", "set", "step", "freq", "tick", "tai", "suspend", "resume", "leap"]
CLOCKS = {0: "realtime", 1: "monotonic", 7: "boottime", 11: "tai"}
DAY_END = 1_483_228_800


class Session:
    """The clocks in Python, and their answers to records."""

    def __init__(self):
        self.steered = None
        self.began_late = 0, 0          # the seconds that the last `late` began, and the seconds inserted by it

    def answer(self, record):
        word, *numbers = record.split(",")
        try:
            line = getattr(self, word)(*map(int, numbers))
        except Refused as refused:
            return self.with_words(f"no,TKC_{str(refused).upper()}")
        return self.with_words(line)

    def with_words(self, line):
        if self.steered is None:
            return line
        signal = self.steered.signal
        if signal:
            line += ",signal," + ",".join(map(str, (signal.valid, signal.shift, signal.jitter, signal.stabil,
                                                    signal.correction, signal.balance, signal.frequency, signal.start,
                                                    signal.calcnt, signal.jitcnt, signal.stbcnt, signal.errcnt)))
        return ",".join(map(str, [line, *self.steered.saved()]))

    def open(self, bits, mult, shift, reading, sec, nsec, hz):
        if reading >= 2**bits or not is_settable(sec, nsec) or not 1 <= hz <= 1024:
            raise Refused("invalid")
        self.steered = Steered(Counter(bits, mult, shift), reading, sec * 10**9 + nsec, hz)
        return "open"

    def openat(self, bits, mult, shift, reading, sec, nsec, hz, uptime_sec, uptime_nsec):
        real, uptime = sec * 10**9 + nsec, uptime_sec * 10**9 + uptime_nsec
        if reading >= 2**bits or not is_settable(sec, nsec) or uptime_sec < 0 or uptime_nsec >= 10**9:
            raise Refused("invalid")
        if uptime >= limit("monotonic"):
            raise Refused("range")
        if real < uptime or not 1 <= hz <= 1024:
            raise Refused("invalid")
        self.steered = Steered(Counter(bits, mult, shift), reading, real, hz, uptime)
        return "open"

    def advance(self, reading):
        self.steered.advance(reading)
        return "ok"

    def begin_late(self, reading):
        """Lets seconds begin late. Returns how many began, and how many of them were inserted.

        A leap moves REALTIME. At a limit of the TAI offset it leaves that as it is.
        """
        following, offset = self.steered.next, self.steered.clock.real_offset
        self.steered.advance_late(reading)
        inserted = (offset - self.steered.clock.real_offset) // 10**9
        return self.steered.next - following + inserted, inserted

    def late(self, reading):
        self.began_late = self.begin_late(reading)
        return "ok"

    def tick(self, reading):
        mult = self.steered.clock.mult()
        seconds, inserted = self.begin_late(reading)
        self.steered.apply(reading, "update", 0, 0)
        changed = seconds > 0, inserted != 0, self.steered.clock.mult() != mult
        return f"tick,{sum(2**bit for bit, is_so in enumerate(changed) if is_so)}"

    def counter(self, reading, bits, mult, shift, first):
        if not self.steered.clock.asleep:
            self.begin(reading)
        self.steered.change_counter(reading, Counter(bits, mult, shift), first)
        return "ok"

    def signal(self):
        self.steered.signal = pps.Pps()
        return "signal"

    def pps(self, reading, nsec, raw):
        """The seconds begin even before a pulse whose times are out of their ranges."""
        try:
            self.begin(reading)
        finally:
            self.steered.pulse(reading, nsec, raw)
        return "ok"

    def begin(self, reading):
        """Lets the seconds up to a reading begin before all else, if there is a signal."""
        if self.steered.signal:
            self.steered.advance(reading)

    def apply(self, reading, command, number, nsec):
        if command != COMMANDS.index("resume"):
            self.begin(reading)
        if command >= len(COMMANDS):
            raise Refused("bad_command")
        self.steered.apply(reading, COMMANDS[command], number, nsec)
        return "ok"

    def adjtimex(self, reading, *fields):
        self.begin(reading)
        state, sec, sub, *others = self.steered.adjtimex(reading, ntp.Timex(*fields))
        status, signal = self.steered.ntp.status, self.steered.signal
        answer = ["adj", state.lower(), f"{sec}.{sub:0{9 if status & ntp.STA_NANO else 6}}", *others]
        if signal:
            shown, *numbers = signal.reply(status, state)
            answer += ["pps", shown.lower(), *numbers]
        return ",".join(map(str, answer))

    def get(self, clock, reading):
        self.steered.advance(reading)
        sec, nsec = divmod(self.steered.clock.value(CLOCKS[clock], reading), 10**9)
        return f"at,{sec}.{nsec:09}"

    def next(self):
        reading = self.steered.next_second()
        if reading is None:
            raise Refused("further" if self.steered.is_next_further() else "never")
        return f"next,{reading}"

    def asked(self):
        ntp, (by, second) = self.steered.ntp, self.steered.coming_leap()
        return ",".join(map(str, ["asked", by, second, ntp.status, ntp.reply_freq(), ntp.tick]))

    def front(self):
        return f"front,{self.steered.front}"


class Records:
    """Random records about the clocks of a session. Requests are those of ntp.py."""

    def __init__(self, seed, session, have_signals):
        self.random, self.session, self.have_signals = random.Random(seed), session, have_signals
        self.requests, self.following = ntp.Orders(seed + 1), []

    def next(self):
        if self.following:
            return self.following.pop(0)
        pick = self.random.randrange(100)
        if self.session.steered is None or pick < 2:
            if self.random.randrange(20):
                return self.opening()
            self.following = self.late_leap()
            return self.following.pop(0)
        if pick == 2 and self.have_signals and not self.session.steered.signal:
            return "signal"
        if self.session.steered.signal and self.random.randrange(4) == 0:
            return self.pulse()
        if pick < 8:
            reading = self.reading()
            self.following = [self.request(reading, fields)
                              for fields in ntp_bounds.requests(self.random)]
            return self.following.pop(0)
        if pick < 55:
            return self.request(self.reading(), self.requests.request())
        if pick < 75:
            return f"get,{self.random.choice(list(CLOCKS))},{self.reading()}"
        if pick < 84:
            return f"{self.random.choice(['advance', 'late', 'tick', 'tick'])},{self.reading()}"
        if pick < 85:
            return self.change()
        return self.command() if pick < 95 else self.random.choice(["next", "asked", "front"])

    def request(self, reading, fields):
        return ",".join(map(str, ["adjtimex", reading, *fields]))

    def pulse(self):
        """A pulse, a request of a signal, or seldom many pulses in a row, one in each second."""
        if self.random.randrange(8) == 0:
            return self.ask_signal(self.reading())
        if self.random.randrange(60) == 0 and not self.session.steered.clock.asleep:
            self.following = self.train()
            return self.following.pop(0)
        return f"pps,{self.reading()},{self.nsec()},{self.raw()}"

    def nsec(self):
        return self.random.choice(6 * [self.random.randrange(2_000)]
                                  + [500_000_000, 500_000_001, 999_999_999, 10**9, 2**32 - 1,
                                     self.random.randrange(10**9)])

    def raw(self):
        """MONOTONIC_RAW about some seconds after the interval's beginning; seldom any number."""
        if self.random.randrange(30) == 0:
            return self.random.choice([0, 10**9 - 1, 10**9, 2**63 - 1, 2**63, 2**64 - 1, self.random.randrange(2**64)])
        start, secs = self.session.steered.signal.start, self.random.choice([1, 4, 4, 5, 9, self.random.randrange(600)])
        gained = self.random.choice([0, 100_000, 100_001, 500_000, 500_001, self.random.randrange(500_000)])
        sign = self.random.choice([1, -1])
        return min(max(start, 10**9) + secs * 10**9 + sign * gained * secs, 2**64 - 1)

    def train(self):
        """Many pulses, a second apart."""
        steered, records = self.session.steered, []
        counter = steered.clock.counter
        second = -(-(10**9 << counter.shift) // counter.mult)
        raw, gained, noise = 10**10, self.random.randrange(-450_000, 450_000), self.random.choice([1, 100, 100_000])
        for place in range(1, self.random.choice([30, 300])):
            if place * second >= 2**counter.bits // 2:
                break
            reading = (steered.last_account + place * second) % 2**counter.bits
            raw += 10**9 + gained + self.random.randrange(-noise, noise + 1)
            records.append(f"pps,{reading},{self.random.randrange(noise)},{raw}")
            if self.random.randrange(20) == 0:
                records.append(self.ask_signal(reading))
            if place % 50 == 0:
                records.append(f"apply,{reading},0,0,0")
        return records or ["front"]

    def ask_signal(self, reading):
        """A request of a status for a signal, often with an offset or a frequency."""
        bits = [pps.STA_PPSFREQ, pps.STA_PPSTIME, ntp.STA_PLL, ntp.STA_NANO, ntp.STA_FREQHOLD]
        status = sum({self.random.choice(bits) for _ in range(self.random.randrange(5))})
        modes = ntp.STATUS | self.random.choice([0, 0, ntp.NANO, ntp.FREQUENCY, ntp.OFFSET, ntp.SETOFFSET])
        numbers = {"offset": self.random.randrange(10**6), "freq": self.random.randrange(-10**7, 10**7),
                   "sec": self.random.choice([0, 1, -1])}
        return self.request(reading, ntp_bounds.fields(modes, status=status, **numbers))

    def counter(self):
        """Numbers of a counter, and a reading of it, seldom one above its mask."""
        bits = self.random.choice([8, 16, 32, 56, 64, 64, 64])
        counter = from_hz(bits, self.random.choice([1, 3, 32_768, 24 * 10**6, 10**9, 2_500_000_000]),
                          self.random.choice([1, 60, 600]))
        if self.random.randrange(3) == 0:
            counter = Counter(bits, self.random.choice([256, 300, 2**20 + 1, 3_869_339_906]), self.random.randrange(33))
        reading = self.random.choice([0, 2**bits - 1, self.random.randrange(2**bits), min(2**bits, 2**64 - 1)])
        return [bits, counter.mult, counter.shift, reading]

    def change(self):
        """A change of counter. Half of them go to a counter of 64 bits and 1 GHz, on which most records succeed."""
        numbers = self.counter() if self.random.randrange(2) else [64, 2**23, 23, self.random.randrange(2**64)]
        return ",".join(map(str, ["counter", self.reading(), *numbers]))

    def opening(self):
        bits, mult, shift, reading = self.counter()
        sec = self.random.choice([0, DAY_END - 3, DAY_END - 2, 1_700_000_000, 8_277_292_030, 8_277_292_036])
        hz = self.random.choice(2 * [1, 100, 250, 1000] + [0, 1024, 1025, self.random.randrange(1026)])
        fields = [bits, mult, shift, reading, sec, self.random.choice([0, 999_999_999]), hz]
        if self.random.randrange(2):
            return ",".join(map(str, ["open", *fields]))
        uptime = [self.random.choice([0, 1, 3_600, sec, sec + 1, 946_079_900, 946_079_999, 946_080_000, -1]),
                  self.random.choice([0, 0, 999_999_999, 10**9, self.random.randrange(10**9)])]
        return ",".join(map(str, ["openat", *fields, *uptime]))

    def late_leap(self):
        """Clocks that open before midnight, and whose leap second begins late."""
        status = self.random.choice([ntp.STA_INS, ntp.STA_DEL])
        tai = self.random.choice([0, 100_000, self.random.randrange(100_001)])
        first, second = (self.random.randrange(10**9) for _ in range(2))
        return [f"open,64,8388608,23,0,{DAY_END - 3},0,{self.random.choice([100, 250, 1000])}",
                self.request(0, ntp_bounds.fields(ntp.STATUS | ntp.TAI, status=status, constant=tai)),
                f"late,{10**9 + first}", "asked",
                f"{self.random.choice(['late', 'tick'])},{3 * 10**9 + second}", "asked"]

    def reading(self):
        """A reading some seconds after the last one; seldom one behind it or the account, or above the mask."""
        clock, pick = self.session.steered.clock, self.random.randrange(30)
        counter = clock.counter
        second = -(-(10**9 << counter.shift) // counter.mult)
        if pick == 0:
            later = self.random.choice([clock.last, self.session.steered.last_account])
            last = (later - self.random.randrange(1, 99)) % 2**64
            return last if counter.bits == 64 else self.random.choice([2**counter.bits, 2**64 - 1, last])
        if pick < 4:
            following = self.session.steered.next_second()
            return clock.last if following is None else following
        past = 946_080_000 * second * 6 // 5            # past the limit of MONOTONIC
        if self.random.randrange(300) == 0 and past < 2**counter.bits // 2:
            return (clock.last + past) % 2**counter.bits
        most = self.random.choice([1, 1, second, second, 4 * second])
        cycles = 300 * second if self.random.randrange(500) == 0 else self.random.randrange(most + 2)
        if self.random.randrange(20_000) == 0:          # a day that no call saw
            cycles = 86_400 * second
        start = self.random.choice([clock.last] + 7 * [self.session.steered.last_account])
        most = 2**counter.bits // 2 - 1 - counter.gap(clock.last, start)
        return (start + max(0, min(cycles, most))) % 2**counter.bits

    def command(self):
        command = self.random.choice(range(len(COMMANDS) + 1))
        if self.session.steered.clock.asleep and self.random.randrange(2):
            command = 7
        real = self.session.steered.clock.value("realtime", self.session.steered.clock.last) // 10**9
        number = {1: real + self.random.randrange(-5, 100_000), 2: self.random.randrange(-100, 100),
                  3: self.random.randrange(-40_000_000, 40_000_000), 4: self.random.randrange(8_999, 11_002),
                  5: self.random.randrange(-1, 100_002), 7: self.random.randrange(100_000),
                  8: self.random.choice([-1, -1, 1, 1, 0, 2])}.get(command, 0)
        if command == 1 and self.random.randrange(2):
            number = real // 86_400 * 86_400 + 86_400 - self.random.randrange(1, 4)
        nsec = self.random.choice([0, 999_999_999, self.random.randrange(10**9), 10**9])
        if command == 8:
            nsec = self.random.choice([0, 37, self.session.steered.clock.tai + 1, 100_000, 100_001])
        return f"apply,{self.reading()},{command},{max(-2**63, min(2**63 - 1, number))},{nsec}"


def records_of(seed, count, met=None, have_signals=True):
    """Returns random records and their answers, and counts what they meet. The packages have no
    signals."""
    session = Session()
    records = Records(seed, session, have_signals)
    given = []
    for _ in range(count):
        record = records.next()
        given.append((record, session.answer(record)))
        if met:
            met.add(session, *given[-1])
    return given


def compare(program, count, seed, met):
    given = records_of(seed, count, met)
    ran = subprocess.run([program], input="".join(record + "\n" for record, _ in given), capture_output=True,
                         text=True, check=True)
    lines = ran.stdout.splitlines()
    for place, (record, wanted) in enumerate(given):
        if place >= len(lines) or lines[place] != wanted:
            found = lines[place] if place < len(lines) else ran.stderr
            sys.exit(f"seed {seed}, record {place}: {record}\n  the library: {found}\n  the model:   {wanted}")


def main():
    count = int(sys.argv[2]) if len(sys.argv) > 2 else 100_000
    seed = int(sys.argv[3]) if len(sys.argv) > 3 else random.randrange(2**32)
    met = ntp_bounds.Met()
    for first in range(0, count, 100_000):
        compare(sys.argv[1], min(100_000, count - first), seed + first, met)
    print(f"compare_ntp: {count} answers of seed {seed} are those of the definitions: {met.text()}")
    if count >= 100_000 and met.missing():
        sys.exit(f"seed {seed}: not met: {', '.join(met.missing())}")


if __name__ == "__main__":
    main()
