"""Random timelines of a kernel and of the library's clocks.

Each opens both with the same counter, and lets the kernel tick HZ times a second. Requests, sets of
the time, sleeps and reads follow at the same readings. Each reply must have the same bytes, except
for its time, which may be apart by `Timeline.apart`. A timeline avoids the differences that
docs/NTP.md lists, or ends at one (`Known`); test_differences.py tests each of them.
"""
from kernel import Kernel, Timex
from library import CODES, RESUME, SET_TIME, SUSPEND, UPDATE, model, ntp

NANOS = 10**9
INVALID = -22                           # -EINVAL
COUNTERS = [(64, NANOS, 600), (64, NANOS, 1), (32, NANOS, 60), (32, 24_000_000, 600),
            (64, 2_400_000_000, 60), (56, 2_500_000_000, 600), (64, 3_579_545, 600),
            (32, 1_000_000, 600)]       # bits, Hz, maxsec
SPEEDS = 0.8995, 1.1005                 # the rates that the library holds lengths to
CLOCKS = 0, 1, 7, 11                    # REALTIME, MONOTONIC, BOOTTIME and TAI
REQUESTS = 60
LEAP_DAY = ntp.DAY * 17_167             # the end of 2016


class Known(Exception):
    """A difference that docs/NTP.md lists."""


class Differs(Exception):
    """Any other difference."""


class Requests(ntp.Orders):
    """Random requests, many at an edge. Most after which nothing can be compared are left out:
    steps out of range, and ticks at their bounds."""

    MODES = [ntp.OFFSET, ntp.FREQUENCY, ntp.MAXERROR, ntp.ESTERROR, ntp.STATUS, ntp.TIMECONST,
             ntp.TAI, ntp.MICRO, ntp.NANO, ntp.TICK]

    def request(self):
        fields = dict(zip(ntp.FIELDS, super().request()))
        pick = self.random.randrange(10)
        if pick < 4:                    # a daemon's
            fields |= {"modes": self.word(self.MODES) | ntp.OFFSET,
                       "offset": self.random.randrange(-10**8, 10**8)}
        if pick == 4:                   # a leap second
            fields |= {"modes": ntp.STATUS,
                       "status": self.random.choice([ntp.STA_INS, ntp.STA_DEL, 0])}
        if fields["modes"] & ntp.SETOFFSET and self.random.randrange(10):
            fields |= {"sec": self.random.randrange(-5, 5), "sub": self.random.randrange(10**6)}
        if fields["tick"] in (9_000, 11_000) and self.random.randrange(10):
            fields["tick"] += 100 if fields["tick"] == 9_000 else -100
        return Timex.of(**fields)


class Timeline:
    """A kernel and clocks of the library, at the same reading."""

    def __init__(self, rng, hz, path, clocks):
        bits, self.rate, maxsec = rng.choice(COUNTERS)
        described = model.from_hz(bits, self.rate, maxsec)
        counter = bits, described.mult, described.shift
        self.reading = rng.choice([0, rng.randrange(2**min(bits, 60))])
        sec = rng.choice([LEAP_DAY - rng.randrange(1, 5), 1_700_000_000, rng.randrange(2**32)])
        opened = self.reading, sec, rng.choice([0, NANOS // 2, rng.randrange(NANOS)])
        self.kernel, self.clocks = Kernel(path, counter, *opened), clocks(counter, *opened, hz)
        self.rng, self.hz, self.requests = rng, hz, Requests(rng.randrange(2**32))
        self.tick = self.reading + 1 + rng.randrange(self.kernel.step)
        # the most cycles between updates; none is needed with 64 bits
        self.piece = 2**bits // 4
        # a unit of the multiplier, and the part of a tick that the kernel rounds its cycles by
        self.unit = NANOS / described.mult
        self.rounding = abs(self.kernel.step * hz / self.rate - 1)
        self.drift = self.turns = self.settings = self.worst = self.replies = 0

    def apart(self):
        """Returns what times may be apart by, in ns: a unit of the multiplier for a second and a
        nanosecond, once more for each set, step and sleep, since they forget the rest of both; and
        twice the changes of a tick's length, since the kernel notices a change at its next tick and
        counts only whole ticks. Then the kernel's rounding of a tick, and that of the times."""
        units = (1 + self.settings) * (self.unit + 1)
        return units + 2 * self.turns / ntp.ONE + self.drift + 2

    def move(self, reading):
        while self.reading < reading:
            cycles = min(self.piece, reading - self.reading)
            self.reading += cycles
            self.tick, turns, *lengths = self.kernel.ticks(self.tick, self.reading)
            self.turns += turns
            self.drift += self.rounded(lengths) * cycles / self.rate
            if self.piece < 2**62:
                self.apply(UPDATE)

    def rounded(self, lengths):
        """Returns what the kernel's rounding costs at these lengths of a tick, in ns a second: of a
        tick to ns, and to cycles. Ends at a length that the library doesn't give."""
        speeds = [length * self.hz / (NANOS * ntp.ONE) for length in lengths]
        if min(speeds) < SPEEDS[0] or max(speeds) > SPEEDS[1]:
            raise Known("the rate stays within 10.05 percent")
        ticks = NANOS % self.hz / self.hz * self.rate / self.kernel.step
        return ticks + self.rounding * NANOS * max(abs(speed - 1) for speed in speeds)

    def apply(self, *command):
        code = self.clocks.apply(self.reading, *command)
        if code:
            raise Differs(f"command {command} is refused: {code}")

    def settle(self):
        """Moves on to a reading that isn't near the beginning of a second, which the kernel notices
        at a tick."""
        now = self.clocks.time(0, self.reading)
        if self.is_near_start(now):
            missing = (self.least_past() - now) % NANOS * 1.2
            self.move(self.reading + int(missing * self.rate / NANOS) + 1)

    def least_past(self):
        """Returns how long ago a second must have begun, in ns, so that the kernel has noticed."""
        return 5 * NANOS // (2 * self.hz) + self.apart()

    def is_near_start(self, time):
        return not self.least_past() <= time % NANOS <= NANOS - self.apart() - 1000

    def check_state(self):
        """Ends at a state that the library avoids."""
        if self.kernel.warnings():
            raise Differs("the kernel warns")
        now = self.kernel.time(0, self.reading)
        if not 0 <= self.kernel.time(11, self.reading) - now <= 100_000 * NANOS:
            raise Known("the TAI offset stays in 0 to 100,000")
        if self.kernel.leap_at() <= now // NANOS:
            raise Known("a leap second that was slept over")
        if self.apart() > NANOS / 100:
            raise Known("many changes of length, each noticed at a tick")

    def check_time(self, theirs, ours, coarse=0):
        if abs(theirs - ours) > self.apart() + coarse:
            raise Differs(f"the kernel's time {theirs}, ours {ours}, {theirs - ours} ns, "
                          f"more than {self.apart():.0f} ns")
        if not coarse:
            rest = abs(theirs - ours) - 2 * self.turns / ntp.ONE - self.drift - 2
            self.worst = max(self.worst, rest / (self.unit + 1) / (1 + self.settings))

    def check_times(self):
        for clock in CLOCKS:
            self.check_time(self.kernel.time(clock, self.reading),
                            self.clocks.time(clock, self.reading))

    def ask_again(self):
        """Asks for two offsets, some seconds apart by a step: at the bounds of the FLL."""
        status = self.rng.choice([ntp.STA_PLL, ntp.STA_PLL | ntp.STA_FLL])
        modes = ntp.STATUS | ntp.OFFSET | ntp.TIMECONST
        numbers = {"status": status, "constant": self.rng.randrange(11)}
        for sec in 0, self.rng.choice([255, 256, 257, 2047, 2048, 2049]):
            offset = self.rng.randrange(-10_000, 10_000)
            step = {"modes": modes | ntp.SETOFFSET if sec else modes, "sec": sec, "sub": 0}
            self.ask(Timex.of(offset=offset, **numbers, **step))

    def ask(self, request):
        self.avoid_negative_times(request)
        self.avoid_starts(request)
        theirs, ours, length = request.copy(), request.copy(), self.kernel.tick_length()
        state = self.kernel.adjtimex(theirs, self.reading)
        code, our_state = self.clocks.adjtimex(ours, self.reading)
        self.replies += 1
        if state < 0 or code:
            self.check_refused(request, (theirs, ours), (state, code))
            return
        self.turns += abs(self.kernel.tick_length() - length)
        self.settings += bool(request.modes & ntp.SETOFFSET)
        scale = 1 if theirs.status & ntp.STA_NANO else 1000
        times = [reply.sec * NANOS + reply.sub * scale for reply in (theirs, ours)]
        ours.sec, ours.sub = theirs.sec, theirs.sub
        if state != our_state or bytes(theirs) != bytes(ours):
            raise Differs(f"request {request.text()}\n  kernel: {state} {theirs.text()}\n"
                          f"  ours: {our_state} {ours.text()}")
        self.check_time(*times, scale if scale > 1 else 0)

    def avoid_negative_times(self, request):
        """Takes the offset out of a request if REALTIME is before the last offset, since only the
        library counts that as no time."""
        step = request.sec if request.modes & ntp.SETOFFSET else 0
        is_before = self.kernel.reftime() > self.kernel.time(0, self.reading) // NANOS + step
        if is_before and not request.modes & ntp.ADJTIME:
            request.modes &= ~ntp.OFFSET

    def avoid_starts(self, request):
        """Takes the part of a second out of a step that leads near the beginning of one: there the
        clocks, which may be apart, can be in two different seconds."""
        part = request.sub * (1 if request.modes & ntp.NANO else 1000)
        if request.modes & ntp.SETOFFSET and 0 <= part < NANOS and \
                self.is_near_start(self.clocks.time(0, self.reading) + part):
            request.sub = 0

    def check_refused(self, request, replies, codes):
        """Both must refuse, and write nothing. Ends at a refused step."""
        is_written = any(bytes(reply) != bytes(request) for reply in replies)
        if codes != (INVALID, CODES["invalid"]) or is_written:
            raise Differs(f"request {request.text()}: {codes}")
        if not ntp.Timex(*(getattr(request, name) for name in ntp.FIELDS)).is_faulty():
            raise Known("a refused step changes nothing")

    def set_time(self):
        day, nsec = ntp.DAY * self.rng.randrange(10_000, 20_000), self.rng.randrange(NANOS)
        sec = self.rng.choice([day - self.rng.randrange(1, 6), day + self.rng.randrange(10**6)])
        theirs = self.kernel.settime(sec, nsec, self.reading)
        ours = self.clocks.apply(self.reading, SET_TIME, sec, nsec)
        if bool(theirs) != bool(ours):
            raise Differs(f"a set: {theirs}, {ours}")
        self.settings += 1

    def sleep(self):
        ns = self.rng.randrange(1, self.rng.choice([2, NANOS, 10**5 * NANOS]))
        self.kernel.suspend(self.reading)
        self.apply(SUSPEND)
        self.reading += self.rng.randrange(self.rate)
        self.kernel.resume(ns, self.reading)
        self.apply(RESUME, *divmod(ns, NANOS))
        self.tick = self.reading + self.kernel.step
        self.settings += 1

    def gap(self):
        """Returns the cycles to the next call: up to seconds, seldom minutes, for the FLL."""
        pick = self.rng.randrange(200)
        longest = 0 if pick < 20 else 300 if pick < 24 else 2_200 if pick == 24 else 3
        return self.rng.randrange(1 + longest * self.rate)

    def run(self):
        for _ in range(REQUESTS):
            self.move(self.reading + self.gap())
            self.settle()
            self.check_state()
            self.check_times()
            pick = self.rng.randrange(60)
            if pick == 0:
                self.set_time()
            elif pick == 1:
                self.sleep()
            elif pick < 5:
                self.ask_again()
            else:
                self.ask(self.requests.request())
