"""Requests at each bound of a field and one past it, and what a comparison must have met."""
import sys
from collections import Counter
from pathlib import Path

sys.path.insert(0, str(Path(__file__).resolve().parents[1] / "model"))

# pylint: disable=wrong-import-position
from ntp import (ADJTIME, ESTERROR, FIELDS, FREQUENCY, MAXERROR, MICRO, NANO, OFFSET, SETOFFSET,
                 STA_FLL, STA_PLL, STATUS, TAI, TICK, TIMECONST, Timex)

PARTS, BITS = (1, 100, 250, 1000), (8, 32, 64)
OPENED = 0, 1, 1024, 1025               # the bounds of hz, and one past each
REFUSALS = "asleep", "behind", "invalid", "range"
LEAPS = 0, -1, 1                        # what a coming leap second moves REALTIME by
LATE = "a second", "several seconds", "an inserted second", "a deleted second"


def both(*values):
    return [sign * value for value in values for sign in (1, -1)]


# the modes, the field, and its values
BOUNDS = {
    "offset, ns": (OFFSET | STATUS | NANO, "offset", both(500_000_000, 500_000_001)),
    "offset, us": (OFFSET | STATUS | MICRO, "offset", both(500_000, 500_001, 10**6, 10**6 + 1)),
    "adjtime": (ADJTIME | OFFSET, "offset", both(500, 501, 2**63 - 1) + [0, -2**63]),
    "freq": (FREQUENCY, "freq", both(32_768_000, 32_768_001, 140_737_488_355, 140_737_488_356)),
    "maxerror": (MAXERROR, "maxerror", [-1, 0, 16_000_000, 16_000_001]),
    "esterror": (ESTERROR, "esterror", [-1, 0, 16_000_000, 16_000_001]),
    "constant, ns": (TIMECONST | NANO, "constant", [-1, 0, 10, 11]),
    "constant, us": (TIMECONST | MICRO, "constant", [-1, 0, 6, 7, 10, 11]),
    "tai": (TAI, "constant", [-1, 0, 100_000, 100_001]),
    "tick": (TICK, "tick", [8_999, 9_000, 11_000, 11_001]),
    "step, ns": (SETOFFSET | NANO, "sub", [-1, 0, 999_999_999, 10**9]),
    "step, us": (SETOFFSET, "sub", [-1, 0, 999_999, 10**6]),
    "seconds since an offset": (SETOFFSET | OFFSET | STATUS | TIMECONST, "sec",
                                [255, 256, 2_048, 2_049]),
}
ALL = [(name, value) for name, (_, _, values) in BOUNDS.items() for value in values]


def requests(random):
    """Returns the fields of a request at a bound, or of two requests at the same reading."""
    name, value = random.choice(ALL)
    modes, field, _ = BOUNDS[name]
    given = {"status": random.choice([STA_PLL, STA_PLL | STA_FLL]),
             "offset": random.randrange(-10**5, 10**5), "constant": random.randrange(11)}
    bounded = fields(modes, **{**given, field: value})
    if field == "sec":
        return [fields(modes & ~SETOFFSET, **given), bounded]
    return [bounded]


def fields(modes, **given):
    return [modes if name == "modes" else given.get(name, 0) for name in FIELDS]


class Met:
    """What the records so far have met: bounds, refusals of requests, and the replies of each hz
    and of each counter's bits."""

    def __init__(self):
        self.counts = Counter()

    def add(self, session, record, line):
        word, *numbers = record.split(",")
        if word == "open":
            self.counts["opened with", int(numbers[-1])] += 1
        if word == "late" and line.startswith("ok"):
            self.add_late(*session.began_late)
        if line.startswith("asked,"):
            self.counts["leap", int(line.split(",")[1])] += 1
        if word != "adjtimex":
            return
        request = Timex(*map(int, numbers[1:]))
        if line.startswith("adj,"):
            self.counts["replies"] += 1
            self.counts["hz", session.steered.ntp.hz] += 1
            self.counts["bits", session.steered.clock.counter.bits] += 1
        else:
            self.counts["refused", line.split(",")[1].removeprefix("TKC_").lower()] += 1
        if line.startswith("adj,") or request.is_faulty():
            self.add_bounds(request)

    def add_late(self, seconds, inserted):
        if seconds:
            self.counts["late", LATE[seconds > 1]] += 1
        if inserted:
            self.counts["late", LATE[2 if inserted > 0 else 3]] += 1

    def add_bounds(self, request):
        for name, (modes, field, values) in BOUNDS.items():
            if request.modes == modes and getattr(request, field) in values:
                self.counts[name, getattr(request, field)] += 1

    def missing(self):
        """Returns what a comparison must meet and hasn't met."""
        wanted = [("hz", hz) for hz in PARTS] + [("bits", bits) for bits in BITS] + ALL
        wanted += [("refused", refusal) for refusal in REFUSALS]
        wanted += [("late", kind) for kind in LATE]
        wanted += [("opened with", hz) for hz in OPENED]
        wanted += [("leap", by) for by in LEAPS]
        return [f"{name} {value}" for name, value in wanted if not self.counts[name, value]]

    def text(self):
        kinds = {"hz": PARTS, "bits": BITS, "refused": REFUSALS, "late": LATE, "leap": LEAPS}
        parts = [f"{kind} " + ", ".join(f"{value}: {self.counts[kind, value]}" for value in values)
                 for kind, values in kinds.items()]
        least = min(self.counts[bound] for bound in ALL)
        return f"{self.counts['replies']} replies; {'; '.join(parts)}; each bound at least {least}"
