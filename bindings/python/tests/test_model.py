# SPDX-License-Identifier: MIT OR Apache-2.0
"""Random calls against the definitions in Python, tests/model/model.py.

The environment variable TKCORE_CALLS is the number of calls, 20000 if it isn't set.
"""
import unittest
from array import array

import tkcore
from support import CALLS, seeded

import compare
import model

COMMANDS = {"update": "UPDATE", "set": "SET_TIME", "step": "STEP", "freq": "FREQ", "tick": "TICK",
            "tai": "TAI_OFFSET", "suspend": "SUSPEND", "resume": "RESUME", "leap": "LEAP"}
REFUSALS = {"asleep": tkcore.Asleep, "awake": tkcore.Awake, "invalid": tkcore.Invalid,
            "behind": tkcore.Behind, "range": tkcore.Range}


def with_leaps(rng, rows):
    """Returns rows in which half of the steps and TAI offsets became leap seconds, for which a
    script has no record."""
    def replaced(word, fields):
        if word not in ("step", "tai") or rng.randrange(2):
            return word, fields
        return "leap", [fields[0], rng.choice([-1, -1, 1, 1, 0, 2]),
                        rng.choice([0, 36, 38, 100_000, 100_001])]
    return [replaced(*row) for row in rows]


class Model(unittest.TestCase):
    def setUp(self):
        self.calls = self.leaps = 0

    def answers(self, wanted, call, *arguments):
        """Makes a call, which must give the result or raise the refusal that is wanted."""
        self.calls += 1
        if not isinstance(wanted, str):
            self.assertEqual(call(*arguments), wanted, arguments)
            return
        with self.assertRaises(REFUSALS[wanted], msg=arguments):
            call(*arguments)

    def read(self, snapshot, journal, reading):
        """Reads all clocks, and converts the reading as the third of a list."""
        for clock in tkcore.ClockId:
            line = model.look(journal, reading, clock.name.lower())
            refused = line[3:] if line.startswith("no,") else None
            value = refused or journal.value(clock.name.lower(), reading)
            self.answers(value, snapshot.get, reading, clock)
            if not refused:
                last = snapshot.words()[1]
                stamps = array("Q", [last, last, reading])
                self.answers(value, lambda: snapshot.convert(stamps, clock)[2])

    def test_random_calls(self):
        rng = seeded()
        while self.calls < CALLS:
            try:
                journal, rows = model.parsed(compare.unquoted_script(rng))
            except model.Fault:
                continue
            of, opening = journal.counter, journal.opening
            clock = tkcore.Clock(tkcore.Counter(of.bits, of.mult, of.shift), opening.reading,
                                 opening.real_offset)
            for word, (reading, *fields) in with_leaps(rng, rows):
                if word == "get":
                    self.read(clock.snapshot(), journal, reading)
                    continue
                journal, line = model.done(journal, word, reading, fields, True)
                self.answers(line[3:] if line.startswith("no,") else None, clock.apply, reading,
                             tkcore.Command[COMMANDS[word]], *fields)
                self.assertEqual(clock.words()[0][0], len(journal.entries))
                self.leaps += word == "leap" and line.startswith("ok")
        self.assertGreater(self.leaps, 0)
        print(f"\n{self.calls} calls gave the answers of the definitions, with {self.leaps} leap "
              "seconds")


class Rates(unittest.TestCase):
    def test_random_rates(self):
        rng = seeded()
        for _ in range(CALLS // 10):
            bits, maxsec = rng.choice([8, 32, 64]), rng.randrange(1, 601)
            hz = min(max(1, int(2 ** (rng.random() * 32))), 2**32 - 1)
            wanted = model.from_hz(bits, hz, maxsec)
            self.assertEqual(tkcore.Counter.from_hz(bits, hz, maxsec),
                             tkcore.Counter(wanted.bits, wanted.mult, wanted.shift))


if __name__ == "__main__":
    unittest.main()
