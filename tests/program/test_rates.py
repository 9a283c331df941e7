"""The exact rate of steered clocks: the five equations of docs/NTP.md, in the notation of that page, give the number
of commands in each line."""
from fractions import Fraction
from math import floor

from program import Case, run
from test_steered import request

N, F = 10**9 * 2**32, 500_000 * 2**32
COUNTERS = [(8_388_608, 23), (174_762_667, 22), (3_495_253_333, 26), (1_000_003, 10), (300, 0)]


def toward_zero(number):
    return floor(number) if number >= 0 else -floor(-number)


def clamp(number, most):
    return max(-most, min(most, number))


class Clocks:
    """Clocks that were opened at the reading 0, half a second after a second, and the commands that they got."""

    def __init__(self, mult, shift, sec, hz):
        self.mult, self.shift, self.hz = mult, shift, hz
        self.tick, self.frequency, self.offset, self.constant, self.adjust, self.phase = 10_000, 0, 0, 2, 0, 0
        self.in_force, self.m, self.lag, self.account_at = (10_000, 0), mult, 0, 0
        self.last, self.amount, self.real, self.next, self.number = 0, 0, sec * 10**9 + 10**9 // 2, sec + 1, 0

    def length(self):
        return self.hz * (floor(Fraction(self.tick * 100_000 * 2**32 + self.frequency, self.hz)) + self.phase)

    def account(self, reading):
        """Equation 2."""
        cycles, self.account_at = reading - self.account_at, reading
        self.lag = clamp(self.lag + cycles * (self.mult * self.length() - self.m * N), 10**9 * 2**self.shift * N // 2)

    def command(self, reading):
        self.account(reading)
        self.amount += (reading - self.last) * self.m
        self.last, self.number = reading, self.number + 1

    def rate(self, reading):
        """Equations 3 to 5, and the commands."""
        more = clamp(floor(Fraction(self.lag, 10**9 * 2**self.shift)), F + 2 * N // self.mult)
        rate = max(58_949_632_000, min(72_122_368_000, floor(Fraction(self.length() + more, 65_536_000))))
        multiplier = self.mult * rate // 65_536_000_000
        if multiplier == self.m:
            return
        tick = self.tick
        if abs(rate - tick * 6_553_600) > 32_768_000:
            tick = max(9_000, min(11_000, (rate + 3_276_800) // 6_553_600))
        frequency = rate - tick * 6_553_600
        for of, wanted in ((0, tick), (1, frequency)):
            if self.in_force[of] != wanted:
                self.command(reading)
        self.in_force, self.m = (tick, frequency), multiplier

    def begin(self, reading):
        """Begins the seconds up to a reading, each at the first reading at which REALTIME reaches it."""
        while True:
            units = (self.next * 10**9 - self.real) * 2**self.shift - self.amount
            at = self.last + max(0, -(-units // self.m))
            if at > reading:
                return
            self.account(at)
            part = toward_zero(Fraction(self.offset, 2**(2 + self.constant)))
            self.offset -= part
            self.phase = part + self.part_of_adjtime()
            self.next += 1
            self.rate(at)

    def part_of_adjtime(self):
        if abs(self.adjust) > 500:
            sign = 1 if self.adjust > 0 else -1
            self.adjust -= 500 * sign
            return sign * (F // self.hz)
        rest, self.adjust = self.adjust, 0
        return toward_zero(Fraction(1_000 * rest, self.hz)) * 2**32

    def ask(self, reading, **given):
        """Does what a request of these numbers asks for, and returns its record."""
        self.begin(reading)
        if "adjtime" in given:
            self.adjust = given["adjtime"]
            return request(reading, 0x8001, offset=given["adjtime"])
        self.account(reading)
        modes = sum({"freq": 0x2, "tick": 0x4000, "ns": 0x2035, "ignored": 0x1}[name] for name in given)
        if "freq" in given:
            self.frequency = given["freq"] * 65_536_000
        self.tick = given.get("tick", self.tick)
        if "ns" in given:
            # (the first offset, or one without time since the last one: the frequency stays)
            self.offset, self.constant = toward_zero(Fraction(given["ns"] * 2**32, self.hz)), 3
        self.rate(reading)
        numbers = {"freq": given.get("freq", 0), "tick": given.get("tick", 0),
                   "offset": given.get("ns", given.get("ignored", 0)), "status": 1, "constant": 3}
        return request(reading, modes, **numbers)


class Rates(Case):
    def check_numbers(self, clocks, records):
        """An update at each reading, and these requests, get the numbers of the equations."""
        sec, script, wanted = clocks.next - 1, "", []
        for reading, given in records:
            if given is None:
                clocks.begin(reading)
                clocks.command(reading)
                script += f"update,{reading}\n"
            else:
                script += clocks.ask(reading, **given)
            wanted.append(str(clocks.number))
        opening = f"open,64,{clocks.mult},{clocks.shift},0,{sec},500000000,{clocks.hz}\n"
        lines = run(given=opening + script).text.splitlines()[1:]
        self.assertEqual(wanted, [line.split(",")[1 if line.startswith("ok,") else -1] for line in lines])
        last = lines[-1].split(",")[2]
        self.assertEqual(last, "{}.{:09}".format(*divmod(clocks.amount >> clocks.shift, 10**9)))
        return wanted

    def test_the_equations_give_the_number_of_commands(self):
        for mult, shift in COUNTERS:
            for hz in (1, 3, 100, 250, 1_000, 1_024):
                second = -(-(10**9 << shift) // mult)
                requests = [{"freq": 6_553_601}, None, {"adjtime": 1_201}, None, {"tick": 10_113}, None, None,
                            {"freq": -32_768_000}, {"ignored": 77}, None, {"tick": 9_000}, None, None, {"tick": 11_000},
                            {"freq": 32_768_000}, None, {"adjtime": -700}, None, None, {"tick": 10_000, "freq": 0}, None]
                records = [(number * 13 * second // 7, given) for number, given in enumerate(requests)]
                self.check_numbers(Clocks(mult, shift, 1_700_000_000, hz), records)

    def test_a_pll_gets_a_rate_in_each_second(self):
        for mult, shift in COUNTERS:
            for hz in (1, 7, 250, 1_000):
                second = -(-(10**9 << shift) // mult)
                records = [(0, {"ns": 123_456_789})] + [(number * second, None) for number in range(1, 60)]
                self.check_numbers(Clocks(mult, shift, 1_700_000_000, hz), records)

    def test_an_offset_without_a_pll_sets_the_rate_again(self):
        # 0.4 s at a multiplier that is one unit too low leave a lag, which the request makes up for
        records = [(0, {"freq": -1}), (400_000_000, {"ignored": 5}), (400_000_001, None)]
        self.assertEqual(["1", "2", "3"], self.check_numbers(Clocks(8_388_608, 23, 1_700_000_000, 250), records))
