"""The clocks of a script whose first record has `hz` or the numbers of a discipline: it steers them, and the journal
lists the commands that they got."""
from model import Journal, numbers_of, ok_line, value_of
from ntp import STA_NANO, Timex
from steered_clock import Clock, Refused, Steered


class SteeredSession(Steered):
    """Steered clocks with their journal, as the records of a script change them."""

    def __init__(self, journal):
        opening = journal.opening
        super().__init__(opening.counter, opening.reading, opening.real_offset, opening.hz)
        if opening.discipline:
            self.clock = Clock(opening.counter, opening.reading, opening.real_offset, opening.units, opening.raw_units,
                               opening.boot_offset, opening.tai, opening.frequency, opening.tick, opening.is_asleep)
            self.restore(*opening.discipline)
        self.journal = Journal(opening)

    def first_record(self):
        """The record by which another script continues the clocks as they are."""
        counter = self.clock.counter
        return ["openwords", counter.bits, counter.mult, counter.shift, *numbers_of(self.journal), *self.numbers()]

    def command(self, reading, word, *fields):
        super().command(reading, word, *fields)
        self.journal.entries.append((word, reading, value_of(word, fields)))

    def look(self, reading):
        """Lets the seconds up to a read begin, unless its reading is refused."""
        try:
            self.advance(reading)
        except Refused:
            pass

    def line(self, word, reading, fields):
        """Carries out a record that is no read, and returns its line."""
        try:
            if word == "adjtimex":
                return self.adj_line(self.adjtimex(reading, Timex(*fields)))
            if word == "counter":
                raise Refused("invalid")
            self.apply(reading, word, *fields)
        except Refused as refused:
            return f"no,{refused}"
        return ok_line(self.journal, reading)

    def adj_line(self, reply):
        state, sec, sub, offset, freq, maxerror, esterror, status, constant, tick, tai = reply
        part = f"{sub:09}" if status & STA_NANO else f"{sub:06}"
        numbers = offset, freq, maxerror, esterror, status, constant, tick, tai, self.journal.accepted_count()
        return ",".join(map(str, ("adj", state.lower(), f"{sec}.{part}", *numbers)))
