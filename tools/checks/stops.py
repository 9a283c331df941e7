"""The signals that end a run of CI, which let a command that starts be recorded first."""
import contextlib
import signal
import sys

NUMBERS = (signal.SIGINT, signal.SIGTERM, signal.SIGHUP)
STATUS = 130  # with which the run ends after one of them


class Stops:
    """Ends the run by `sys.exit` when a signal comes, or at the end of a block that holds it."""

    def __init__(self):
        self.is_held = self.has_come = False
        for number in NUMBERS:
            signal.signal(number, self.come)

    def come(self, *_):
        self.has_come = True
        self.end_if_come()

    def end_if_come(self):
        if self.has_come and not self.is_held:
            sys.exit(STATUS)

    @contextlib.contextmanager
    def held(self):
        """Holds signals up to the end of the block (which starts a command and records it)."""
        self.is_held = True
        try:
            yield
        finally:
            self.is_held = False
        self.end_if_come()

    def ignore(self):
        """Ignores these signals from now on, while the run is closed."""
        for number in NUMBERS:
            signal.signal(number, signal.SIG_IGN)
