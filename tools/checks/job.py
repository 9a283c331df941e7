"""A command of CI in a process group, so that it can be ended with all that it started."""
import contextlib
import os
import pathlib
import signal
import subprocess
import time

PAUSE = 0.1  # s between two looks at a command's output
# The nice values of a command that runs next to others and gets a third of their time, and of one
# that only uses idle processors.
BESIDE, IDLE = 5, 19
GRACE = 10  # s that a command has to end after SIGTERM


class Job:
    """A command that runs. Its output goes into a file."""

    def __init__(self, command, output, nice=0, limit_sec=None):
        """Starts a command, which is so nice to others. It is ended if it takes longer than the
        limit."""
        self.output = pathlib.Path(output)
        self.started, self.limit_sec = time.monotonic(), limit_sec
        words = [*(["nice", "-n", str(nice)] if nice else []), *map(str, command)]
        with open(self.output, "wb") as file:
            self.process = subprocess.Popen(words, stdin=subprocess.DEVNULL, stdout=file,
                                            stderr=subprocess.STDOUT, process_group=0)
        self.number = self.process.pid
        self.status = None
        self.wall_sec = self.processor_sec = 0

    def is_over(self):
        """Whether the command has taken longer than its limit."""
        return self.limit_sec is not None and time.monotonic() - self.started > self.limit_sec

    def has_ended(self):
        """Whether the command has ended. What it left in its group is ended then."""
        if self.status is not None:
            return True
        if not os.waitid(os.P_PID, self.number, os.WEXITED | os.WNOHANG | os.WNOWAIT):
            if self.is_over():
                self.signal(signal.SIGKILL)
            return False
        # (its number can't be another group's as long as it isn't waited for)
        self.signal(signal.SIGKILL)
        _, status, usage = os.wait4(self.number, 0)
        self.status = self.process.returncode = os.waitstatus_to_exitcode(status)
        self.wall_sec = time.monotonic() - self.started
        self.processor_sec = usage.ru_utime + usage.ru_stime
        return True

    def signal(self, number):
        with contextlib.suppress(ProcessLookupError):
            os.killpg(self.number, number)

    def follow(self, meanwhile):
        """Prints the output of the command until it has ended, and calls `meanwhile` again and
        again. Returns all of the output."""
        found = []
        with open(self.output, encoding="utf-8", errors="replace") as file:
            while True:
                has_ended = self.has_ended()
                found.append(file.read())
                print(found[-1], end="", flush=True)
                if has_ended:
                    return "".join(found)
                meanwhile()
                time.sleep(PAUSE)

    def end(self):
        """Ends the command with all that it started."""
        if self.has_ended():
            return
        self.signal(signal.SIGTERM)
        last = time.monotonic() + GRACE
        while not self.has_ended() and time.monotonic() < last:
            time.sleep(PAUSE)
        if not self.has_ended():
            self.signal(signal.SIGKILL)
