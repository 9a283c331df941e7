"""Runs the program that tools/build_program built, or the one that TKCORE names, in a new folder."""
import dataclasses
import os
import pathlib
import socket
import subprocess
import tempfile
import unittest

BUILT = pathlib.Path(__file__).resolve().parents[2] / "dist/bin/tkcore"
PROGRAM = os.environ.get("TKCORE", BUILT)
SECONDS = 60

# a counter of one nanosecond a cycle with readings of 32 bits, opened at reading 0
OPENING = "open,32,16777216,24,0,1700000000,0\n"
# a script whose second record has too few fields, and its fault
SHORT = OPENING + "set,5,7\n"
SHORT_FAULT = "record 2: wrong number of fields"


@dataclasses.dataclass(frozen=True)
class Ending:
    """How a run ended: its status, its line of error without `tkcore: `, and what it wrote."""

    status: int
    error: str
    text: str


DONE = Ending(0, "", "")


def as_bytes(text):
    return text if isinstance(text, bytes) else text.encode()


def writes_to(reader):
    """The writes to a socket that keeps each as a message, until it is closed."""
    writes = []
    while write := reader.recv(65_536):
        writes.append(write)
    return writes


def run(*words, given="", files=None, seconds=SECONDS):
    """Runs the program by these words, over standard input and over files by their names. Whatever it
    writes to standard error must be one write, so that a line there is whole or absent."""
    with tempfile.TemporaryDirectory() as room:
        for name, text in (files or {}).items():
            pathlib.Path(room, name).write_bytes(as_bytes(text))
        reader, errors = socket.socketpair(socket.AF_UNIX, socket.SOCK_SEQPACKET)
        with reader:
            with errors:
                ran = subprocess.run([PROGRAM, *words], cwd=room, input=as_bytes(given),
                                     stdout=subprocess.PIPE, stderr=errors, timeout=seconds,
                                     check=False)
            writes = writes_to(reader)
    if len(writes) > 1:
        raise AssertionError(f"standard error was written in parts: {writes}")
    error = b"".join(writes).decode().removeprefix("tkcore: ").removesuffix("\n")
    return Ending(ran.returncode, error, ran.stdout.decode())


class Case(unittest.TestCase):
    """Tests of what the program ends with and writes."""

    maxDiff = None

    def check_text(self, text, *words, given="", files=None):
        """The run is done, and writes this text."""
        self.assertEqual(Ending(0, "", text), run(*words, given=given, files=files))

    def check_error(self, error, *words, given="", files=None):
        """The run ends with this error, and writes nothing."""
        self.assertEqual(Ending(1, error, ""), run(*words, given=given, files=files))
