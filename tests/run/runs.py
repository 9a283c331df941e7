"""What the tests of tkrun share."""
import faulthandler
import fcntl
import os
import pathlib
import random
import re
import select
import shutil
import signal
import socket
import subprocess
import tempfile
import threading
import time
import unittest

ROOT = pathlib.Path(__file__).resolve().parents[2]
TKRUN = os.environ.get("TKRUN_PROGRAM", str(ROOT / "dist/bin/tkrun"))
PROGRAMS = os.environ.get("TKRUN_TESTS", str(ROOT / "dist/tests"))  # tools/check_run compiles them
SECONDS = 600  # the longest that a run may take: that of signalled.c has taken 120 on a busy machine

CALLS = {"openat": "257", "ptrace": "101", "seccomp": "317"}  # the numbers of system calls
STILL = ["--counter", "sleeps"]  # no time passes while programs compute
OTHER = ["setpriv", "--reuid", "65531", "--regid", "65531", "--clear-groups"]  # another user
IS_ROOT = os.geteuid() == 0


def call(command, **options):
    """Runs a command, and returns its status and its texts. If it takes too long, it is ended with
    all that it has started."""
    given = options.pop("input", None)
    if given is not None:
        options["stdin"] = subprocess.PIPE
    with subprocess.Popen(command, stdout=subprocess.PIPE, stderr=subprocess.PIPE, text=True,
                          start_new_session=True, **options) as process:
        try:
            texts = process.communicate(given, SECONDS)
        except subprocess.TimeoutExpired:
            os.killpg(process.pid, signal.SIGKILL)
            raise
    return subprocess.CompletedProcess(command, process.returncode, *texts)


def unpacked(archive, names):
    """Unpacks files of an archive, once for all processes of a run. Returns the folder."""
    place = pathlib.Path(PROGRAMS, f"{archive.name}.unpacked")
    with open(f"{place}.lock", "w") as lock:
        fcntl.flock(lock, fcntl.LOCK_EX)
        if not place.exists():
            begun = pathlib.Path(tempfile.mkdtemp(dir=PROGRAMS))
            subprocess.run(["tar", "-xf", archive, "-C", begun, *names], check=True)
            begun.rename(place)
    return place


def wait_until(holds):
    """Waits until a condition holds, at most as long as a run may take."""
    end = time.monotonic() + SECONDS
    while not holds():
        if time.monotonic() > end:
            raise TimeoutError(f"{SECONDS} s have passed")
        time.sleep(0.01)


def host_call(command, text=""):
    """Runs a program on the host's clocks, which it may not set. Returns its output."""
    keeps = ["setpriv", "--bounding-set", "-sys_time"] if IS_ROOT else []
    run = call([*keeps, command], input=text)
    assert run.returncode == 0, run.stderr
    return run.stdout


def program(name):
    """The path of a program of tests/run."""
    return f"{PROGRAMS}/{name}"


def free_port():
    """A port of UDP on 127.0.0.1 that nobody has, and that the kernel gives nobody."""
    while True:
        port = random.randrange(10000, 32768)  # those that the kernel chooses are above
        with socket.socket(socket.AF_INET, socket.SOCK_DGRAM) as probe:
            try:
                probe.bind(("127.0.0.1", port))
                return port
            except OSError:
                pass


# prints the second of REALTIME by three functions of the C library, in Python
LIBRARY = """import ctypes
library = ctypes.CDLL("libc.so.6")
pair = (ctypes.c_long * 2)()
library.clock_gettime(0, pair)
second = pair[0]
library.gettimeofday(pair, None)
print(second, pair[0], library.time(None))
"""


def end_group(process):
    """Ends a process that was started in a session of its own, with all that it has started."""
    if process.poll() is None:
        os.killpg(process.pid, signal.SIGKILL)


class RunTest(unittest.TestCase):
    def setUp(self):
        # a test that waits for ever ends the run, and says where it waits
        faulthandler.dump_traceback_later(2 * SECONDS, exit=True)
        self.addCleanup(faulthandler.cancel_dump_traceback_later)
        self.folder = pathlib.Path(tempfile.mkdtemp(prefix="tkrun-test."))
        self.addCleanup(shutil.rmtree, self.folder)

    def begin(self, *command, **options):
        """Starts a command, and returns its process, whose output can be read. It is ended with the
        test, or if it takes too long: so a line that never comes is an empty one."""
        given = {"stdout": subprocess.PIPE, "text": True, "start_new_session": True, **options}
        process = subprocess.Popen(list(map(str, command)), **given)
        limit = threading.Timer(SECONDS, end_group, [process])
        limit.start()
        for file in filter(None, (process.stdin, process.stdout, process.stderr)):
            self.addCleanup(file.close)
        self.addCleanup(process.wait)
        self.addCleanup(end_group, process)
        self.addCleanup(limit.cancel)
        return process

    def check_holder(self, *words):
        """Runs a program that is stopped while it has the lock of its clocks: tkrun names it."""
        run = self.begin(TKRUN, "--quiet", *words, program("held"), stderr=subprocess.PIPE)
        process = int(run.stdout.readline())
        named = select.select([run.stderr], [], [], 100)[0] and run.stderr.readline()
        os.kill(process, signal.SIGCONT)
        self.assertEqual(run.communicate(timeout=100), ("", ""))
        self.assertEqual((run.returncode, named), (0, (
            f"tkrun: 'held' (process {process}) is stopped while it has the lock of the "
            "clocks: all others wait for it\n")))

    def start(self, *arguments, env=None):
        """Runs tkrun with these arguments."""
        return call([TKRUN, *map(str, arguments)], env={**os.environ, **(env or {})})

    def run_on(self, *arguments, status=0):
        """Runs tkrun quietly, and returns the program's output."""
        run = self.start("--quiet", *arguments)
        self.assertEqual((run.returncode, run.stderr), (status, ""), run.stdout)
        return run.stdout

    def share(self):
        """Copies tkrun into the test's folder, so that other users may run it."""
        shared = self.folder / "dist"
        shutil.copytree(pathlib.Path(TKRUN).parents[1] / "lib", shared / "lib")
        (shared / "bin").mkdir()
        shutil.copy(TKRUN, shared / "bin")
        shutil.copy(shutil.which("tkcore"), shared / "bin")
        self.folder.chmod(0o755)
        return shared

    def make_root(self, *programs):
        """Makes a root with these programs and their libraries, and without tkrun's."""
        for name in programs:
            path = pathlib.Path(shutil.which(name))
            listed = call(["ldd", path]).stdout.split()
            for file in [str(path)] + [word for word in listed if word.startswith("/")]:
                copy = self.folder / "root" / file.lstrip("/")
                copy.parent.mkdir(parents=True, exist_ok=True)
                shutil.copy(file, copy)
        return self.folder / "root"

    def file(self, name, text):
        path = self.folder / name
        path.write_text(text)
        return path


def needs_root(reason):
    """Skips a test if it isn't run by root."""
    return unittest.skipUnless(IS_ROOT, f"only root {reason}")


def succeeds(*command):
    """Whether a command runs, and ends with status 0."""
    return not subprocess.run(command, check=False, capture_output=True).returncode


# a container may have neither
CAN_MOUNT = IS_ROOT and succeeds("unshare", "-m", "mount", "-t", "tmpfs", "tmpfs", "/dev/shm")
CAN_FILTER = succeeds(TKRUN, "--static", "--", "true")
CAN_TRACE = succeeds(program("traced"), "true")
LINUX = tuple(map(int, re.match(r"(\d+)\.(\d+)", os.uname().release).groups()))


def needs_mounts(reason):
    """Skips a test if no file system can be mounted."""
    return unittest.skipUnless(CAN_MOUNT, f"only root, with the right to mount, {reason}")


def needs(name):
    """Skips a test if a program isn't installed."""
    return unittest.skipUnless(shutil.which(name), f"{name} isn't installed")
