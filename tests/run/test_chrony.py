"""chronyd, unmodified, corrects the clocks of tkrun by a chronyd on 127.0.0.1 that serves the host's
time."""
import os
import re
import shutil
import subprocess
import time
import unittest

from runs import ROOT, TKRUN, RunTest, free_port, needs_root

EXAMPLE = ROOT / "examples/chrony"
CHRONYD = shutil.which("chronyd", path="/usr/sbin:/sbin:/usr/bin:/bin")
DAEMON = [CHRONYD, "-d", "-u", "root", "-F", "0", "-f"]
SPAN = 60  # seconds


class Chrony(RunTest):
    def configured(self, name, places):
        """Copies a configuration of the example, at these ports and in this folder."""
        text = (EXAMPLE / name).read_text()
        for place, other in places.items():
            text = text.replace(place, other)
        return self.file(name, text)

    def tracking(self, port):
        """What the client believes: its offset in seconds, and its frequency in ppm."""
        report = subprocess.run(["chronyc", "-h", "127.0.0.1", "-p", str(port), "-c", "tracking"],
                                text=True, stdout=subprocess.PIPE, check=True).stdout.split(",")
        return float(report[4]), float(report[7])

    @needs_root("runs a chronyd")
    @unittest.skipUnless(CHRONYD, "chronyd isn't installed")
    def test_a_clock_that_is_off_and_too_fast(self):
        places = {"11123": str(free_port()), "11323": str(free_port()), "/tmp": str(self.folder)}
        server, client = (self.configured(name, places) for name in ("server.conf", "client.conf"))
        log = self.folder / "log"
        self.begin("setpriv", "--bounding-set", "-sys_time", *DAEMON, server, "-x",
                   stderr=subprocess.STDOUT)
        run = self.begin(TKRUN, "--ahead", 0.3, "--error-ppm", 80, "--log", log, "--check", "--",
                         *DAEMON, client, stderr=subprocess.STDOUT)
        time.sleep(SPAN)
        offset, frequency = self.tracking(places["11323"])
        run.terminate()
        report, calls = run.communicate(timeout=100)[0], log.read_text()
        self.assertEqual(run.returncode, 0, report)
        self.assertRegex(report, "check: tkcore gives each of the [0-9]+ values")
        self.assertRegex(report, "commands: [0-9]+ accepted, 0 refused")
        self.assertFalse(re.search(" = E[A-Z]+$", calls, re.MULTILINE), calls)
        is_busy = os.getloadavg()[0] > os.cpu_count()
        self.assertLess(abs(offset), 0.001 if is_busy else 0.00002, calls)
        self.assertLess(abs(frequency - 80), 2 if is_busy else 0.5, calls)
