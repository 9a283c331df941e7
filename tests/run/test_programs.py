"""Programs that know nothing of tkrun: at chosen dates, through a leap second, and on counters that
are faster than the host's time or move only with sleeps. Dates are by the proleptic Gregorian
calendar, and the leap second is that of 2016."""
import shutil

from runs import STILL, RunTest, needs

# at 23:59:58 a second is inserted: REALTIME goes back by one, and TAI goes on
LEAP = """openhz,64,1000000000,1,0,1483228798,0
tai,0,36
step,2000000000,-1,0
tai,2000000000,37
"""


# each prints the second of REALTIME, by its own call, at each of TIMES times, a second apart
SECONDS = {
    "date": ["bash", "-c", "for i in $(seq TIMES); do date +%s; sleep 1; done"],
    "bash": ["bash", "-c", "for i in $(seq TIMES); do echo $EPOCHSECONDS; sleep 1; done"],
    "python3": ["/usr/bin/python3", "-c",
                "import time\nfor i in range(TIMES): print(int(time.time())); time.sleep(1)"],
    "perl": ["/usr/bin/perl", "-e", "for (1..TIMES) { print time, qq(\\n); sleep 1 }"],
    "node": ["node", "-e", "let left = TIMES; const show = () => { console.log(Math.floor("
             "Date.now() / 1000)); if (--left) setTimeout(show, 1000) }; show()"],
    "java": ["java", "FOLDER/Seconds.java"],
    "sqlite3": ["bash", "-c", "for i in $(seq TIMES); do "
                "sqlite3 :memory: \"select strftime('%s', 'now')\"; sleep 1; done"],
    "openssl": ["bash", "-c", "for i in $(seq TIMES); do openssl req -x509 -newkey ec -nodes "
                "-pkeyopt ec_paramgen_curve:prime256v1 -subj /CN=a -keyout /dev/null 2>/dev/null | "
                "openssl x509 -noout -startdate | cut -d= -f2 | date +%s -f -; sleep 1; done"],
}
JAVA_SECONDS = """public class Seconds {
    public static void main(String[] arguments) throws Exception {
        for (int i = 0; i < TIMES; i++) {
            System.out.println(java.time.Instant.now().getEpochSecond());
            Thread.sleep(1000);
        }
    }
}"""


class Programs(RunTest):
    def seconds(self, name, times, *options):
        """The seconds that a program reads, on a counter of sleeps. The record is checked."""
        self.file("Seconds.java", JAVA_SECONDS.replace("TIMES", str(times)))
        command = [word.replace("TIMES", str(times)).replace("FOLDER", str(self.folder))
                   for word in SECONDS[name]]
        return list(map(int, self.run_on(*STILL, *options, "--check", "--", *command).split()))

    def test_each_program_at_dates(self):
        for name in filter(shutil.which, SECONDS):
            # 2001-09-09, and the second before and after 31 bits of seconds overflow
            for start in (10**9, 2**31 - 1):
                with self.subTest(name, start=start):
                    self.assertEqual(self.seconds(name, 2, "--start", start), [start, start + 1])

    def test_each_program_through_a_leap_second(self):
        script = self.file("s", LEAP)
        for name in filter(shutil.which, SECONDS):
            with self.subTest(name):
                self.assertEqual(self.seconds(name, 4, "--script", script),
                                 [1483228798, 1483228799, 1483228799, 1483228800])

    def test_bash_sets_the_date_for_all_that_follow(self):
        self.assertEqual(
            self.run_on(*STILL, "--start", 0, "--", "bash", "-c",
                        "date -u -s @2000000000 +%Y; date -u +%Y; echo $EPOCHSECONDS"),
            "2033\n2033\n2000000000\n")

    def test_a_suspension(self):
        script = self.file("s", "openhz,64,1000000000,1,0,0,0\nsuspend,1000000000\n"
                                "resume,2000000000,3600,0\n")
        run = self.run_on("--script", script, "--counter", "sleeps", "--check", "--",
                          "/usr/bin/perl",
                          "-MTime::HiRes=clock_gettime,sleep,CLOCK_MONOTONIC,CLOCK_REALTIME", "-e",
                          "sleep 2; printf '%.6f %.6f', clock_gettime(CLOCK_MONOTONIC), "
                          "clock_gettime(CLOCK_REALTIME)")
        self.assertEqual(run, "2.000000 3602.000000")

    @needs("/usr/bin/python3")
    def test_a_day_of_python_in_a_moment(self):
        code = ("import time; a = time.monotonic(), time.time()\n"
                "for hour in range(24): time.sleep(3600)\n"
                "print(time.monotonic() - a[0], time.time() - a[1])")
        self.assertEqual(self.run_on("--counter", "sleeps", "--start", 10**9, "--check", "--",
                                     "/usr/bin/python3", "-c", code), "86400.000000024 86400.0\n")

    @needs("/usr/bin/python3")
    def test_threads_and_children_wait_for_each_other(self):
        code = ("import subprocess, threading, time; a = time.monotonic(); ends = []\n"
                "def wait(span): time.sleep(span); ends.append((span, time.monotonic() - a))\n"
                "for span in (30, 10, 20): threading.Thread(target=wait, args=(span,)).start()\n"
                "subprocess.run(['sleep', '25'])\n"
                "print(time.monotonic() - a)\n"
                "time.sleep(10); print(ends)")
        out = self.run_on("--counter", "sleeps", "--check", "--", "/usr/bin/python3", "-c", code)
        first, ends = out.splitlines()
        self.assertAlmostEqual(float(first), 25, places=6)
        self.assertEqual([(span, round(end, 6)) for span, end in eval(ends)],
                         [(10, 10.0), (20, 20.0), (30, 30.0)])

    def test_the_same_run_twice_gives_the_same_record(self):
        records = []
        for name in ("a", "b"):
            record = self.folder / name
            self.run_on("--counter", "sleeps", "--start", 5, "--record", record, "--",
                        "/usr/bin/perl", "-e", "for (1..100) { sleep 60; time }")
            records.append(record.read_text())
        self.assertEqual(records[0], records[1])

    def sleeps(self, *command):
        """A program that prints for how long it slept, for 2 s, on a counter that is 5 times as
        fast as the host. By the host's time it would sleep for 10 s."""
        span = float(self.run_on("--speed", 5, "--start", "2038-01-19T03:14:00Z", "--check", "--",
                                 *command))
        self.assertGreaterEqual(span, 2)
        self.assertLess(span, 10)

    @needs("/usr/bin/perl")
    def test_perl(self):
        self.sleeps("/usr/bin/perl", "-MTime::HiRes=time,sleep", "-e",
                    "$a = time; sleep 1; select(undef, undef, undef, 1); print time - $a")

    @needs("node")
    def test_node(self):
        self.sleeps("node", "-e", "const a = performance.now();"
                    "setTimeout(() => console.log((performance.now() - a) / 1e3), 2001)")

    @needs("java")
    def test_java(self):
        source = self.file("Slept.java", """public class Slept {
            public static void main(String[] arguments) throws Exception {
                long start = System.nanoTime();
                Thread.sleep(1000);
                Object object = new Object();
                synchronized (object) { object.wait(1000); }
                System.out.println((System.nanoTime() - start) / 1e9);
            }
        }""")
        self.sleeps("java", source)
