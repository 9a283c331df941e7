"""--file-times: the times of files are those of the clocks. The programs know them to the ns,
except on a counter that runs."""
import os
import shutil
import time
import unittest

from runs import OTHER, STILL, TKRUN, RunTest, call, needs_root, program

CHANGES, SETS, LIMITS = map(program, ("file_changes", "file_sets", "file_limits"))
FILE_TIMES = [*STILL, "--file-times"]
START = 2 * 10**9  # in 2033
OLD = 1234567890123456789


class FileTimes(RunTest):
    def setUp(self):
        super().setUp()
        self.old = self.file("old", "")
        os.utime(self.old, ns=(OLD, OLD))

    def make_folder(self):
        """Makes an empty folder for a run."""
        folder = self.folder / "run"
        shutil.rmtree(folder, ignore_errors=True)
        folder.mkdir()
        return folder

    def in_folder(self, *words):
        """A program that runs in an empty folder."""
        return ["sh", "-c", "cd $0; exec \"$@\"", self.make_folder(), *words]

    def lines(self, options, text):
        """The lines that a shell script prints, in the folder."""
        return self.run_on(*options, *self.in_folder("sh", "-c", text)).split("\n")[:-1]

    def check_program(self, options):
        words = [CHANGES, self.old, OLD // 10**9, OLD % 10**9]
        self.assertEqual(self.run_on(*options, *self.in_folder(*words)), "")
        self.assertEqual(self.run_on(*options, *self.in_folder(SETS)), "")

    def test_a_clock_in_the_future(self):
        self.check_program([*FILE_TIMES, "--start", START, "--check"])

    def test_a_clock_in_the_past(self):
        self.check_program([*FILE_TIMES, "--start", 10**9])

    def test_the_time_of_the_host(self):
        self.check_program(FILE_TIMES)

    def test_a_counter_that_runs(self):
        for options in [["--start", START], [], ["--start", 10**9, "--speed", 3]]:
            self.check_program(["--file-times", *options])

    def test_other_files_with_exact_times(self):
        """Since Linux 6.13 no file has an earlier time than one that another file has exactly."""
        self.begin("sh", "-c", f"while echo >{self.folder}/exact; do read -r _ </dev/null; "
                   f"test {self.folder}/exact -nt {self.folder}/old; done")
        for _ in range(4):
            self.check_program(["--file-times", "--start", 10**9, "--speed", 5])

    def test_the_times_are_the_hosts_without_it(self):
        before = int(time.time())
        shown, = self.lines([*STILL, "--start", START], "touch f; stat -c %Y f")
        self.assertLessEqual(abs(int(shown) - before), 600)

    def test_programs_of_the_host(self):
        self.assertEqual(self.lines([*FILE_TIMES, "--start", START], f"""
            touch new; stat -c %Y new; sleep 3600; date +%s; echo >new; stat -c %.9Y new
            sleep 1; cp -p new copy; cmp new copy; stat -c %.9Y copy; touch -d @77 past
            stat -c %Y past {self.old}; touch next; find . -newer new -name '[a-z]*' | sort
            sleep 1; touch -r next same; stat -c %y next; stat -c %y same; TZ=UTC date -r past
            touch -c past; stat -c %Y past; tar cf t past next; rm past next; tar xf t
            stat -c %Y past next"""), [
                str(START), str(START + 3600), f"{START + 3600}.000000001",
                f"{START + 3600}.000000001", "77", str(OLD // 10**9), "./next",
                *["2033-05-18 04:33:21.000000002 +0000"] * 2, "Thu Jan  1 00:01:17 UTC 1970",
                str(START + 3602), str(START + 3602), str(START + 3601)])

    def test_each_node_has_its_clock(self):
        text = ("touch own; sleep 10; stat -c %Y own; for n in a b; do "
                f"{TKRUN} node $n -- sh -c \"touch $n; sleep 10; stat -c %Y $n own\"; done")
        self.assertEqual(
            self.lines([*FILE_TIMES, "--start", START, "--node", "a,start=1000000000",
                        "--node", "b,ahead=-77,error-ppm=100000"], text),
            # b's counter is faster by a tenth
            [str(START), "1000000010", "1000000000", str(START - 77 + 22), str(START - 77)])

    def test_a_script_that_sets_the_clock(self):
        script = self.file("s", "openhz,64,1000000000,1,0,5000,0\nset,10000000000,9000,0\n")
        self.assertEqual(self.lines([*FILE_TIMES, "--script", script],
                                    "touch f; sleep 20; touch g; stat -c %.9Y f g"),
                         ["5000.000000000", "9010.000000001"])

    @needs_root("starts a program as another user")
    def test_a_program_of_another_user(self):
        text = f"chmod 777 .; sleep 5; {' '.join(OTHER)} sh -c 'touch f; stat -c %Y f'"
        run = call([self.share() / "bin/tkrun", *map(str, FILE_TIMES), "--quiet", "--start",
                    str(START), *map(str, self.in_folder("sh", "-c", text))])
        self.assertEqual((run.returncode, run.stdout), (0, f"{START + 5}\n"), run.stderr)

    @needs_root("changes the memory of the clocks")
    def test_a_million_moments(self):
        run = self.start(*FILE_TIMES, *self.in_folder(LIMITS))
        self.assertEqual((run.returncode, run.stdout), (0, ""))
        self.assertIn("newer files have wrong times: the clocks moved too often", run.stderr)
        run = self.start("--file-times", *self.in_folder(LIMITS))
        self.assertEqual((run.returncode, run.stdout), (0, ""))
        self.assertNotIn("wrong times", run.stderr)

    def test_a_seed(self):
        text = "touch f; sleep 1; stat -c %.9Y f; stat -c %.9X f"
        self.assertEqual(self.lines([*FILE_TIMES, "--start", START, "--seed", 1], text),
                         [f"{START}.000000000"] * 2)


if __name__ == "__main__":
    unittest.main()
