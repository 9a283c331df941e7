"""Which files the program reads: every file that its words name, by its exact name."""
from program import OPENING, Case

# a name, and the same with spaces, which are names of other files
NAMES = ["a", " a", "a ", " a "]


def updated(reading):
    """A script of one update, at this reading."""
    return f"{OPENING}update,{reading}\n"


def report(place, reading):
    """The report of that script, of the file at this place of the words."""
    return f"file,{place}\nopen,32,16777216,24\nok,1,0.{reading:09}\n"


class EveryFile(Case):
    COUNT = 200

    def test_many_reports_every_file(self):
        files = {f"f{it}": updated(it) for it in range(self.COUNT)}
        text = "".join(report(it, it) for it in range(self.COUNT))
        for workers in ["1", "4"]:
            with self.subTest(workers=workers):
                self.check_text(text, "many", workers, *files, files=files)

    def test_the_last_of_many_files_is_read(self):
        names = ["a"] * (self.COUNT - 1)
        self.check_error("cannot read", "many", "2", *names, "missing", files={"a": OPENING})

    def test_all_files_of_a_race_are_counted(self):
        names = ["a"] * self.COUNT
        self.check_error("count out of range", "race", "1", *names, files={"a": OPENING})
        names[-1] = "b"
        other = "open,8,256,0,1,0,0\n"
        self.check_error("openings differ", "race", "1", *names, files={"a": OPENING, "b": other})


class ExactNames(Case):
    def test_many_reads_the_file_of_each_name(self):
        files = {name: updated(it) for it, name in enumerate(NAMES)}
        text = "".join(report(it, it) for it in range(len(NAMES)))
        self.check_text(text, "many", "2", *NAMES, files=files)
        for it, name in enumerate(NAMES):
            with self.subTest(name=name):
                self.check_text(report(0, it), "many", "1", name, files=files)

    def test_a_trace_reads_the_file_of_each_name(self):
        # by the script at place n, front 1 is known if n isn't 0; the stamps at place n have stamp n
        scripts = {name: updated(0) if it else OPENING for it, name in enumerate(NAMES)}
        stamps = {f"{name}b": f"0,{it}\n" for it, name in enumerate(NAMES)}
        for it, name in enumerate(NAMES):
            with self.subTest(name=name):
                self.check_text(f"{it}\n", "trace", "monotonic", "a", f"{name}b",
                                files={**scripts, **stamps})
                words = ["trace", "monotonic", name, "front"]
                files = {**scripts, "front": "1,7\n"}
                if it:
                    self.check_text("7\n", *words, files=files)
                else:
                    self.check_error("item 0: unknown front", *words, files=files)

    def test_a_race_reads_the_file_of_each_name(self):
        files = {name: OPENING + "update,0\n" * it for it, name in enumerate(NAMES)}
        actors = "".join(f"actor,{it},{it},0\n" for it in range(len(NAMES)))
        self.check_text(f"entries,6\n{actors}", "race", "1", *NAMES, files=files)
        for it, name in enumerate(NAMES):
            with self.subTest(name=name):
                self.check_text(f"entries,{it}\nactor,0,{it},0\n", "race", "1", name, files=files)

    def test_a_name_with_spaces_alone_differs_from_the_name_without(self):
        for name in [" a", "a ", "\ta", "a\n"]:
            with self.subTest(name=name):
                self.check_error("cannot read", "many", "1", name, files={"a": OPENING})
