"""A run of CI: its checks, each in a job, and their verdicts."""
import pathlib
import resource
import shutil
import tempfile
import time

from checks import packages, verdict
from checks.job import IDLE, Job

LEFT_IN_TREE = ["out", "dist", "__pycache__"]  # what a copy of the tree doesn't get


def time_of(sec):
    return f"{int(sec) // 60} min {int(sec) % 60} s"


class Run:
    """A run of CI in a temporary folder."""

    def __init__(self, names, top, is_strict, stops, limit_sec):
        """Begins a run of these checks. If it is strict, packages were to be installed for it. A
        check that takes longer than the limit is ended."""
        self.top, self.is_strict, self.stops = top, is_strict, stops
        self.limit_sec = limit_sec
        self.started = time.monotonic()
        self.work = pathlib.Path(tempfile.mkdtemp(prefix="ci-"))
        self.jobs, self.begun, self.installing = {}, set(), None
        self.verdicts = {name: verdict.Verdict(name, "not run") for name in names}

    def has_failed(self, *names):
        """Whether one of these checks has failed, or any check if none is named."""
        return any(self.verdicts[it].word == "failed" for it in names or self.verdicts)

    def has_ended(self, name):
        """Whether a check was started and has ended."""
        return name in self.jobs and self.jobs[name].has_ended()

    def install(self):
        """Starts to install the packages that are missing."""
        with self.stops.held():
            self.installing = Job(["tools/packages", "--install"], self.work / "packages")

    def has_packages(self):
        """Whether nothing is being installed."""
        if self.installing and self.installing.has_ended():
            self.end_installing()
        return not self.installing

    def end_installing(self):
        """Waits until the packages are installed, and says so if some can't be."""
        if self.installing:
            self.installing.follow(lambda: None)
            if self.installing.status:
                print("CI: not all packages could be installed: what needs them is left out",
                      flush=True)
            packages.installed.cache_clear()
        self.installing = None

    def start(self, name, *command, nice=0, is_limited=True):
        """Starts a check unless it was started, or a package isn't there that all of it needs.

        If any of its packages isn't there, it first waits until those are installed that can be. A
        check that runs on idle processors alone may take twice the limit.
        """
        if name in self.begun:
            return
        self.begun.add(name)
        if self.installing and packages.missing(name):
            self.end_installing()
        if missing := packages.missing(name, is_needed_only=True):
            # (a package that is installed, but isn't found by what the list says, is a fault there)
            is_fault = self.is_strict and packages.installed() & set(missing)
            word = "failed" if is_fault else "left out"
            self.verdicts[name] = verdict.Verdict(name, word, " ".join(missing))
            return
        limit = self.limit_sec * (2 if nice == IDLE else 1) if is_limited else None
        with self.stops.held():
            self.jobs[name] = Job(command, self.work / name.replace("/", "-"), nice, limit)

    def prepare(self, name, *command):
        """Starts to make what a check needs, on processors that are idle, unless that was started,
        or a package isn't there that all of the check needs.

        The check itself must wait for it, make what is still missing, and report why it can't.
        """
        what = f"what {name} needs"
        if what in self.begun:
            return
        self.begun.add(what)
        if not packages.missing(name, is_needed_only=True):
            with self.stops.held():
                self.jobs[what] = Job(command, self.work / what, IDLE)

    def end(self, name, meanwhile=lambda: None):
        """Waits for a check, prints what it prints, and judges it.

        It calls `meanwhile` again and again while it waits.
        """
        def look():
            for it in self.jobs.values():  # (of one that has ended, the time is known then)
                it.has_ended()
            meanwhile()

        if name in self.jobs:
            job = self.jobs[name]
            self.verdicts[name] = verdict.judge(name, job, job.follow(look), self.is_strict)
            print(f"CI: {name} ended after {time_of(time.monotonic() - self.started)}", flush=True)

    def check(self, name, *command):
        """Runs a check in front."""
        self.start(name, *command)
        self.end(name)

    def copy(self, name):
        """Copies the tree, in which a tool can prove. Returns the copy's top."""
        copy = self.work / name
        shutil.copytree(self.top, copy, symlinks=True, ignore=shutil.ignore_patterns(*LEFT_IN_TREE))
        return copy

    def close(self):
        """Ends what still runs, and removes the folder."""
        self.stops.ignore()
        for job in [*self.jobs.values(), *([self.installing] if self.installing else [])]:
            job.end()
        shutil.rmtree(self.work, ignore_errors=True)

    def report(self):
        """Prints the times and the verdicts. Returns the status to end with."""
        wall, used = time.monotonic() - self.started, resource.getrusage(resource.RUSAGE_CHILDREN)
        found = list(self.verdicts.values())
        times = [(it.name, it.wall_sec, it.processor_sec) for it in found if it.wall_sec]
        times += [(".ci/run", wall, used.ru_utime + used.ru_stime)]
        print("CI: the times, in the form of docs/times.txt:")
        for name, wall_sec, processor_sec in times:
            print(f"{name:<16}{wall_sec:>6.0f} s {processor_sec:>7.0f} s")
        reason = " ".join(it.name for it in found if it.word == "failed")
        for it in found:
            if it.word == "not run":
                it.why = f"after a failure of {reason}"
            print(it)
        print(f"CI took {time_of(wall)}")
        print(verdict.closing(found))
        return 1 if any(it.word in ("failed", "not run") for it in found) else 0
