"""What a check of CI came to: it ran, was left out as a whole or in part, or failed."""
import dataclasses
import re

from checks import packages

# how a check names a part that it left out: `left out: WHAT: WHY`, after the check's name or not.
# WHY names packages of tools/packages.txt, or is another reason
LEFT_OUT = re.compile(r"^(?:[\w/]+: )?left out:? (.+?): (.+)$", re.M)


@dataclasses.dataclass
class Verdict:
    """The verdict on a check."""

    name: str
    word: str  # "ran", "left out", "failed" or "not run"
    why: str = ""
    parts: tuple = ()  # the parts that were left out: what, and why
    wall_sec: float = 0
    processor_sec: float = 0

    def __str__(self):
        head = f"CI: {self.name}: {self.word}{': ' if self.why else ''}{self.why}"
        return "\n".join([head, *(f"CI:     left out: {what}: {why}" for what, why in self.parts)])


def left_out(name, output):
    """Returns the parts that a check left out, each once.

    These are the parts that its output names, and those whose packages aren't there. Only the check
    itself can say so of a module of Python.
    """
    said = list(dict.fromkeys(LEFT_OUT.findall(output)))
    named = {it for _, why in said for it in packages.named_in(name, why)}
    rest = [(it.part, it.package) for it in packages.of(name)
            if it.found_by != "-" and not it.is_installed and it.package not in named]
    return (*said, *rest)


def could_run(name, why):
    """Whether a part was left out although the packages that the reason names are installed."""
    named = packages.named_in(name, why)
    return bool(named) and not set(named) & set(packages.missing(name))


def judge(name, job, output, is_strict):
    """Returns the verdict on a check that has ended.

    If packages were to be installed, a check fails that left out a part although they are there.
    """
    parts = left_out(name, output)
    verdict = Verdict(name, "ran", "", parts, job.wall_sec, job.processor_sec)
    idle = [what for what, why in parts if could_run(name, why)]
    if job.status and job.limit_sec and job.wall_sec > job.limit_sec:
        verdict.word, verdict.why = "failed", f"it hadn't ended after {job.limit_sec} s"
    elif job.status:
        verdict.word, verdict.why = "failed", f"status {job.status}"
    elif is_strict and idle:
        verdict.word, verdict.why = "failed", f"left out with its packages installed: {idle[0]}"
    return verdict


def closing(verdicts):
    """Returns the line that counts the checks: N passed, N failed, and those that didn't run."""
    count = {word: sum(it.word == word for it in verdicts) for word in ("ran", "failed")}
    rest = len(verdicts) - sum(count.values())
    skipped = f", {rest} skipped" if rest else ""
    return f"{count['ran']} passed, {count['failed']} failed{skipped}"
