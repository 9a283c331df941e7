"""The figures that pages state: ratios of times, times of tools, numbers of words and of calls."""
import re

from ci import CHECKS
from pages import ROOT, number_of

README, SPEED, TIMES = "README.md", "bench/README.md", "docs/times.txt"
# an item of README's list: the job, its baseline, and the ratio
ITEM = re.compile(r"- `(\w+)`, .* against .*\b(Rust|C)\b.*: ([\d.]+)")
# a job and a ratio at the head of an item in bench/README.md
HEAD = re.compile(r"`(\w+)`, (\d+\.\d+)")
# a line of docs/times.txt: a name, the wall time and the time of all processors, ? if not measured
TIME = re.compile(r"(\S.*?) +(\d+|\?) s +(\d+|\?) s")
TOOL = re.compile(r"(?:^|[\s`(])(tools/\w+|\.ci/run|rt ci)\b")
DURATION = re.compile(r"\b(?:\d[\d.,]*|an?|one|two|three|five|ten|half an?|few|some) "
                      r"(?:processor )?(?:s|seconds?|minutes?|hours?)\b(?! time)")
HEADER, CONVERT = "include/tkcore.h", "tkc_snapshot_convert"
CALL = re.compile(r"tkc_\w+")
# the header's list of the calls that use SSE registers, and how pages list or count them
SSE_CALLS = re.compile(r"- (tkc_[\w, ]+) uses? SSE registers")
SSE_LIST = re.compile(r"(?:in most calls \| only in|Only these use SSE registers:)"
                      r"((?:,? (?:and )?`tkc_\w+`)+)")
NOT_ANYWHERE = re.compile(r"All calls except (\w+) may then be made in any context")
STEERED = re.compile(r"(\w+) calls on steered clocks use SSE registers")
WORDS = r"(\w+) (?:64-bit )?words"
# how pages state numbers of words, and the constant of the header or of a crate
COUNTS = {
    HEADER: {
        r"^#define TKC_WORDS (\d+)$": [f"{WORDS} of a snapshot", f"snapshot(?:'s| is| as) {WORDS}"],
        r"^#define TKC_SAVED_WORDS (\d+)$": [
            f"(?<!steered )clocks (?:with their counter as {WORDS}|as {WORDS} with their counter)",
            f"`tkc_clock_save` stores {WORDS}", r"the (\w+) of `tkc_clock_save`"],
        r"^#define TKC_NTP_SAVED_WORDS (\d+)$": [
            f"steered clocks (?:with their counter as {WORDS}|as {WORDS} with their counter)",
            f"stores steered clocks as {WORDS}"],
    },
    "crates/tk_page/src/packing.rt": {
        r"^pub const PAGE_WORDS: usize = (\d+);$": [f"{WORDS} of a page",
                                                    f"[Aa] page (?:has|stores|of) {WORDS}",
                                                    r"words of a snapshot into (\w+)"],
    },
}


def rows(text):
    """Returns the rows of the table of times: a job, its baseline, and the ratio."""
    cells = [[cell.strip() for cell in line.strip("|").split("|")]
             for line in text.splitlines() if line.startswith("|")]
    head = next(row for row in cells if row[0] == "Job" and "Ratio" in row)
    places = [head.index(name) for name in ("Job", "Baseline", "Ratio")]
    return [tuple(row[it] for it in places) for row in cells[cells.index(head) + 1:]
            if len(row) == len(head)]


def other_ratios(found):
    """Items of README's list of speeds with another ratio than the table's, or in another form."""
    table = {(job, peer): ratio for job, peer, ratio in rows(found[SPEED].text)}
    section = found[README].text.partition("\n## Speed\n")[2].partition("\n## ")[0]
    for line in (it for it in section.splitlines() if it.startswith("- ")):
        item = ITEM.fullmatch(line)
        if not item:
            yield f"{README}: an item on speed isn't '- `JOB`, .. against Rust or C: RATIO': {line}"
        elif table.get(item.groups()[:2]) != item[3]:
            job, peer, ratio = item.groups()
            row = table.get((job, peer))
            yield f"{README}: {job} {ratio}, but {SPEED} has {row} against {peer}"


def other_heads(found):
    """Heads of items in bench/README.md with a ratio that no row of the job has."""
    table = rows(found[SPEED].text)
    for head in re.findall(r"^- \*\*(.*?)\*\*", found[SPEED].text, re.M | re.S):
        for job, stated in HEAD.findall(head):
            digits = len(stated.partition(".")[2])
            ratios = {f"{float(ratio):.{digits}f}" for name, _, ratio in table
                      if ratio and (name.startswith(f"{job}_") or name == job
                                    or job[0] == "_" and name.endswith(job))}
            if stated not in ratios and "in a trial" not in head:
                yield f"{SPEED}: {job} {stated}, but its rows have {', '.join(sorted(ratios))}"


def wrong_times(text):
    """Lines of docs/times.txt in another form, and checks of CI that it doesn't have."""
    lines = [it for it in text.splitlines() if it and not it.startswith("#")]
    found = {line: TIME.fullmatch(line) for line in lines}
    yield from (f"{TIMES}: not NAME N s N s: {line}" for line, time in found.items() if not time)
    names = {time[1] for time in found.values() if time}
    yield from (f"{TIMES}: no line for {it}" for it in (*CHECKS, ".ci/run") if it not in names)


def stated_times(page):
    """Lines that give the time of a tool. Only docs/times.txt does."""
    for number, line in enumerate(page.text.splitlines(), 1):
        if (tool := TOOL.search(line)) and (time := DURATION.search(line)):
            yield f"{page.name}:{number}: gives a time of {tool[1]}: {time[0]}; {TIMES} has them"


def other_counts(found):
    """Numbers of words that a page states, and the sources have otherwise."""
    for source, forms in COUNTS.items():
        text = (ROOT / source).read_text(encoding="utf-8")
        for constant, patterns in forms.items():
            count = int(re.search(constant, text, re.M)[1])
            stated = [(page.name, it) for page in found.values() for pattern in patterns
                      for it in re.finditer(pattern, " ".join(page.text.split()))]
            if not stated:
                yield f"no page states the {count} words of {source}"
            for name, it in stated:
                if number_of(it[it.lastindex]) not in (None, count):
                    yield f"{name}: {it[0]}, but {source} has {count}"


def other_sse_calls(found):
    """Lists of the calls that use SSE registers, and their numbers, which the header has otherwise."""
    header = (ROOT / HEADER).read_text(encoding="utf-8").replace("\n *", " ")
    listed = SSE_CALLS.search(" ".join(header.split()))
    calls = set(CALL.findall(listed[1]))
    counts = {NOT_ANYWHERE: len(calls), STEERED: len(calls - {CONVERT})}
    for page in found.values():
        text = " ".join(page.text.split())
        for others in (set(CALL.findall(it)) ^ calls for it in SSE_LIST.findall(text)):
            if others:
                yield f"{page.name}: SSE registers: not as in {HEADER}: {' '.join(sorted(others))}"
        for form, count in counts.items():
            yield from (f"{page.name}: {it[0]}, but {HEADER} lists {count}"
                        for it in form.finditer(text) if number_of(it[1]) != count)


def faults(found):
    """Yields each fault in the figures of the pages, which are given by their names."""
    yield from other_ratios(found)
    yield from other_heads(found)
    yield from wrong_times((ROOT / TIMES).read_text(encoding="utf-8"))
    yield from other_counts(found)
    yield from other_sse_calls(found)
    for page in found.values():
        yield from stated_times(page)
