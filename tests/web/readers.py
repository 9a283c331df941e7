"""Who made each read of a script: random files as `tkrun --readers` writes them, right and wrong, and
the lines that the page must have for them."""
import collections

PROGRAMS = ["date", "perl", "a b", r"\x2c\x5c", "sixteen letters", ""]
CALLS = ["clock_gettime", "gettimeofday", "time", "timespec_get", "ftime", "wait", "stamp", "?"]
SHOWN = 20
FIELDS = "isn't RECORD,READING,PROCESS,THREAD,CALL,PROGRAM"

Reader = collections.namedtuple("Reader", "process thread call program")


def gets(script):
    """Returns the number and the reading of each read."""
    records = enumerate(filter(None, script.decode().split("\n")), 1)
    rows = [(number, record.split(",")) for number, record in records]
    return [(number, int(fields[1])) for number, fields in rows if fields[0] == "get"]


def reader(rng, many):
    """Returns a reader: one of few, or one of many processes and programs."""
    process = rng.randrange(100, 160 if many else 104)
    program = f"p{process % 30}" if many else PROGRAMS[process % len(PROGRAMS)]
    return Reader(process, process + rng.randrange(3), rng.choice(CALLS), program)


def wrong(rng, lines, reads):
    """Returns lines that don't fit, and what is wrong. There are some."""
    at = rng.randrange(len(lines))
    record, reading, rest = lines[at].split(",", 2)
    changes = [
        ([*lines[:-1]], f"record {reads[-1][0]} has no line"),
        ([*lines, lines[-1]], f"line {len(lines) + 1} is that of no read"),
        ([*lines[:at], f"{int(record) + 1},{reading},{rest}", *lines[at + 1:]],
         f"line {at + 1} isn't that of record {record}"),
        ([*lines[:at], f"{record},{int(reading) ^ 1},{rest}", *lines[at + 1:]],
         f"line {at + 1} isn't that of record {record}"),
        *(([*lines[:at], line, *lines[at + 1:]], f"line {at + 1} {FIELDS}") for line in [
            "", lines[at] + ",x", ",".join(lines[at].split(",")[:5]), f"-{lines[at]}",
            f"{record},{reading},x,1,time,y", f"{record},{reading},1,,time,y",
            f"{record},{reading},1,1,Time,y"])]
    return rng.choice(changes)


def made(rng, script):
    """Returns the text of a script's readers, those that it has, and what is wrong or None."""
    reads = gets(script)
    many = len(reads) > 100 or rng.random() < 0.5
    readers = [reader(rng, many) for _ in reads]
    lines = [",".join(map(str, (*read, *it))) for read, it in zip(reads, readers)]
    fault = None
    if reads and len(reads) <= 100 and rng.random() < 0.3:
        lines, fault = wrong(rng, lines, reads)
    elif reads and rng.random() < 0.05:
        return "\n".join(lines).encode(), readers, "the last line has no end"
    return "".join(f"{line}\n" for line in lines).encode(), readers, fault


def counted(values, one, many):
    """Returns the name of the only value, or the number of values."""
    different = set(values)
    return f"{one} {different.pop()}" if len(different) == 1 else f"{len(different)} {many}"


def program_line(clock, program, its):
    """Returns the line of a clock's reads by a program."""
    processes, threads = {it.process for it in its}, {it.thread for it in its}
    more = f", {counted(threads, 'thread', 'threads')}" if len(threads) > len(processes) else ""
    calls = collections.Counter(it.call for it in its)
    made_by = ", ".join(f"{count} by {call}" for call, count in calls.items())
    return f"{clock} read by {program}, {counted(processes, 'process', 'processes')}{more}: {made_by}"


def clock_lines(clock, readers):
    """Returns the lines of the programs that have read a clock."""
    programs = list(dict.fromkeys(it.program for it in readers))
    lines = [program_line(clock, program, [it for it in readers if it.program == program])
             for program in programs[:SHOWN]]
    rest = [it for it in readers if it.program in programs[SHOWN:]]
    if rest:
        lines.append(f"{clock} read by others: {len(rest)} by {len(programs) - SHOWN} programs")
    return lines


def said(reads, readers, falls_of, span_text):
    """Returns the lines of the page: `reads` has each read's clock, record, value and place."""
    clocks = list(dict.fromkeys(clock for clock, *_ in reads))
    lines = [line for clock in clocks for line in clock_lines(
        clock, [it for it, (of, *_) in zip(readers, reads) if of == clock])]
    placed = [(it[0], by, it[1:]) for it, by in zip(reads, readers) if None not in it]
    found = []
    for clock, process, program in dict.fromkeys((it[0], by.process, by.program) for it, by in zip(reads, readers)):
        own = [it for of, by, it in placed if (of, by.process, by.program) == (clock, process, program)]
        falls = list(falls_of(own))
        if falls:
            number, span = max(falls, key=lambda it: it[1])
            many = "once," if len(falls) == 1 else f"{len(falls)} times, at most"
            found.append((falls[0][0], f"{clock} went back for {program}, process {process}, {many} by "
                          f"{span_text(span)} at record {number}"))
    found = [line for _, line in sorted(found)]
    more = [f"a clock went back for others: {len(found) - SHOWN} times a clock and a process"]
    return lines + found[:SHOWN] + more * (len(found) > SHOWN)
