"""Scripts for the page: edges, each fault of docs/TKCORE.md, full journals, and more quotes."""
import re

MARK = b"\xef\xbb\xbf"  # of the order of bytes
OPEN = b"open,32,16777216,24,0,1700000000,0\n"
# steered clocks whose last account is after the beginning of their next second, as no calls leave them
MARKED = (b"openwords,32,3495253333,26,5,2597764268,3497000960,9033614093229567,29,1700000000865388708,0,0,"
          b"9000682596261628,29,15,10005,100,8225,2,1,1700006399,0,4,16000000,10000,10000,2147483648000000,"
          b"1700000031,0,0,1152921504607786901,16879380609053491200,1700000031,2632316711\n"
          b"get,2761501322,monotonic\nadjtimex,2773395570,0,0,0,0,0,0,0,0,0,0\n")
# steered clocks without a record, whose next second was due 34 years ago: no second begins
OVERDUE = (b"openwords,8,1600000000,4,4,194,1600660815,6401321630,2,1078185594637559651,0,0,6400000000,2,"
           b"27067002,10000,100,1067712636,1,0,0,0,2,16000000,16000000,10000,1773863043072000,0,0,0,"
           b"1152921504606846976,0,1024,194\n")
STEERED = b"open,64,8388608,23,0,1483228797,0,250\n"
# REALTIME goes back twice, and a read is recorded after a later one
READS = OPEN + b"""get,1000000,realtime
get,2000000,monotonic
step,3000000,-2,0
get,3000000,realtime
get,500000000,realtime
get,400000000,realtime
set,500000000,5,0
get,600000000,realtime
get,700000000,monotonic,699999999
get,3000000000,tai
"""
# enough reads for many programs, and for many processes for which REALTIME goes back
MANY = OPEN + b"".join(b"get,%d,realtime\nstep,%d,-1,0\n" % (reading, reading) for reading in range(1000, 1150))
# reads that state a value, where BOOTTIME is past its end, so they have no place on the ideal line
PLACELESS = OPEN + b"".join(
    b"suspend,%d\nresume,%d,%d,0\nset,%d,5,0\n" % (reading, reading, sec, reading)
    for reading, sec in enumerate([940_000_000] * 9 + [763_372_035])) + b"".join(
    b"get,2000000000,realtime,1800000000000000000\nget,%d,realtime\n" % reading for reading in range(60))
# a counter with another reading
CHANGED = OPEN + b"update,5\ncounter,2000000000,64,8388608,20,77\nupdate,1000\nget,3000,tai\n"
# an offset gives each second one command, and a second begins before each read
SLEWED = STEERED + b"adjtimex,0,8209,1000000,0,0,0,1,0,0,0,0\n" + b"".join(
    b"get,%d,realtime\n" % (10**9 * half // 2) for half in range(3, 17, 2))
# all fields in quotes; some fields, with each line end and without one at the end
QUOTED = [
    b"".join(b'"%s"\n' % record.replace(b",", b'","') for record in READS.splitlines()),
    MARK + b'"open",8,256,0,0,"0",0\r\n\r\n"update",1\r"get",2,"tai","2"',
    b'\nopen,8,256,0,0,0,"0"\r\n"counter",1,64,"8388608",20,"7"\r\nget,"8","tai"\r\n',
]
EDGES = [
    *[SLEWED] * 4,
    *[READS] * 4,  # (each fourth script is drawn)
    *[QUOTED[0]] * 4,
    *[CHANGED] * 4,
    *[MANY] * 4,
    *[PLACELESS] * 4,
    *[OVERDUE] * 4,
    *[MARKED] * 4,
    *QUOTED[1:],
    # the greatest front, and one more
    *(MARKED.replace(b",5,2597764268", b",%d,2597764268" % front) for front in (2**62, 2**62 + 1)),
    # a cycle lasts two seconds, in which an offset gives each second another rate
    b"open,8,2000000000,0,0,1700000000,0,250\nadjtimex,0,8209,500000000,0,0,0,1,0,0,0,0\n"
    + b"".join(b"update,%d\n" % reading for reading in range(1, 40, 3)),
    # steps at and past the bounds of their unit
    STEERED + b"".join(b"adjtimex,1,%d,0,0,0,0,0,0,0,0,%d\n" % it for it in (
        (256, 999_999), (256, 1_000_000), (256, -1), (8448, 999_999_999), (8448, 1_000_000_000))),
]


def faulty():
    """Yields scripts with each fault of docs/TKCORE.md, and its text."""
    for record, text in [
            (b"updates,1", "unknown word"), (b"open,32,16777216,24,0,0,0", "unknown word"),
            (b"get,1,clock", "unknown word"), (b"get,1,__proto__", "unknown word"),
            (b"constructor,1", "unknown word"), (b"", None), (b"update", "wrong number of fields"),
            (b"update,1,2", "wrong number of fields"), (b"get,1,tai,2,3", "wrong number of fields"),
            (b"update,", "not a number in range"), (b"update,+1", "not a number in range"),
            (b"update, 1", "not a number in range"), (b"update,-1", "not a number in range"),
            (b"update,18446744073709551616", "not a number in range"),
            (b"set,1,9223372036854775808,0", "not a number in range"),
            (b"set,1,0,4294967296", "not a number in range"), (b"set,1,--1,0", "not a number in range"),
            (b"update,\xd9\xa1", "not a number in range"), (b"update," + b"0" * 99 + b"7", None),
            (b"counter,1,7,256,0,0", "a reading does not have 8 to 64 bits"),
            (b"counter,1,65,1,33,0", "a reading does not have 8 to 64 bits"),
            (b"counter,1,64,1,33,0", "the shift is above 32"),
            (b"counter,1,64,255,32,0", "the mult is below 256"),
            (b"counter,1,64,3869339907,0,0", "the mult and 11 percent of it do not fit 32 bits")]:
        yield OPEN + record + b"\n", f"record 2: {text}" if text else None
    for first, text in [
            (b"update,1", "not a valid opening"), (b"open,32,16777216,24,0,0", "wrong number of fields"),
            (b"open,x,1,1,1,1", "wrong number of fields"), (b"open,x,1,1,1,1,1", "not a number in range"),
            (b"open,7,256,0,0,0,0", "not a valid opening"), (b"open,8,256,0,256,0,0", "not a valid opening"),
            (b"open,8,256,0,0,8277292036,0", "not a valid opening"),
            (b"open,8,256,0,0,0,0,0", "not a valid opening"), (b"open,8,256,0,0,0,0,1025", "not a valid opening"),
            (b"openhz,8,0,1,0,0,0", "not a valid opening"), (b"openhz,8,1,601,0,0,0", "not a valid opening")]:
        yield first + b"\nupdate\n", f"record 1: {text}"
    yield b"", "no record"
    yield b"\n\r\n\r", "no record"
    yield MARK, "no record"
    yield MARK + MARK + OPEN, "record 1: not a plain line"
    yield from in_quotes()
    yield (OPEN + b"update,").ljust(16_777_215, b"0") + b"x", "record 2: not a number in range"
    yield b"\n" * 16_777_217, "larger than 16777216 bytes"


def in_quotes():
    """Yields scripts with each fault in a record with quotes, and its text."""
    for record in (b'get,1,"tai,2"', b'get,1,"t""ai"', b'get,1,"tai"2', b'get,1,tai"', b'get,1,"tai',
                   b'get,1,"tai\n"', b'get,1, "tai"', b'""', b'# a "note"'):
        yield OPEN + b'"update",1\r\n' + record + b"\nupdates\n", "record 3: not a plain line"
    for record, text in [
            (b'"updates",1', "unknown word"), (b'"",1', "unknown word"), (b'#,"note"', "unknown word"),
            (b'update,""', "not a number in range"), (b'update," 1"', "not a number in range"),
            (b'update,"1",""', "wrong number of fields")]:
        yield OPEN + b'"update",1\n' + record + b"\n", f"record 3: {text}"
    yield b'"open,8,256,0,0,0,0\n', "record 1: not a plain line"
    yield b'"",8,256,0,0,0,0\n', "record 1: not a valid opening"


def full():
    """Yields scripts that fill a journal, with their reports: of plain clocks and of steered ones."""
    most = 1_048_576
    accepted = [f"ok,{number},0.000000001" for number in range(1, most + 1)]
    yield OPEN + b"update,1\n" * (most + 2) + b"counter,1,8,256,0,0\nupdate,1\n", [
        "open,32,16777216,24", *accepted, "no,full", "no,full", f"ok,{most + 1},0.000000001",
        f"ok,{most + 2},0.000000257"]
    # a request needs room for six commands, and a second and a command for three
    yield STEERED + b"update,1\n" * (most - 3) + b"adjtimex,1,0,0,0,0,0,0,0,0,0,0\nupdate,1\nupdate,1\n" \
        b"get,3000000000,tai\nsuspend,3000000001\nresume,1,0,0\n", [
            "open,64,8388608,23", *accepted[:most - 3], "no,full", accepted[most - 3], "no,full",
            "at,tai,1483228800.000000000", "no,full", "no,full"]


def with_quotes(rng, script):
    """Returns a script with quotes around a field, or now and then with a quote at any place."""
    if rng.random() < 0.2:
        place = rng.randrange(len(script) + 1)
        return script[:place] + b'"' + script[place:]
    parts = re.split(rb"([,\r\n]+)", script)
    place = rng.choice([i for i in range(0, len(parts), 2) if parts[i]])
    return b"".join(parts[:place] + [b'"%s"' % parts[place]] + parts[place + 1:])
