#!/usr/bin/python3
# SPDX-License-Identifier: MIT OR Apache-2.0
"""Writes the stored trace of perf as CTF, and compares the times that babeltrace2 prints for it by
the plugin of examples/babeltrace2 with those of the definitions, across a step, a frequency, a tick
and a setting of the clocks, also after a change of counter.

It needs babeltrace2 and bt2 (Debian's babeltrace2 and python3-bt2).
"""
import csv
import re
import subprocess
import sys
import tempfile
from pathlib import Path

ROOT = Path(__file__).resolve().parents[2]
sys.path.insert(0, str(ROOT / "tests" / "model"))

# pylint: disable=wrong-import-position
import bt2

import model

PERF = ROOT / "tests" / "perf"


class Stamps(bt2._UserMessageIterator):
    """Gives an event for each line of record.cycles."""

    def __init__(self, config, port):
        stream_class, event_class, self._cycles = port.user_data
        stream = stream_class.trace_class().create_stream(stream_class)
        events = (self._event(stream, event_class, cycle) for cycle in self._cycles)
        begin = self._create_stream_beginning_message(stream)
        end = self._create_stream_end_message(stream)
        self._messages = iter([begin, *events, end])

    def _event(self, stream, event_class, cycle):
        message = self._create_event_message(event_class, stream, default_clock_snapshot=cycle)
        message.event.payload_field["stamp"] = cycle
        return message

    def __next__(self):
        return next(self._messages)


class Source(bt2._UserSourceComponent, message_iterator_class=Stamps):
    """Has the stored trace's clock: 1,000,000,000 Hz with the offset 0."""

    def __init__(self, config, params, obj):
        trace_class = self._create_trace_class()
        clock = self._create_clock_class(frequency=10**9, name="monotonic_raw")
        stream_class = trace_class.create_stream_class(default_clock_class=clock)
        payload = trace_class.create_structure_field_class()
        payload += [("stamp", trace_class.create_unsigned_integer_field_class(64))]
        event_class = stream_class.create_event_class(name="sample", payload_field_class=payload)
        trace = trace_class()
        self._add_output_port("out", (_StreamOf(trace, stream_class), event_class, obj))


class _StreamOf:
    """Makes the stream of one trace."""

    def __init__(self, trace, stream_class):
        self._trace, self._stream_class = trace, stream_class

    def trace_class(self):
        return self

    def create_stream(self, _):
        return self._trace.create_stream(self._stream_class)


def write_ctf(folder, cycles):
    graph = bt2.Graph()
    source = graph.add_component(Source, "source", obj=cycles)
    sink = graph.add_component(bt2.find_plugin("ctf").sink_component_classes["fs"], "sink",
                               params={"path": str(folder), "quiet": True})
    graph.connect_ports(source.output_ports["out"], sink.input_ports["in"])
    graph.run()


def printed(trace, *params):
    """Returns what babeltrace2 prints by the plugin."""
    return subprocess.run(
        ["babeltrace2", "--plugin-path", str(ROOT / "examples" / "babeltrace2"), str(trace),
         "--component", "sink.tkcore.times", *(("--params", ", ".join(params)) if params else ())],
        capture_output=True, text=True, check=False)


def check_times(trace, script, items):
    """Compares the times of each clock with those of the definitions."""
    cycles = [stamp for _, stamp in model.items_of(items)]
    for clock in ("realtime", "monotonic", "tai"):
        found = printed(trace, f'script="{script}"', f'clock="{clock}"')
        assert found.returncode == 0, found.stderr
        times = re.findall(r"^\[(\d+)\.(\d{9})\] sample: .*?(\d+)", found.stdout, re.M)
        assert [int(stamp) for _, _, stamp in times] == cycles, found.stdout[:200]
        wanted = model.trace(clock, script.read_bytes(), items)
        assert [sec + nsec for sec, nsec, _ in times] == wanted, f"other times of {clock}"


def after_a_change(work, script, items):
    """Returns a script that changes to the counter of another one, and the stamps after that."""
    opening, *records = script.read_text().splitlines()
    _, bits, _, _, reading, _, _ = opening.split(",")
    changed = Path(work, "changed.csv")
    changed.write_text("\n".join(["openhz,32,24000000,60,7,1600000000,5", "tai,20000000,36",
                                  f"counter,24000007,{bits},2147483648,31,{reading}", *records]))
    return changed, "".join(f"{front + 2},{stamp}\n"
                            for front, stamp in model.items_of(items)).encode()


def main():
    script, items = PERF / "record.csv", (PERF / "record.stamps").read_bytes()
    cycles = [int(found) for found in
              re.findall(r"^\[(\d+)\]", (PERF / "record.cycles").read_text(), re.M)]
    assert cycles == [int(stamp) for _, stamp in csv.reader(items.decode().splitlines())]
    with tempfile.TemporaryDirectory() as work:
        trace = Path(work, "trace")
        write_ctf(trace, cycles)
        check_times(trace, script, items)
        check_times(trace, *after_a_change(work, script, items))
        late, wide = Path(work, "late.csv"), Path(work, "wide.csv")
        late.write_text(f"openhz,64,1000000000,1,{cycles[0] + 1},1700000000,0\n")
        wide.write_text("openhz,64,1000000000,1,0,1700000000,0\ncounter,5,65,2147483648,31,0\n")
        for reason, *params in (("Invalid: reading is", f'script="{late}"'),
                                ("BadBits: bits is 65 instead of 8 to 64", f'script="{wide}"'),
                                ("FileNotFoundError", 'script="/none"'),
                                ("the parameter script isn't a string", "script=5"),
                                ("the parameter script is missing",),
                                ("KeyError: 'NOON'", f'script="{script}"', 'clock="noon"')):
            found = printed(trace, *params)
            assert found.returncode == 1 and reason in found.stderr, (params, found.stderr)
            assert not found.stdout, found.stdout
    print(f"check_babeltrace2: the times of {len(cycles)} events are those of the definitions")


if __name__ == "__main__":
    main()
