# SPDX-License-Identifier: MIT OR Apache-2.0
"""A sink of babeltrace2 that prints each event with its time by a script of tkcore, instead of the
time of the trace's own clock class.

    babeltrace2 --plugin-path examples/babeltrace2 TRACE \\
        --component sink.tkcore.times --params 'script="trace.csv", clock="realtime"'

The script describes the trace's clock, and contains a record for each change of the clocks
(docs/TRACERS.md). If it changes the counter, the trace's clock is its last one. `clock` is the word
of a clock, by default realtime. An event's line is

    [SECONDS.NANOSECONDS] NAME: PAYLOAD

The sink ends with an error if the script has a fault, if an event has no clock or is before the
script's opening or its last change of counter, or if the clock is at its limit. It needs Debian's
python3-bt2, and the package tkcore.
"""
import sys

import bt2

import tkcore


@bt2.plugin_component_class
class times(bt2._UserSinkComponent):
    """Prints each event with its time by a script of tkcore."""

    def __init__(self, config, params, obj):
        for name in ("script", "clock"):
            if name in params and not isinstance(params[name], bt2._StringValueConst):
                raise ValueError(f"the parameter {name} isn't a string")
        if "script" not in params:
            raise ValueError("the parameter script is missing")
        self._clock = tkcore.ClockId[str(params.get("clock", "realtime")).upper()]
        with open(str(params["script"]), encoding="utf-8", newline="") as script:
            self._journal = tkcore.Journal.from_script(script)
        self._add_input_port("in")

    def _user_graph_is_configured(self):
        self._messages = self._create_message_iterator(self._input_ports["in"])

    def _user_consume(self):
        message = next(self._messages)
        if not isinstance(message, bt2._EventMessageConst):
            return
        stamp = message.default_clock_snapshot.value
        sec, nsec = divmod(self._journal.get(stamp, self._clock), tkcore.NANOS)
        payload = message.event.payload_field
        sys.stdout.write(f"[{sec}.{nsec:09}] {message.event.name}: {payload}\n")

    def _user_finalize(self):
        sys.stdout.flush()


bt2.register_plugin(__name__, "tkcore", description="Times by tkcore", license="MIT OR Apache-2.0",
                    version=tuple(map(int, tkcore.__version__.split("."))))
