#!/usr/bin/env python3
# SPDX-License-Identifier: MIT OR Apache-2.0
"""Declares the calls to cffi by the header itself, and makes some.

    cffi_header.py FOLDER

The header is preprocessed with TKC_NO_INLINE, which leaves out its inline functions, and as by a
compiler that isn't GNU, so that no attribute is left. cffi knows the types of stdint.h and stddef.h,
which are empty here. FOLDER is what tools/build_c made. It needs gcc and cffi (Debian's
python3-cffi).
"""
import pathlib
import subprocess
import sys
import tempfile

import cffi


def declarations(include):
    """Returns the header's declarations, as a parser of plain C reads them."""
    with tempfile.TemporaryDirectory() as empty:
        for name in "stdint.h", "stddef.h":
            pathlib.Path(empty, name).touch()
        words = ["gcc", "-E", "-P", "-nostdinc", "-U__GNUC__", "-DTKC_NO_INLINE", "-I", empty,
                 include / "tkcore.h"]
        return subprocess.run(words, check=True, capture_output=True, text=True).stdout


def main(folder):
    ffi = cffi.FFI()
    ffi.cdef(declarations(folder / "include"))
    calls = ffi.dlopen(str(folder / "lib" / "libtkcore.so"))
    counter, clock = ffi.new("struct tkc_counter *"), ffi.new("struct tkc_clock *")
    snapshot, time = ffi.new("struct tkc_snapshot *"), ffi.new("struct tkc_time *")
    assert calls.tkc_counter_from_hz(counter, 32, 1_000_000, 600) == calls.TKC_OK
    assert calls.tkc_counter_from_khz(counter, 32, 1_000, 600) == calls.TKC_OK
    assert calls.tkc_clock_open(clock, counter, 0, 1_700_000_000, 0) == calls.TKC_OK
    assert calls.tkc_clock_apply(clock, 1_000_000, calls.TKC_CMD_UPDATE, 0, 0) == calls.TKC_OK
    assert calls.tkc_clock_apply(clock, 0, calls.TKC_CMD_UPDATE, 0, 0) == calls.TKC_BEHIND
    calls.tkc_clock_snapshot(snapshot, clock)
    realtime = calls.TKC_CLOCK_REALTIME
    assert calls.tkc_snapshot_get(time, snapshot, realtime, 2_000_000) == calls.TKC_OK
    assert (time.sec, time.nsec) == (1_700_000_002, 0)
    print("cffi_header: cffi read the header and made the calls")


if __name__ == "__main__":
    main(pathlib.Path(sys.argv[1]))
