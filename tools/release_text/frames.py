# SPDX-License-Identifier: MIT OR Apache-2.0
"""The entries of an .eh_frame section: common ones, and those of functions, each after its own."""
import struct
from collections import namedtuple

NAME = ".eh_frame"
HEAD, PLACE, REST = 4, 8, 16  # offsets in a function's entry: after its size, its place, the bytes
# `is_common`: other entries refer to it. `size`: of the function, if it isn't common
Entry = namedtuple("Entry", "at end is_common size")


def entries(content):
    """Returns the entries, or [] if one is of another form or doesn't follow its common one."""
    found, at, common = [], 0, None
    while at < len(content):
        if at + REST > len(content):
            return []
        length, distance, _, size = struct.unpack_from("<IIII", content, at)
        end = at + HEAD + length
        if not REST <= end - at <= len(content) - at:
            return []
        if distance and (common is None or at + HEAD - distance != common):
            return []
        if not distance:
            common = at
        found.append(Entry(at, end, not distance, size))
        at = end
    return found
