# SPDX-License-Identifier: MIT OR Apache-2.0
"""The exceptions of this package: one for each code of tkcore.h and tkcore_page.h."""
from __future__ import annotations

from typing import Any, ClassVar, Dict, Optional, Tuple, Type


class Error(Exception):
    """A call was refused, and has changed nothing unless its documentation says so.

    `code` is the number of the code in C, or None if the library wasn't called. `value` is the
    argument that was refused, and `range` its least and its greatest value, if one argument was the
    reason. They are text for a version and for the format of a buffer's elements, and lists for the
    sizes and layouts of a shared object.
    """

    code: ClassVar[Optional[int]] = None

    def __init__(self, what: str, value: Any = None,
                 range: Optional[Tuple[Any, Any]] = None) -> None:
        super().__init__(what)
        self.what = what
        self.value = value
        self.range = range

    def __str__(self) -> str:
        if self.value is None:
            return self.what
        if self.range is None:
            return f"{self.what} is {self.value}"
        least, most = self.range
        return f"{self.what} is {self.value} instead of " + (
            f"{least}" if least == most else f"{least} to {most}")

    def __reduce__(self) -> Any:
        return type(self), (self.what, self.value, self.range), self.__dict__.copy()


class Refused(Error):
    """A command, a read or a conversion was refused."""


class Full(Refused):
    """The clocks have accepted 2^63 - 1 commands or more. Those of a SteeredClock have accepted so
    many that the commands of a call might be beyond that."""

    code = 1


class Asleep(Refused):
    """The clocks are asleep, and the command isn't RESUME."""

    code = 2


class Awake(Refused):
    """The clocks are awake, and the command is RESUME."""

    code = 3


class Invalid(Refused, ValueError):
    """A reading or another argument is out of its range, or REALTIME may not be set to the result.

    After a conversion, `done` is the number of stamps that were converted before the refused one.
    """

    code = 4
    done: Optional[int] = None


class Behind(Refused):
    """The reading is behind the last accepted command's. For a SteeredClock also: it is behind the
    beginning of the present second, or behind the last request with modes.
    """

    code = 5


class Range(Refused):
    """A clock would be at or past its limit.

    After a conversion, `done` is the number of stamps that were converted before the refused one.
    """

    code = 6
    done: Optional[int] = None


class NotReached(Refused):
    """The clock doesn't reach the time within half of the counter's range: Further, or Never."""


class Further(NotReached):
    """The clock is on its way to the time: apply a command within half of the counter's range, and
    look again in its snapshot.
    """

    code = 8


class Never(NotReached):
    """The clock is asleep or a coarse one, or it reaches its limit before the time."""

    code = 9


class BadCommand(Error, ValueError):
    """No command has this number."""

    code = 16


class BadClock(Error, ValueError):
    """No clock has this number."""

    code = 17


class BadWords(Error, ValueError):
    """The words represent no snapshot or no clocks of the counter."""

    code = 18


class BadRoom(Error, ValueError):
    """The output has fewer elements than there are stamps."""

    code = 19


class BadBits(Error, ValueError):
    """The bits of a reading aren't 8 to 64."""

    code = 32


class BadShift(Error, ValueError):
    """The shift isn't 0 to 32."""

    code = 33


class BadMult(Error, ValueError):
    """The mult is below 256."""

    code = 34


class BadAdjust(Error, ValueError):
    """The mult plus 11 percent doesn't fit in 32 bits."""

    code = 35


class BadRate(Error, ValueError):
    """The rate isn't 1 to 2^32 - 1, or maxsec isn't 1 to 600."""

    code = 36


class Busy(Error):
    """A writer was inside at each try."""

    code = 48


class BadLayout(Error, ValueError):
    """The memory contains no page, or no latch, of this library's layout."""

    code = 49


class BadBuffer(Error, TypeError):
    """A buffer has another type, order, size or alignment, is read-only, or overlaps another."""


class OtherVersion(Error, ImportError):
    """The shared object is of another version than this package."""


def _classes(base: Type[Error]) -> Dict[int, Type[Error]]:
    found = {} if base.code is None else {base.code: base}
    for child in base.__subclasses__():
        found.update(_classes(child))
    return found


BY_CODE = _classes(Error)
