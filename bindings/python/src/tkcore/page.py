# SPDX-License-Identifier: MIT OR Apache-2.0
"""A page and a latch: memory that publishes snapshots to readers without a lock.

Both are those of tkcore_page.h, so a process in C, in Rust or in Python may write, and others read.
"""
from __future__ import annotations

import mmap
import time as _time
from contextlib import contextmanager
from ctypes import byref, c_uint64
from typing import (Any, Callable, Iterator, List, NoReturn, Optional, Tuple, Type, TypeVar,
                    Union)

from ._buffers import Memory
from ._library import (CALLS, LATCH_LAYOUT, LATCH_SIZE, PAGE_LAYOUT, PAGE_SIZE, U64, ClockValue,
                       ReadCounter, SnapshotValue, fit, raise_code)
from .clock import Clock
from .counter import Counter
from .errors import BY_CODE, BadBuffer, BadLayout, Busy, Error
from .snapshot import Snapshot

_TRIES = 1_000  # a call in C makes at most this many, so that signals are handled
_NO_READER = ReadCounter(0)

_Self = TypeVar("_Self", bound="_Shared")


class _Shared:
    """The part that a page and a latch have in common."""

    SIZE = 0
    is_writable: bool
    _layout = 0
    _calls: Tuple[Any, Any]
    _memory: Memory
    _at: int

    def __init__(self) -> None:
        name = type(self).__name__
        raise TypeError(f"{name}.create and {name}.attach make it")

    @classmethod
    def _over(cls: Type[_Self], buffer: Any, is_written: bool) -> _Self:
        shared = cls.__new__(cls)
        memory = Memory(buffer, "the buffer", is_written)
        shared._memory, shared._at = memory, memory.address
        shared.is_writable = not memory.view.readonly
        if memory.size < cls.SIZE:
            raise BadBuffer("the size of the buffer", memory.size, (cls.SIZE, U64[1]))
        if memory.address % 8:
            raise BadBuffer("the address of the buffer, modulo 8,", memory.address % 8, (0, 0))
        return shared

    @classmethod
    def attach(cls: Type[_Self], buffer: Any) -> _Self:
        """Returns the page or the latch that the buffer contains. A reader's memory may be
        read-only.

        The buffer is at least SIZE bytes, aligned to 8 bytes: an mmap, or the `buf` of a
        SharedMemory. It can't be closed before `close`. No process may shorten a mapped file.

        Raises BadBuffer, and BadLayout if the buffer contains none of this layout.
        """
        shared = cls._over(buffer, False)
        code = cls._calls[0](shared._at)
        if code:
            shared._refuse_layout(code)
        return shared

    def _refuse_layout(self, code: int) -> NoReturn:
        """Raises the exception of a code for memory that contains no page or no latch."""
        raise BY_CODE[code](f"the layout of the {type(self).__name__.lower()}",
                            c_uint64.from_address(self._at).value, (self._layout, self._layout))

    def close(self) -> None:
        """Lets the buffer go. May be called again."""
        self._memory.release()
        self._at = 0

    def __enter__(self: _Self) -> _Self:
        return self

    def __exit__(self, *_: object) -> None:
        self.close()

    def read(self, timeout: Optional[float] = None) -> Snapshot:
        """Returns the latest snapshot. At a reading that is taken after this call it may give a
        later time than the next snapshot does: use `look` or `now` to read a clock.

        Raises what `look` does.
        """
        return self._look(_NO_READER, timeout)[0]

    def look(self, read_counter: Callable[[], int],
             timeout: Optional[float] = None) -> Tuple[Snapshot, int]:
        """Returns the latest snapshot and the counter's reading while it is the latest.

        `read_counter` may be called several times. The call waits while a writer is inside a page,
        for at most `timeout` seconds; a latch's reader never waits for a writer.

        Raises Busy after `timeout`; BadWords, or BadBits to BadAdjust, if something else than a
        writer wrote the memory; and what `read_counter` raises.
        """
        failed: List[BaseException] = []

        def read(_: Any) -> int:
            try:
                return fit(read_counter(), U64, Error, "the counter's reading")
            except BaseException as error:  # pylint: disable=broad-except
                failed.append(error)
                return 0

        return self._look(ReadCounter(read), timeout, failed)

    def now(self, clock: int, read_counter: Callable[[], int],
            timeout: Optional[float] = None) -> int:
        """Returns a clock's time now, in ns. Raises what `look` and `Snapshot.get` do."""
        snapshot, reading = self.look(read_counter, timeout)
        return snapshot.get(reading, clock)

    def _look(self, reader: Any, timeout: Optional[float],
              failed: Optional[List[BaseException]] = None) -> Tuple[Snapshot, int]:
        value, reading = SnapshotValue(), c_uint64()
        end = None if timeout is None else _time.monotonic() + timeout
        at = self._there()
        with memoryview(self._memory.view):  # the memory stays, also if `close` is called meanwhile
            while True:
                code = self._calls[1](at, _TRIES, reader, byref(value), byref(reading))
                if failed:
                    raise failed[0]
                if code != Busy.code:
                    break
                if end is not None and _time.monotonic() >= end:
                    raise Busy("a writer was inside at each try")
                _time.sleep(0)
        raise_code(code, "something else than a writer wrote this memory")
        return Snapshot._of_value(value, Counter._of_snapshot(value)), reading.value

    def __reduce__(self) -> Any:
        name = type(self).__name__.lower()
        raise TypeError(f"a {name} is neither copied nor pickled: attach to it")

    def _there(self) -> int:
        if not self._at:
            raise ValueError(f"this {type(self).__name__.lower()} is closed")
        return self._at

    def _written(self) -> int:
        """Returns the address for a writer."""
        if not self.is_writable:
            raise BadBuffer("the buffer is read-only")
        return self._there()


class Page(_Shared):
    """A page. MONOTONIC never goes back for any reader, if the clocks get a command at least once
    in each half of the counter's range. A reader waits while a writer is inside.

    A writer reads the counter after `begin`, which `writing` calls:

        with page.writing(clock):
            clock.update(read_counter())

    Only one writer at a time may be between `begin` and `publish`.
    """

    SIZE = PAGE_SIZE
    _layout = PAGE_LAYOUT
    _calls = (CALLS.tkcp_page_attach, CALLS.tkcp_page_look)

    @classmethod
    def create(cls, what: Union[Clock, Snapshot], buffer: Optional[Any] = None) -> Page:
        """Makes a page with its first clocks or its first snapshot.

        `buffer` is writable memory of at least SIZE bytes, aligned to 8 bytes. Without it, the page
        has memory that child processes share.

        Raises BadBuffer if it has another size or alignment, or is read-only.
        """
        page = cls._over(mmap.mmap(-1, cls.SIZE) if buffer is None else buffer, True)
        init = CALLS.tkcp_page_init_clock if isinstance(what, Clock) else CALLS.tkcp_page_init
        init(page._at, byref(what._value))
        return page

    def begin(self) -> None:
        """Lets readers wait until `publish`. Read the counter for the command after this call."""
        CALLS.tkcp_page_begin(self._written())

    def publish(self, what: Union[Clock, Snapshot]) -> None:
        """Publishes clocks or a snapshot with their counter, also after a refused command. After
        `Clock.change_counter` readers get the new counter with the new snapshot.

        Raises BadBuffer if the memory is read-only.
        """
        call = CALLS.tkcp_page_publish_clock if isinstance(what, Clock) else CALLS.tkcp_page_publish
        call(self._written(), byref(what._value))

    @contextmanager
    def writing(self, clock: Clock) -> Iterator[None]:
        """Calls `begin`, and publishes the clocks at the end, also after an exception. It raises
        what `publish` does."""
        self.begin()
        try:
            yield
        finally:
            self.publish(clock)

    def clock(self) -> Clock:
        """Rebuilds the clocks of the last publication, for a new writer after the former one died.

        Raises BadLayout; Busy if a writer published during the call; and BadWords if only a
        snapshot was published.
        """
        value = ClockValue()
        code = CALLS.tkcp_page_clock(self._there(), byref(value))
        if code == BadLayout.code:
            self._refuse_layout(code)
        raise_code(code, "no clocks can be rebuilt from this page")
        return Clock._with_counter(value)

    def recover(self, clock: Clock) -> None:
        """Makes the page whole from a new writer's clocks, wherever the former writer died. It
        raises what `publish` does."""
        CALLS.tkcp_page_recover(self._written(), byref(clock._value))


class Latch(_Shared):
    """A latch: a reader never waits for a writer that it interrupted. MONOTONIC may go back by the
    change of the rate times the time since the writer's reading."""

    SIZE = LATCH_SIZE
    _layout = LATCH_LAYOUT
    _calls = (CALLS.tkcp_latch_attach, CALLS.tkcp_latch_look)

    @classmethod
    def create(cls, snapshot: Snapshot, buffer: Optional[Any] = None) -> Latch:
        """Makes a latch with its first snapshot. `buffer` and the exceptions are those of
        `Page.create`."""
        latch = cls._over(mmap.mmap(-1, cls.SIZE) if buffer is None else buffer, True)
        CALLS.tkcp_latch_init(latch._at, byref(snapshot._value))
        return latch

    def publish(self, snapshot: Snapshot) -> None:
        """Publishes a snapshot. It raises what `Page.publish` does."""
        CALLS.tkcp_latch_publish(self._written(), byref(snapshot._value))

    def recover(self, clock: Clock) -> None:
        """Makes the latch whole and publishes the clocks of a new writer, wherever the former one
        died. It raises what `publish` does."""
        CALLS.tkcp_latch_recover(self._written(), byref(clock._value))
