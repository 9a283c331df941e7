# SPDX-License-Identifier: MIT OR Apache-2.0
"""The memory of objects with the buffer protocol, without a copy."""
from __future__ import annotations

import ctypes
from typing import Any, Optional

from .errors import BadBuffer

_SIMPLE, _WRITABLE = 0, 1


class _PyBuffer(ctypes.Structure):
    """`Py_buffer` of Python's stable interface."""

    _fields_ = [("buf", ctypes.c_void_p), ("obj", ctypes.py_object), ("len", ctypes.c_ssize_t),
                ("itemsize", ctypes.c_ssize_t), ("readonly", ctypes.c_int), ("ndim", ctypes.c_int),
                ("format", ctypes.c_char_p), ("shape", ctypes.c_void_p),
                ("strides", ctypes.c_void_p), ("suboffsets", ctypes.c_void_p),
                ("internal", ctypes.c_void_p)]


_get = ctypes.pythonapi.PyObject_GetBuffer
_get.restype = ctypes.c_int
_get.argtypes = [ctypes.py_object, ctypes.POINTER(_PyBuffer), ctypes.c_int]
_release = ctypes.pythonapi.PyBuffer_Release
_release.argtypes, _release.restype = [ctypes.POINTER(_PyBuffer)], None


class Memory:
    """The address and the size, in bytes, of an object's contiguous memory.

    The object can't be resized or closed until `release`, which `with` calls.
    """

    def __init__(self, exporter: Any, name: str, is_written: bool) -> None:
        self._view: Optional[memoryview] = None
        self._buffer: Optional[_PyBuffer] = None
        try:
            view = memoryview(exporter)
        except (TypeError, ValueError, BufferError) as error:
            raise BadBuffer(f"{name} is no buffer: {error}") from None
        if not view.c_contiguous:
            raise BadBuffer(f"{name} isn't contiguous in the order of C: its strides are",
                            view.strides)
        if is_written and view.readonly:
            raise BadBuffer(f"{name} is read-only")
        self._view, self._buffer = view, _PyBuffer()
        _get(view, self._buffer, _WRITABLE if is_written else _SIMPLE)
        self.address: int = self._buffer.buf or 0
        self.size: int = self._buffer.len

    @property
    def view(self) -> memoryview:
        assert self._view is not None
        return self._view

    def release(self) -> None:
        """Lets the object go. May be called again."""
        if self._buffer is not None:
            _release(self._buffer)
            self._buffer = None
        if self._view is not None:
            self._view.release()
            self._view = None

    def __enter__(self) -> Memory:
        return self

    def __exit__(self, *_: object) -> None:
        self.release()

    __del__ = release


def numbers(exporter: Any, name: str, is_written: bool) -> Memory:
    """Returns the memory of a buffer of unsigned numbers of 64 bits in this machine's byte
    order."""
    memory = Memory(exporter, name, is_written)
    layout = memory.view.format or "B"
    if memory.view.itemsize == 8 and layout[-1] in "QL" and layout[:-1] in ("", "@", "=", "<"):
        return memory
    memory.release()
    raise BadBuffer(f"the format of the elements of {name}", layout, ("Q", "Q"))


def check_apart(stamps: Memory, out: Memory) -> None:
    """Raises BadBuffer if the two overlap."""
    if stamps.address < out.address + out.size and out.address < stamps.address + stamps.size:
        raise BadBuffer("out overlaps stamps")
