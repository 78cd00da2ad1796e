"""Feed files by the library's calls, which read and write streams of the C library. These streams are in memory, so no call of the
library waits for a file."""
from __future__ import annotations

import ctypes
from typing import Callable, Tuple

from . import _library as c

libc = ctypes.CDLL(None)
libc.open_memstream.restype = libc.fmemopen.restype = ctypes.c_void_p
libc.open_memstream.argtypes = (ctypes.c_void_p, ctypes.c_void_p)
libc.fmemopen.argtypes = (ctypes.c_char_p, ctypes.c_size_t, ctypes.c_char_p)
libc.fclose.argtypes = libc.free.argtypes = (ctypes.c_void_p,)


def written(save: Callable[[int], int]) -> bytes:
    """Returns what a call writes to a stream, or raises the error that its status means."""
    at, size = ctypes.c_void_p(), ctypes.c_size_t()
    stream = libc.open_memstream(ctypes.byref(at), ctypes.byref(size))
    if not stream:
        c.fail(c.NO_MEMORY, None)
    try:
        status = save(stream)
    finally:
        is_whole = libc.fclose(stream) == 0
        text = ctypes.string_at(at, size.value) if at else b""
        libc.free(at)
    # A stream in memory refuses only for want of it.
    c.check(c.NO_MEMORY if status == c.BAD_FILE or not is_whole else status)
    return text


def read(load: Callable[[int, object], int], text: bytes) -> Tuple[int, c.RawLoaded]:
    """Has a call read this text from a stream, and returns its status and its result."""
    loaded = c.RawLoaded()
    stream = libc.fmemopen(text, len(text), b"r")
    if not stream:
        c.fail(c.NO_MEMORY, None)
    try:
        return load(stream, ctypes.byref(loaded)), loaded
    finally:
        libc.fclose(stream)
