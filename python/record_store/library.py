"""The record layer: a function of C over bytes, in a shared object beside this file."""
from __future__ import annotations

import ctypes
import os
import threading

from .errors import BadCommand, OutOfMemory, RecordError

SHARED_OBJECT = "librecord_c.so"
ROOM = 1 << 16
ANSWERED, TOO_SHORT, OUT_OF_MEMORY, BAD_FORM, BAD_COMMAND = range(5)


def loaded() -> ctypes.CDLL:
    """The shared object. RECORD_LIBRARY names another one."""
    path = os.environ.get("RECORD_LIBRARY") or os.path.join(os.path.dirname(__file__), SHARED_OBJECT)
    try:
        library = ctypes.CDLL(path)
    except OSError as why:
        raise ImportError(f"the record layer isn't there, which `pip install` of this package links: {why}") from why
    library.record_drive.restype = ctypes.c_uint32
    library.record_drive.argtypes = [ctypes.c_char_p, ctypes.c_size_t, ctypes.c_void_p, ctypes.c_size_t,
                                     ctypes.POINTER(ctypes.c_size_t)]
    return library


LIBRARY = loaded()
ROOMS = threading.local()


def room(size: int) -> ctypes.Array[ctypes.c_char]:
    """Room for an answer, of the thread's own."""
    have = getattr(ROOMS, "room", None)
    if have is None or len(have) < size:
        have = ROOMS.room = ctypes.create_string_buffer(max(size, ROOM))
    return have


def drive(given: bytes) -> bytes:
    """What the record layer answers to what it is told."""
    written, out = ctypes.c_size_t(), room(ROOM)
    while True:
        status = LIBRARY.record_drive(given, len(given), out, len(out), ctypes.byref(written))
        if status == ANSWERED:
            return ctypes.string_at(out, written.value)
        if status == TOO_SHORT:
            out = room(written.value)
        elif status == OUT_OF_MEMORY:
            raise OutOfMemory("the record layer ran out of memory")
        elif status == BAD_COMMAND:
            raise BadCommand(BadCommand.__doc__)
        else:
            raise RecordError("what was read or written isn't of its form")
