"""The files of a run, as scripts give them: each is read once, so that all sessions of the run have the same bytes."""
from __future__ import annotations

import fcntl
import os
from typing import Union

from replaycheck.scripting.errors import Unreadable, Usage

# A path, or bytes that take the place of a file.
Source = Union[str, "os.PathLike[str]", bytes, bytearray, memoryview]
ABOVE_STREAMS = 3
# How many bytes are read of each: one more than the program takes, so that it rejects what is too long.
MOST = {"image": (1 << 24) + 1, "input": (1 << 20) + 1, "suppressions": (1 << 20) + 1}


def name_of(what: str, source: Source) -> str:
    """Returns what a file is called in messages: its path as it was given, or what it is."""
    if not isinstance(source, (bytes, bytearray, memoryview)):
        return os.fsdecode(source)
    return "program" if what == "image" else what


def read(what: str, source: Source) -> bytes:
    """Returns the bytes of a source.

    # Errors

    `Unreadable`, and `Usage` for what is neither a path nor bytes."""
    if isinstance(source, (bytes, bytearray, memoryview)):
        return bytes(source[:MOST[what]])
    if not isinstance(source, (str, os.PathLike)):
        raise Usage(f"{name_of(what, b'')}: neither a path nor bytes: {source!r}")
    try:
        with open(source, "rb") as file:
            return file.read(MOST[what])
    except OSError as fault:
        raise Unreadable(os.fsdecode(source), fault.strerror or str(fault)) from fault
    except ValueError as fault:  # a path with a byte 0
        raise Unreadable(repr(os.fsdecode(source)), str(fault)) from fault


class Room:
    """A file without a name that the program reads by its descriptor, which is none of its standard streams."""

    def __init__(self, what: str, data: bytes) -> None:
        first = os.memfd_create(what)
        try:
            self.number = fcntl.fcntl(first, fcntl.F_DUPFD_CLOEXEC, ABOVE_STREAMS)
        finally:
            os.close(first)
        self.write(data)

    @property
    def path(self) -> str:
        return f"/dev/fd/{self.number}"

    def write(self, data: bytes) -> None:
        """Writes other bytes in place of those that are there."""
        os.ftruncate(self.number, 0)
        at, rest = 0, memoryview(data)
        while at < len(rest):
            at += os.pwrite(self.number, rest[at:], at)

    def close(self) -> None:
        number, self.number = self.number, -1
        if number >= 0:
            os.close(number)
