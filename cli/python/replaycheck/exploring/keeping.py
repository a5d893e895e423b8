"""Folders: one for what is only there while it works, and one that keeps the tables of the parts that are done."""
import contextlib
import fcntl
import os
import re
import shutil

from replaycheck.endings import Fault, undisturbed
from replaycheck.guest.lines import shown_name

from .leftovers import new_folder
from .merging import sources_in

TABLE = re.compile(r"part-([1-9][0-9]{0,6})-of-([1-9][0-9]{0,6})")


class Room:
    """A folder that is gone at the end, however that comes."""

    path = lock = None

    def __enter__(self):
        try:
            undisturbed(self.make)
        except BaseException:
            self.__exit__()
            raise
        return self.path

    def make(self):
        self.lock, self.path = new_folder()

    def __exit__(self, _=None, fault=None, __=None):
        if self.path:
            shutil.rmtree(self.path, ignore_errors=True)
            os.close(self.lock)
        if isinstance(fault, OSError) and fault.filename is None:
            raise Fault(f"cannot work in {shown_name(self.path)}: {fault.strerror}") from None


class Kept:
    """A folder of tables that is kept. One `explore` at a time works in it."""

    def __init__(self, path):
        self.path = path
        os.makedirs(path, exist_ok=True)
        self.lock = os.open(path, os.O_RDONLY | os.O_DIRECTORY)
        try:
            fcntl.flock(self.lock, fcntl.LOCK_EX | fcntl.LOCK_NB)
        except BlockingIOError:
            raise Fault(f"{shown_name(path)}: another `explore` is using this folder") from None
        self.found = [match for match in map(TABLE.fullmatch, sorted(os.listdir(path))) if match]

    def count(self, wanted):
        """How many parts the sweep is cut into: as many as the tables here say, or as are wanted."""
        counts = {int(match[2]) for match in self.found}
        if len(counts) > 1 or wanted and counts - {wanted}:
            told = " and of ".join(map(str, sorted(counts)))
            raise Fault(f"{shown_name(self.path)}: it keeps another request: parts of {told}"
                        + (f", not of {wanted}" if wanted else ""))
        return counts.pop() if counts else wanted

    def has_sides(self):
        """Whether the tables that are here say what their runs have executed; None if there are none that can be read."""
        for match in self.found:
            with contextlib.suppress(OSError, Fault):
                return next(sources_in(os.path.join(self.path, match[0]), match[0])).head.has_sides
        return None

    def parts(self, runner):
        """The tables that are here, by the numbers of their parts."""
        return {int(match[1]): self.part(runner, match) for match in self.found}

    def part(self, runner, found):
        """The table of a file with the name of a part."""
        path = os.path.join(self.path, found[0])
        try:
            if not os.path.isfile(path):
                raise Fault(f"{found[0]}: not a regular file")
            source = runner.source(path)
            if source.head.part != (int(found[1]), int(found[2])):
                raise Fault(f"{source}: the file's name is that of another part")
        except Fault as fault:
            raise Fault(f"{shown_name(self.path)}: it keeps another request, or no whole table: {fault}; delete "
                        f"{shown_name(path)} to make that part again, or take another folder") from None
        return source
