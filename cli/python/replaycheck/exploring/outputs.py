"""The files that `replaycheck explore` writes: each is written whole or not at all, and none over a file that is
read."""
import contextlib
import itertools
import os
import shutil
import stat

from replaycheck.endings import Fault, write
from replaycheck.guest.lines import shown_name

from .keeping import TABLE
from .leftovers import new_file

OUTPUTS = ("table", "svg", "html", "lcov")


class Output:
    """A file that is written beside its place and moved there at the end; `-` is standard output, at the end."""

    def __init__(self, path, room):
        self.path, self.target = path, os.path.realpath(path)
        self.is_plain = path != "-" and (not os.path.exists(path) or stat.S_ISREG(os.stat(path).st_mode))
        folder = os.path.dirname(self.target) if self.is_plain else room
        try:
            number_of_file, self.beside = new_file(folder)
        except OSError as fault:
            raise OSError(fault.errno, fault.strerror, path) from None
        self.file = open(number_of_file, "wb")

    @contextlib.contextmanager
    def named(self):
        """Names the output in what the system says of a write."""
        try:
            yield
        except OSError as fault:
            raise Fault(f"cannot write {shown_name(self.path)}: {fault.strerror}") from None

    def write(self, content):
        with self.named():
            self.file.write(content)

    def copy(self, path):
        """Appends a file's content."""
        with open(path, "rb") as file, self.named():
            shutil.copyfileobj(file, self.file)

    def end(self):
        with self.named():
            self.file.flush()
        if self.is_plain:
            with self.named():
                self.take_place()
        elif self.path == "-":
            with open(self.beside, "rb") as file:
                for content in iter(lambda: file.read(1 << 16), b""):
                    write(content.decode("utf-8", "surrogateescape"))
        else:
            with open(self.beside, "rb") as file, self.named(), open(self.path, "wb") as out:
                shutil.copyfileobj(file, out)

    def take_place(self):
        """Moves what was written to its place, with the rights of the file that was there."""
        mask = os.umask(0)
        os.umask(mask)
        is_there = os.path.exists(self.target)
        os.chmod(self.beside, os.stat(self.target).st_mode & 0o777 if is_there else 0o666 & ~mask)
        os.replace(self.beside, self.target)

    def clear(self):
        """Removes what didn't take its place. On a full disk the rest of the buffer can't be written."""
        with contextlib.suppress(FileNotFoundError):
            os.unlink(self.beside)
        with contextlib.suppress(OSError):
            self.file.close()


class Outputs:
    """The files that are asked for, opened before the work is done."""

    def __init__(self, options, room):
        self.asked = [(name, getattr(options, name)) for name in OUTPUTS if getattr(options, name) is not None]
        self.room, self.files = room, {}

    def __enter__(self):
        try:
            for name, path in self.asked:
                self.files[name] = Output(path, self.room)
        except BaseException:
            self.__exit__()
            raise
        return self.files

    def __exit__(self, *_):
        for output in self.files.values():
            output.clear()


# ---- outputs that would overwrite a file


def identity(path):
    """What two names of one plain file have in common; None where there is no such file."""
    try:
        found = os.fstat(0) if path == "-" else os.stat(path)
    except OSError:
        return None
    return (found.st_dev, found.st_ino) if stat.S_ISREG(found.st_mode) else None


def is_one(path, other):
    """Whether two names are of one file, which may not be there yet."""
    known = identity(path)
    if known or os.path.exists(path):
        return known is not None and known == identity(other)
    return os.path.realpath(path) == os.path.realpath(other)


def check_outputs(options):
    """Rejects an output that would overwrite a file that is read, or the other output."""
    read = [("the program", options.file), ("the input", options.input), ("the suppressions", options.supp)]
    read = [(what, path) for what, path in read if path is not None]
    read += [("a table that is read", table) for table in options.tables]
    asked = [(f"--{name}", path) for name in OUTPUTS if (path := getattr(options, name)) not in (None, "-")]
    for option, path in asked:
        for what, other in read:
            if is_one(path, other):
                raise Fault(f"{option} {shown_name(path)}: it would overwrite {what}")
        folder, name = os.path.split(os.path.realpath(path))
        if options.keep is not None and folder == os.path.realpath(options.keep) and TABLE.fullmatch(name):
            raise Fault(f"{option} {shown_name(path)}: it would overwrite a part that --keep keeps")
    for (one, path), (other, again) in itertools.combinations(asked, 2):
        if is_one(path, again):
            raise Fault(f"{one} and {other}: both would write {shown_name(again)}")
