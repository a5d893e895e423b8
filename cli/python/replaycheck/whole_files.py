"""Files that are written whole or not at all."""
import contextlib
import os
import stat
import tempfile

from replaycheck.endings import naming

PREFIX = ".replaycheck-"


def same_file(one, other):
    return os.path.exists(other) and os.path.exists(one) and os.path.samefile(one, other)


def rights_of_new():
    """The rights that a new file has."""
    mask = os.umask(0)
    os.umask(mask)
    return 0o666 & ~mask


def rights_of(path):
    """The rights of a file."""
    return stat.S_IMODE(os.stat(path).st_mode)


def write_whole(path, content, rights):
    """Writes a file whole or not at all. What is there and is no plain file, such as /dev/null, is written to."""
    if os.path.exists(path) and not os.path.isfile(path):
        with naming(path), open(path, "wb") as file:
            file.write(content)
        return
    target = os.path.realpath(path)
    try:
        number, beside = tempfile.mkstemp(dir=os.path.dirname(target), prefix=PREFIX)
    except OSError as fault:
        raise OSError(fault.errno, fault.strerror, path) from None
    try:
        with naming(path), open(number, "wb") as file:
            file.write(content)
        os.chmod(beside, rights)
        os.replace(beside, target)
    except BaseException:
        with contextlib.suppress(FileNotFoundError):  # an interrupt may come once the file has its name
            os.unlink(beside)
        raise
