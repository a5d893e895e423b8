"""Temporary files and folders, each locked by the run that works on it. A run that is killed outright leaves its own
behind; the lock is gone then, so that a later run removes it."""
import contextlib
import fcntl
import os
import re
import shutil
import stat
import tempfile

PREFIX = ".replaycheck-explore-"
NAME = re.compile(re.escape(PREFIX) + "[a-z0-9_]{8}")  # as tempfile completes the prefix


def lock(number_of_file):
    """Whether the lock of an open file was free, and is held now."""
    try:
        fcntl.flock(number_of_file, fcntl.LOCK_EX | fcntl.LOCK_NB)
    except OSError:
        return False
    return True


def is_same(number_of_file, path):
    """Whether a path still leads to an open file."""
    try:
        return os.path.samestat(os.fstat(number_of_file), os.lstat(path))
    except OSError:
        return False


def remove_left(folder):
    """Removes what killed runs of this user left in a folder."""
    with contextlib.suppress(OSError), os.scandir(folder) as entries:
        for entry in entries:
            with contextlib.suppress(OSError):
                found = entry.stat(follow_symlinks=False)
                is_ours = NAME.fullmatch(entry.name) and found.st_uid == os.getuid()
                if is_ours and (stat.S_ISREG(found.st_mode) or stat.S_ISDIR(found.st_mode)):
                    remove_unlocked(entry.path, stat.S_ISDIR(found.st_mode))


def remove_unlocked(path, is_folder):
    number_of_file = os.open(path, os.O_RDONLY | os.O_NOFOLLOW | os.O_NONBLOCK)
    try:
        if lock(number_of_file) and is_same(number_of_file, path):
            shutil.rmtree(path, ignore_errors=True) if is_folder else os.unlink(path)
    finally:
        os.close(number_of_file)


def made(make):
    """What `make` gives, an open file and its path, locked. Another run may remove it before the lock is held: then it
    is made again."""
    while True:
        number_of_file, path = make()
        if number_of_file is None:
            continue
        if lock(number_of_file) and is_same(number_of_file, path):
            return number_of_file, path
        os.close(number_of_file)


def open_folder():
    """A new folder, opened; no open file where another run has removed it already."""
    path = tempfile.mkdtemp(prefix=PREFIX)
    try:
        return os.open(path, os.O_RDONLY | os.O_DIRECTORY), path
    except FileNotFoundError:
        return None, path


def new_folder():
    """A locked folder for temporary files. Gives the open folder and its path."""
    remove_left(tempfile.gettempdir())
    return made(open_folder)


def new_file(folder):
    """A locked file in a folder, open for writing. Gives the open file and its path."""
    remove_left(folder)
    return made(lambda: tempfile.mkstemp(dir=folder, prefix=PREFIX))
