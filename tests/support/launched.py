"""A program as a build leaves it: with the list of its options beside it, by which the launcher knows when it needs no Python."""
import os
import pathlib
import subprocess

from checkout import TOP


def beside_options(program: str | os.PathLike[str], folder: pathlib.Path) -> str:
    """Puts a link to a program into a folder of its own in this one, and the list of its options beside it. Returns the link."""
    room = folder / "program"
    room.mkdir()
    link = room / "replaycheck"
    link.symlink_to(os.path.realpath(program))
    listed = subprocess.run([TOP / "build" / "options", link], stdout=subprocess.PIPE, check=True).stdout
    (room / "replaycheck.options").write_bytes(listed)
    return str(link)
