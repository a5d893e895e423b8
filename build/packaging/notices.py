"""Who holds the rights in what is linked into the program."""
import pathlib
import shutil

from checkout import TOP
from packaging.source import output
from replaycheck.endings import Fault

HEAD = """\
replaycheck: Memcheck for static RV32IM programs.

Copyright: its authors. No licence has been chosen for it yet: ask its owner before you pass it on. What follows are the notices of
what is linked into the program, as the toolchain has them.
"""


def crates():
    """The crates of the toolchain that a crate of the repository names, with the standard library's own."""
    lines = [line.partition("#")[0].partition(":") for line in (TOP / "crates.txt").read_text().splitlines()]
    own = {name.strip() for name, colon, words in lines if colon}
    return sorted({word for name, colon, words in lines for word in words.split() if word not in own})


def notices():
    """The notices, one crate after another; each text once."""
    command = shutil.which("rt")
    if not command:
        raise Fault("it needs the toolchain of Rattle, and its command rt is not on the path")
    library = pathlib.Path(output("rt", "doc").decode().strip()).parent / "rattle"
    texts = {}
    for name in crates():
        found = sorted((library / name).glob("LICENSE*"))
        # Of two licences, between which one may choose, the shorter.
        for path in [licence for licence in found if licence.name == "LICENSE-MIT"] or found:
            texts.setdefault(path.read_text(), []).append(f"{name} ({path.name})")
    parts = [f"{'-' * 72}\n{', '.join(names)}:\n\n{text.strip()}\n" for text, names in texts.items()]
    return "\n".join([HEAD, *parts])
