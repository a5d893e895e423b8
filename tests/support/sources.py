"""The texts of this repository, for checks that look at all of them."""
import subprocess
from collections.abc import Iterator

from checkout import TOP


def sources(*places: str) -> Iterator[tuple[str, str]]:
    """Each text below these places, or each at all, by its path below the top: what git has, and what it would take."""
    words = ["git", "-C", TOP, "ls-files", "-z", "--cached", "--others", "--exclude-standard", "--", *places]
    told = subprocess.run(words, stdout=subprocess.PIPE, check=True).stdout
    for name in sorted({*told.decode("utf-8", "surrogateescape").split("\0")} - {""}):
        path = TOP / name
        if path.is_file() and not path.is_symlink():
            content = path.read_bytes()
            try:
                text = content.decode()
            except UnicodeDecodeError:
                continue
            if "\0" not in text:
                yield name, text
