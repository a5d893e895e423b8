"""The chapters of the manual, in the order of its index."""
import re

from checkout import TOP

MANUAL = TOP / "docs" / "manual"
INDEX = MANUAL / "README.md"
CHAPTER = re.compile(r"\]\(([a-z-]+\.md)")


def chapters():
    """The files of the chapters, each once, as the index first links them."""
    return [MANUAL / name for name in dict.fromkeys(CHAPTER.findall(INDEX.read_text()))]
