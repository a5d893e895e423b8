"""A linker script that leaves some bytes free before and after each object."""
from __future__ import annotations

import collections
import re
from dataclasses import dataclass, field
from typing import Dict, List, Tuple

from replaycheck.endings import Fault

from .link_map import LinkMap, Pattern, Piece

# A statement that takes sections of files, perhaps in KEEP(..).
STATEMENT = re.compile(r"(KEEP\s*\(\s*)?([^\s(){};,]+)\s*\(([^()]*)\)")
COMMENT = re.compile(r"/\*.*?\*/", re.S)
# Sections of files: those with data, those with all data of a file, those with constants that the linker merges, and those with code.
OF_DATA, OF_WHOLE_FILE = re.compile(r"\.s?(?:data|rodata|bss|noinit)(?:\.|$)"), re.compile(r"\.s?(?:data|rodata|bss|noinit)$")
MERGED, OF_CODE = re.compile(r"\.(?:str|cst)\d"), re.compile(r"\.text(?:\.|$)")
COMMON = "COMMON"  # where a map has symbols without a section of their own
TEMPORARY = re.compile(r"/cc\w{6}(?:\.ltrans\d+\.ltrans)?\.o$")  # a file that gcc makes for one link
MEMBER = re.compile(r"(.*)\((.*)\)$")
IN_FILES, IN_SECTIONS = re.compile(r"[^\w./+-]"), re.compile(r"[^\w.$-]")  # characters that a script may not have in such a name


@dataclass
class Padded:
    """The text of a script; how many bytes were added in all; how many sections of files have padding, and how many of these have all data
    of a file; how many files have common symbols; and the patterns whose statement isn't in the script."""

    text: str = ""
    added: int = 0
    count: int = 0
    whole_files: int = 0
    commons: int = 0
    missing: List[str] = field(default_factory=list)


def data_of(pattern: Pattern) -> List[Piece]:
    """The data that a pattern has taken, each name once."""
    found = {taking(piece): piece for piece in reversed(pattern.pieces)
             if piece.size and OF_DATA.match(piece.section) and not MERGED.search(piece.section)}
    return [*found.values()][::-1]


def taking(piece: Piece) -> str:
    """The statement that takes a section of a file. What a script may not have in a name stands there as `?`, for any character."""
    member = MEMBER.match(piece.file)
    files = [member[1], member[2]] if member else ["*" if TEMPORARY.search(piece.file) else piece.file]
    named = ":".join(file if file == "*" else IN_FILES.sub("?", file) for file in files)
    return f"{named}({IN_SECTIONS.sub('?', piece.section)})"


def statements(pieces: List[Piece], room: int, is_kept: bool) -> List[str]:
    """The statements that take sections of files, with free bytes before and after each."""
    free = f". = . + {room};"
    return [free, *(f"KEEP({taking(piece)}) {free}" if is_kept else f"{taking(piece)} {free}" for piece in pieces)]


def padded(script: str, path: str, link: LinkMap, room: int) -> Padded:
    """A script in which a statement of its own takes each section of data that the map names, just before the one that took it.

    # Errors

    `Fault` if no statement of the script is in the map."""
    code = {pattern.output for pattern in link.patterns for piece in pattern.pieces if piece.size and OF_CODE.match(piece.section)}
    waiting: Dict[Tuple[str, Tuple[str, ...]], List[Pattern]] = collections.defaultdict(list)
    for pattern in link.patterns:
        waiting[pattern.files, pattern.sections].append(pattern)
    plain = COMMENT.sub(lambda found: re.sub(r"[^\n]", " ", found[0]), script)
    made, parts, at, is_known = Padded(), [], 0, False
    for found in STATEMENT.finditer(plain):
        patterns = waiting.get((found[2], tuple(re.split(r"[\s,]+", found[3].strip()))))
        if not patterns:
            continue
        pattern, is_known = patterns.pop(0), True
        pieces = [] if pattern.output in code else data_of(pattern)
        if pieces:
            before = plain[plain.rfind("\n", 0, found.start()) + 1:found.start()]
            between = " " if before.strip() else "\n" + before
            parts += [script[at:found.start()], *(statement + between for statement in statements(pieces, room, bool(found[1])))]
            at = found.start()
            made.count += len(pieces)
            made.added += room * (len(pieces) + 1)
            made.whole_files += sum(bool(OF_WHOLE_FILE.match(piece.section)) for piece in pieces)
    if not is_known:
        raise Fault(f"{path}: none of its statements is in {link.path}: is that the map of a link with this script?")
    made.text = "".join(parts) + script[at:]
    made.commons = sum(piece.section == COMMON and piece.size > 0 for pattern in link.patterns for piece in pattern.pieces)
    made.missing = [f"{pattern.files}({' '.join(pattern.sections)})" for patterns in waiting.values() for pattern in patterns
                    if pattern.output not in code and data_of(pattern)]
    return made
