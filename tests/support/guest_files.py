"""Files for tests of the built program: programs of a few words, and the worked sessions."""
import itertools
import struct

from checkout import TOP
from replaycheck.guest.assembly import ENTRY

DATA = TOP / "tests" / "golden" / "sessions"


def elf(words, memory=0, symbols=(), data=b"", entry=None, base=ENTRY):
    """A static program for RV32: a segment of these words at a base and the data after them, of a number of bytes where that
    is more, functions, each a name, an address and a size, and its entry, which is the base if none is given."""
    content = b"".join(struct.pack("<I", word) for word in words) + data
    names = sorted({symbol[0] for symbol in symbols})
    texts = [name.encode() + b"\0" for name in names]
    places = dict(zip(names, itertools.accumulate(map(len, texts), initial=1)))
    strings = b"\0" + b"".join(texts)
    table = b"".join(struct.pack("<IIIBBH", places[name], at, size, 2, 0, 1) for name, at, size in symbols)
    sections = [(0, 0, 0, 0, 0), (2, 84 + len(content), len(table), 2, 16)]
    sections += [(3, 84 + len(content) + len(table), len(strings), 0, 0)]
    headers = b"".join(struct.pack("<10I", 0, kind, 0, 0, at, size, link, 0, 1, each)
                       for kind, at, size, link, each in sections)
    tail = table + strings + headers if symbols else b""
    place = 84 + len(content) + len(table) + len(strings) if symbols else 0
    header = b"\x7fELF\x01\x01\x01" + bytes(9)
    begin = base if entry is None else entry
    header += struct.pack("<HHIIIIIHHHHHH", 2, 243, 1, begin, 52, place, 0, 52, 32, 1, 40, 3 if symbols else 0, 0)
    segment = struct.pack("<8I", 1, 84, base, base, len(content), max(memory, len(content)), 7, 4)
    return header + segment + content + tail


def answered(lines):
    """The replies in a text of replies: a report is one, up to its last line."""
    replies, report = [], []
    for line in lines:
        if report or line.startswith("step "):
            report.append(line)
            if line.startswith("ERROR SUMMARY"):
                replies.append("\n".join(report))
                report = []
        else:
            replies.append(line)
    return replies + (["\n".join(report)] if report else [])


class Worked:
    """A worked session's program, input, suppressions, lines and replies. An edit is a line with a report after it."""

    def __init__(self, name, folder=DATA):
        self.name, self.input, self.lines, self.edits = name, b"", [], []
        words, memory, supp, told = [], 0, [], []
        for line in (folder / (name + ".session")).read_text().splitlines():
            first, _, rest = line.partition(" ")
            if first == ">":
                self.lines.append(rest)
            elif first == "edit":
                self.lines += [rest, "report"]
                self.edits.append(rest)
            elif self.lines and first != "#":
                told.append(line)
            elif first == "words":
                words += [int(word, 16) for word in rest.split()]
            elif first == "memory":
                memory = int(rest, 16)
            elif first == "elf":
                self.program = (folder / rest).read_bytes()
            elif first == "input":
                self.input += bytes.fromhex(rest)
            elif first == "suppression":
                supp.append(rest + "\n")
        if words:
            self.program = elf(words, memory)
        self.supp, self.replies = "".join(supp).encode(), answered(told)
