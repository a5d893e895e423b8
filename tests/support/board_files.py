"""ELF files of a board's kind, made by hand: segments at physical addresses of their own, sections, and symbols of each
type."""
import itertools
import struct

FUNCTION, NO_TYPE, OBJECT = 2, 0, 1
READ_RUN, READ_WRITE = 5, 6
HEADER, PROGRAM_HEADER, SECTION_HEADER = 52, 32, 40


def words(*numbers):
    return b"".join(struct.pack("<I", number) for number in numbers)


def segment(address, content, memory=0, physical=None, flags=READ_WRITE):
    """What `board` takes for a segment: by default its physical address is the other one."""
    return address, content, max(memory, len(content)), address if physical is None else physical, flags


def function(name, address, size, kind=FUNCTION, section=1):
    return name, address, size, kind, section


def board(segments, symbols=(), entry=0x10000, flags=0, kind=2, machine=243, more_headers=()):
    """A file with these segments, each with a section of the same bytes; symbols, if there are any; and more program
    headers."""
    headers = [(1, it[0], it[3], len(it[1]), it[2], it[4]) for it in segments]
    place = HEADER + PROGRAM_HEADER * (len(headers) + len(more_headers))
    offsets = list(itertools.accumulate((len(it[1]) + -len(it[1]) % 4 for it in segments), initial=place))
    table = b"".join(struct.pack("<8I", type_, at, virtual, physical, size, memory, rights, 4)
                     for at, (type_, virtual, physical, size, memory, rights) in zip(offsets, headers))
    table += b"".join(struct.pack("<8I", *it) for it in more_headers)
    content = b"".join(it[1] + bytes(-len(it[1]) % 4) for it in segments)
    names = b"\0" + b"".join(it[0].encode() + b"\0" for it in symbols)
    starts = itertools.accumulate((len(it[0].encode()) + 1 for it in symbols), initial=1)
    entries = bytes(16) + b"".join(struct.pack("<IIIBBH", at, value, size, 16 | type_, 0, section)
                                   for at, (_, value, size, type_, section) in zip(starts, symbols))
    sections = [(0,) * 10] + [(0, 1, 6 if it[4] & 1 else 3, it[0], at, len(it[1]), 0, 0, 4, 0)
                              for at, it in zip(offsets, segments)]
    if symbols:
        sections.append((0, 2, 0, 0, offsets[-1], len(entries), len(sections) + 1, 1, 4, 16))
        sections.append((0, 3, 0, 0, offsets[-1] + len(entries), len(names), 0, 0, 1, 0))
        content += entries + names
    header = b"\x7fELF\x01\x01\x01" + bytes(9)
    header += struct.pack("<HHIIIIIHHHHHH", kind, machine, 1, entry, HEADER, place + len(content), flags, HEADER,
                          PROGRAM_HEADER, len(headers) + len(more_headers), SECTION_HEADER, len(sections), 0)
    return header + table + content + b"".join(struct.pack("<10I", *it) for it in sections)


def changed(data, offset, value, size=4):
    """The file with one field changed."""
    return data[:offset] + value.to_bytes(size, "little") + data[offset + size:]
