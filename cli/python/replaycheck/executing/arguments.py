"""The arguments of a program: words of the room that its start file has for them, which get other first values."""
import os
import struct

from replaycheck.endings import Fault

ROOM = "__replaycheck_arguments"
REFUSED = 126


class NoRoom(Fault):
    """The program can't be given its arguments."""

    status = REFUSED


def symbol_of(elf, name):
    """The address and the size of a symbol of a file, or None."""
    found = elf.named(elf.symbols, name)
    return (found[0].value, found[0].size) if found else None


def room_of(path, arguments):
    """Where a program's file has room for these arguments: its address and its size. One that looks like an option may have been meant as
    one."""
    from replaycheck.guest.elf import Elf  # here, as few tests have arguments
    with open(path, "rb") as file:
        data = file.read(1 << 26)
    try:
        room = symbol_of(Elf(data), ROOM)
    except (struct.error, IndexError):
        room = None
    if room is None:
        hint = "; options of `exec` come before FILE" if any(argument.startswith("-") for argument in arguments) else ""
        raise NoRoom(f"arguments refused: {path}: it has no room {ROOM}, which start.S has with -DARGUMENTS{hint}")
    return room


def content(address, texts):
    """What a room at an address has for these arguments: their number, their addresses, 0 and the texts."""
    table, at = [len(texts)], address + 4 * (len(texts) + 2)
    for text in texts:
        table.append(at)
        at += len(text)
    made = struct.pack(f"<{len(table) + 1}I", *(word % 2**32 for word in table), 0) + b"".join(texts)
    return made + bytes(-len(made) % 4)


def patches_for(path, arguments):
    """The patches that give a program its arguments: ADDR=WORD for each word."""
    if not arguments:
        return []
    address, size = room_of(path, arguments)
    made = content(address, [os.fsencode(argument) + b"\0" for argument in (path, *arguments)])
    if len(made) > size:
        raise NoRoom(f"arguments refused: {path}: they need {len(made)} bytes, and {ROOM} has {size}")
    words = enumerate(word for word, in struct.iter_unpack("<I", made))
    return [f"0x{address + 4 * at:08x}=0x{word:08x}" for at, word in words]
