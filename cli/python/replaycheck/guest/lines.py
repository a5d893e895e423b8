"""The lines of a sweep's table, as bytes: others have written them, and nothing in them is believed."""
from replaycheck.endings import Fault

NUMBER = rb"(?:0|[1-9][0-9]{0,14})"  # never so long that reading it takes time
LONGEST_LINE = 1 << 20
LONGEST_SHOWN = 100


class BadTable(Fault):
    """A table isn't one, isn't whole, or doesn't go with the others."""


def shown(text):
    """Bytes of a table or a name as a terminal may have them: printable ASCII, all else as `\\x1b`, and not too
    many."""
    if isinstance(text, str):
        text = text.encode("utf-8", "surrogateescape")
    cut = text[:LONGEST_SHOWN]
    told = "".join(chr(byte) if 32 <= byte < 127 else f"\\x{byte:02x}" for byte in cut)
    return told + ("..." if len(text) > len(cut) else "")


def shown_name(text):
    """A file's name as a terminal may have it: printable characters as they are, all else as `\\x1b`, and not too
    many."""
    return "".join(character if character.isprintable() else shown(character) for character in text[:LONGEST_SHOWN]) + (
        "..." if len(text) > LONGEST_SHOWN else "")


class Lines:
    """Lines that are taken one after another, with their numbers. `next` is empty at the end. `taken` is a list of
    those that were taken, where one is kept."""

    def __init__(self, file, name, number=0):
        self.file, self.name, self.number = file, shown_name(name), number
        self.taken = None
        self.next, self.was = b"", b""
        self.go_on()

    def go_on(self):
        if self.taken is not None:
            self.taken.append(self.next)
        self.was = self.next
        line = self.file.readline(LONGEST_LINE)
        self.number += 1
        if line[-1:] == b"\n":
            self.next = line[:-1]
            if not self.next:
                self.here("an empty line")
        elif line:
            self.here(f"a line of more than {LONGEST_LINE} bytes" if len(line) == LONGEST_LINE
                      else "the last line is cut: the table isn't whole")
        else:
            self.next = b""

    def must(self, pattern, what):
        """What a pattern finds in the next line, which a table must have here, and which is taken."""
        found = pattern.fullmatch(self.next)
        if not found:
            self.other(what)
        self.go_on()
        return found

    def other(self, what):
        """Refuses the next line, as another one comes here."""
        if not self.next:
            empty = "it is empty" if self.number == 1 else "it has no line `end ..`"
            raise BadTable(f"{self.name}: {empty}: that is no whole table")
        self.here(f"{what} comes here, and not {shown(self.next)}")

    def fault(self, text):
        """Refuses the line that was taken last."""
        raise BadTable(f"{self.name}: line {self.number - 1}: {text}: {shown(self.was)}")

    def here(self, text):
        """Refuses the next line."""
        raise BadTable(f"{self.name}: line {self.number}: {text}")
