"""What the numbers by which the program refuses a line or a file mean, in words."""
import os

from replaycheck.endings import Fault

COMPILE = "compile it by riscv64-unknown-elf-gcc -march=rv32im -mabi=ilp32"
WORDS = {
    1: "out of memory",
    2: "no such line, or a field that is missing, too many, empty or of the wrong form",
    3: "no such byte of the input",
    4: "no word of the loaded program",
    5: "a step above 4194304, or above N with --limit N",
    6: "no such range: a mark has 1 to 1048576 bytes, a write 1, 2 or 4 and a value that fits, and none ends above 2^32",
    7: "no such mark",
    8: "no such suppression",
    9: "no such option, or its value is out of range",
    10: "there are 4096 marks already",
    11: "a line of more than 4096 bytes",
    12: "the 100001st line, which ends the session",
    13: "a suppression that can't be read",
    14: "an input of more than 1048576 bytes",
    15: "more than 1048576 bytes of suppressions",
    20: "no ELF file",
    21: f"a file of 64 bits, such as one of this computer: {COMPILE}",
    22: "not little-endian",
    23: "a bad version",
    24: "no executable, linked to fixed addresses",
    25: f"not for RISC-V: {COMPILE}",
    26: "a bad table of segments or sections",
    27: "it asks for an interpreter",
    28: "a segment that lies outside the file or the address space",
    29: "two segments overlap, or one meets the heap or the stack region: `replaycheck adopt` names options that put these elsewhere",
    30: "more than 16777216 bytes are loaded",
    31: "a bad table of symbols",
}
REFUSALS = ("refused", *(f"replaycheck: {what} refused" for what in ("image", "input", "suppressions", "bytes", "words")))
AT_LINE = "replaycheck: suppressions refused 13 at line"
UNREADABLE = "replaycheck: cannot read "


def with_words(line):
    """A line that rejects something, with what its number means; one that says that a file can't be read, with why; any other line as it
    is."""
    head, _, number = line.rpartition(" ")
    if number.isascii() and number.isdigit():
        if head in REFUSALS and int(number) in WORDS:
            return f"{line}: {WORDS[int(number)]}"
        if head == AT_LINE:
            return f"{line}: {WORDS[13]}"
    if line.startswith(UNREADABLE):
        why = why_unreadable(line[len(UNREADABLE):])
        return f"{line}: {why}" if why else line
    return line


def why_unreadable(path):
    """Why a file can't be read, as far as another try shows it."""
    if path == "standard input":
        return ""
    try:
        number = os.open(path, os.O_RDONLY | os.O_NONBLOCK)
        try:
            os.read(number, 1)
        finally:
            os.close(number)
    except BlockingIOError:
        return ""
    except OSError as fault:
        return fault.strerror
    return ""


class Ended(Fault):
    """The program has ended before it replied. `code` is its status, or a signal's number below 0; `lines` are what it
    said, and `said` the same in words. `status` is the one with which a tool ends."""

    def __init__(self, code, said, keeps_status=False):
        how = f"signal {-code}" if code < 0 else f"status {code}"
        super().__init__(f"the program ended before it replied, with {how}")
        self.code, self.lines = code, said.decode("utf-8", "surrogateescape").splitlines()
        self.said = "".join(with_words(line) + "\n" for line in self.lines)
        self.status = code if keeps_status and code > 0 else 2


class Refused(Fault):
    """The program has refused a line."""

    def __init__(self, line, reply):
        super().__init__(f"{line}: {with_words(reply)}")
        self.line, self.number = line, int(reply.split(" ")[1])
