"""Whether the page's text of a value and gdb's say the same, for page_variables.py. The page writes as gdb does, but leaves things out: it
has `{...}` for what is deeper, `...` for further elements, and may have no text after an address. Bytes that aren't of type `char` are
numbers."""
import math
import re

LOST = "<optimized out>"
TEXT, LETTER = r'"(?:\\.|[^"\\])*"(?:\.\.\.)?', r"'(?:\\.|[^'\\])*'"
REST, WORD = r"\{\.\.\.\}", r'-?nan\(\w+\)|(?:(?!\.\.\.)[^\s{},=()|"<])+'
TOKEN = re.compile(rf"\s*({TEXT}|{REST}|<[^<>]*>|{LETTER}|\.\.\.|[{{}},=()|@:]|{WORD})")
ESCAPES = {"a": 7, "b": 8, "t": 9, "n": 10, "v": 11, "f": 12, "r": 13, "\\": 92, '"': 34, "'": 39}
NAMED = re.compile(r"\\([0-7]{3}|.)|(.)", re.S)
BEHIND = "\"'<"  # how what follows a number begins


class Differs(Exception):
    """The texts don't say the same."""


def tokens(text):
    found, at = [], 0
    text = text.strip()
    while at < len(text):
        it = TOKEN.match(text, at)
        if not it:
            raise Differs(text[at:])
        found.append(it[1])
        at = it.end()
    return found


def letters(token):
    """The bytes of a text in quotes, and whether there are more."""
    text = re.fullmatch(r'"(.*)"(\.\.\.)?', token, re.S)
    codes = [(int(octal, 8) if octal.isdigit() else ESCAPES[octal]) if octal else ord(plain) for octal, plain in NAMED.findall(text[1])]
    return codes, text[2] is not None


class Pair:
    """Two texts of a value, read side by side."""

    def __init__(self, ours, gdb):
        self.ours, self.gdb = tokens(ours), tokens(gdb)

    def next_is(self, which, *wanted):
        return bool(which) and which[0] in wanted

    def take(self, which):
        if not which:
            raise Differs("the end")
        return which.pop(0)

    def both(self, *wanted):
        one, other = self.take(self.ours), self.take(self.gdb)
        if one != other or (wanted and one not in wanted):
            raise Differs(f"{one} {other}")
        return one

    def value(self):
        if self.next_is(self.ours, "{...}"):
            self.take(self.ours)
            self.pass_over()
        elif self.ours and self.ours[0].startswith('"') and self.gdb and self.gdb[0].startswith('"'):
            self.text(self.take(self.ours), self.take(self.gdb))
        elif self.next_is(self.ours, "{"):
            if self.gdb and self.gdb[0].startswith('"'):
                self.bytes(self.take(self.gdb))
            else:
                self.parts()
        elif self.next_is(self.ours, "("):
            while self.both() != ")":
                pass
        else:
            self.number()

    def pass_over(self):
        """Leaves out a value of gdb's."""
        depth = 0
        while True:
            it = self.take(self.gdb)
            depth += (it == "{") - (it == "}")
            if depth == 0:
                break

    def text(self, ours, gdb):
        (own, is_cut), (other, _) = letters(ours), letters(gdb)
        if own and own[-1] == 0:  # an undefined zero, which ends the text but is shown
            own.pop()
        if other[:len(own)] != own or not is_cut and len(other) > len(own) and other[len(own)] != 0:
            raise Differs(f"{ours} {gdb}")

    def bytes(self, gdb):
        """Numbers of bytes, which gdb has as a text; it leaves out a zero at the end."""
        self.take(self.ours)
        own = []
        while not self.next_is(self.ours, "}", "..."):
            it = self.take(self.ours)
            own += [] if it == "," else [int(it, 16)]
        if self.take(self.ours) == "...":
            self.take(self.ours)
        other, _ = letters(gdb)
        if own[:len(other)] != other[:len(own)] or any(own[len(other):]) or len(own) > len(other) + 1:
            raise Differs(gdb)

    def parts(self):
        self.both("{")
        while True:
            if self.next_is(self.ours, "..."):
                self.take(self.ours), self.take(self.ours)
                self.gdb.insert(0, "{")
                self.pass_over()
                return
            if self.next_is(self.ours, "}", ","):
                if self.both() == "}":
                    return
                continue
            if len(self.ours) > 1 and self.ours[1] == "=":
                self.both(), self.both("=")
            self.value()

    def number(self):
        one, other = self.take(self.ours), self.take(self.gdb)
        if one != other and not alike(one, other):
            raise Differs(f"{one} {other}")
        while self.ours and self.ours[0][0] in BEHIND:
            if self.ours[0].startswith('"'):
                self.value()
            else:
                self.both()
        while self.gdb and self.gdb[0][0] in BEHIND:
            self.take(self.gdb)


def alike(one, other):
    """Whether two words are the same number: of floating point, or a byte in another form."""
    if re.fullmatch("0x[0-9a-f]{2}", one) and other.lstrip("-").isdigit():
        return int(one, 16) == int(other) & 255
    try:
        return math.isclose(float(one), float(other), rel_tol=1e-8)
    except ValueError:
        return False


def agree(ours, gdb):
    """Whether two texts say the same value."""
    if LOST in (ours, gdb):
        return ours == gdb
    try:
        pair = Pair(ours, gdb)
        pair.value()
        return not pair.ours and not pair.gdb
    except Differs:
        return False


# Two texts, and whether they say the same.
AGREEING = [
    ("a number", "5", "5", True), ("another number", "5", "6", False), ("a letter", "99 'c'", "99 'c'", True),
    ("another letter", "99 'c'", "99 'd'", False), ("a real number", "3.1400001", "3.14000010", True),
    ("another real number", "3.14", "3.15", False), ("no number", "nan(0x8)", "nan(0x8)", True),
    ("another one that is none", "nan(0x8)", "-nan(0x8)", False),
    ("nowhere", LOST, LOST, True), ("somewhere", LOST, "0", False), ("nowhere in gdb", "0", LOST, False),
    ("a text", '0x10 "ab"', '0x10 "ab"', True), ("another text", '0x10 "ab"', '0x10 "ac"', False),
    ("a text that is left out", "0x10", '0x10 "ab"', True), ("a text that gdb doesn't have", '0x10 "ab"', "0x10", False),
    ("a text up to its zero", '"ab"', r'"ab\000cd"', True), ("a text that goes on", '"ab"', '"abc"', False),
    ("a zero at the end", r'"ab\000"', r'"ab"', True), ("two zeros at the end", r'"\000\000\000"', r'"\000"', False),
    ("a text that is cut", '"ab"...', '"abc"', True), ("bytes", "{0x01, 0x00}", r'"\001"', True),
    ("other bytes", "{0x01, 0x00}", r'"\002"', False),
    ("too many bytes", "{0x01, 0x00, 0x00}", r'"\001"', False), ("a structure", "{a = 1, b = 2}", "{a = 1, b = 2}", True),
    ("another value in it", "{a = 1, b = 2}", "{a = 1, b = 3}", False), ("another name in it", "{a = 1, b = 2}", "{a = 1, c = 2}", False),
    ("one more in it", "{a = 1}", "{a = 1, b = 2}", False), ("what is deeper", "{a = {...}, b = 2}", "{a = {1, {2}}, b = 2}", True),
    ("what is deeper, and another one", "{a = {...}, b = 2}", "{a = {1, {2}}, b = 3}", False),
    ("further elements", "{1, 2...}", "{1, 2, 3}", True),
    ("other elements before", "{1, 3...}", "{1, 2, 3}", False), ("bits with names", "(READ | RUN)", "(READ | RUN)", True),
    ("other bits", "(READ | RUN)", "(READ | WRITE)", False), ("code", "0x10 <add>", "0x10 <add>", True),
    ("other code", "0x10 <add>", "0x10 <sub>", False),
]
