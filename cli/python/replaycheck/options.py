"""How tools read their command lines: argparse, with a tool's own page of help and one form of what is wrong."""
from __future__ import annotations

import argparse
import sys
from collections.abc import Callable, Sequence

from replaycheck.endings import Fault, write
from replaycheck.guest.regions import (GREATEST_MOVED, GREATEST_OUTPUT, HEAP_WANTED, STACK_WANTED, USUAL_MOVED, USUAL_OUTPUT, USUAL_REGIONS,
                                 Regions, is_heap, is_stack, overlap)
from replaycheck.programs import ISAS

TYPE_CHECKING = False  # its name in the module typing, which takes long to import
if TYPE_CHECKING:
    from typing import Any, NoReturn

# The last step that there is without `--limit`, that of many commands without another one, and the greatest that `--limit` takes.
LAST_STEP, USUAL_STEP, FURTHEST_STEP = 4194304, 1048576, 2147483647
NO_PREFIX = "\0"  # begins no argument


class BadValue(argparse.ArgumentTypeError):
    """An argument that its reader rejects, in words."""


class Once(argparse.Action):
    """Stores the value of an option that may be given once. With `nargs=0` it is an option without a value, and True is stored."""

    def __call__(self, parser: argparse.ArgumentParser, namespace: Any, values: Any, option_string: str | None = None) -> None:
        given = namespace.__dict__.setdefault("given", set())
        if option_string and self.dest in given:
            parser.error(f"{option_string} is given twice")
        given.add(self.dest)
        setattr(namespace, self.dest, True if self.nargs == 0 else values)


class Shows(argparse.Action):
    """Ends a tool with what `const` shows, which returns the status."""

    def __call__(self, parser: argparse.ArgumentParser, namespace: Any, values: Any, option_string: str | None = None) -> None:
        raise SystemExit(self.const())


class Narrow(argparse.HelpFormatter):
    """What argparse makes for each option, without a look at the terminal's width: the module for that takes long to import."""

    def __init__(self, prog: str):
        super().__init__(prog, width=80)


class Words(argparse.ArgumentParser):
    """Reads arguments. What is wrong with them is a fault, with the usage below it."""

    def __init__(self, usage: str, prefix: str = "-"):
        super().__init__(usage=usage, prefix_chars=prefix, add_help=False, allow_abbrev=False, formatter_class=Narrow)

    def error(self, message: str) -> NoReturn:
        raise Fault(f"{message}\nusage: {self.usage}")


class Parser(Words):
    """Reads the command line of a tool. Its page is the tool's own text, with a line `usage: ..`; `--help` prints it. Options may come
    before, between and after positional arguments, which have a parser of their own: argparse gives an argument with `nargs="*"` nothing
    that comes after another option."""

    def __init__(self, page: str):
        super().__init__(usage_of(page))
        self.positionals = Words(usage_of(page), NO_PREFIX)
        self.steps: list[tuple[str, int]] = []  # options that are steps, by the names of their values, and the least that each takes
        self.has_regions = self.has_limits = False
        self.add_argument("-h", "--help", action=Shows, nargs=0, const=lambda: write(page.strip() + "\n") or 0, default=argparse.SUPPRESS)
        self.add_argument("--version", action=Shows, nargs=0, const=show_version, default=argparse.SUPPRESS)

    def add_argument(self, *names: str, **how: Any) -> argparse.Action:
        """As argparse has it, but that an option may be given once unless its action is `append` or `extend`."""
        if how.get("action") == "store_true":
            how.update(action=Once, nargs=0, default=False)
        how.setdefault("action", Once)
        if names[0].startswith("-"):
            return super().add_argument(*names, **how)
        how.setdefault("metavar", names[0].upper())
        return self.positionals.add_argument(*names, **how)

    def program_options(self, has_limits: bool = True) -> None:
        """Adds the program's file and what it is given; `has_limits` is as of `region_options`."""
        self.add_argument("file")
        self.add_argument("--input")
        self.add_argument("--supp")
        self.isa_option()
        self.region_options(has_limits)

    def limit_option(self) -> None:
        """Adds the greatest step of the sessions of a tool. The options then have `limit`, LAST_STEP without one."""
        self.add_argument("--limit", type=number(1, FURTHEST_STEP), default=LAST_STEP)

    def step_option(self, name: str, least: int = 0, default: int | None = None) -> None:
        """Adds a step up to that of `--limit`, which also bounds its default."""
        self.steps.append((self.add_argument(name, default=default).dest, least))

    def isa_option(self) -> None:
        """Adds the instruction set that the program's file is read for."""
        self.add_argument("--isa", choices=ISAS, default=ISAS[0])

    def region_options(self, has_limits: bool = True) -> None:
        """Adds the regions of heap and stack and, unless it is said not to, how many bytes calls move. The options then have `regions`,
        too."""
        self.has_regions, self.has_limits = True, has_limits
        self.add_argument("--heap-region", type=heap_region)
        self.add_argument("--stack-region", type=stack_region)
        if has_limits:
            self.add_argument("--most-moved", type=number(1, GREATEST_MOVED))
            self.add_argument("--most-output", type=most_output)

    def read(self, words: Sequence[str] | None = None) -> argparse.Namespace:
        """The options of a command line. An argument after `--` is none, whatever it begins with; another `--` there is no argument."""
        words = list(sys.argv[1:] if words is None else words)
        end = words.index("--") if "--" in words else len(words)
        options, others = self.parse_known_args(words[:end])
        unknown = [word for word in others if looks_like_option(word)]
        bare = [word for word in others if not looks_like_option(word)] + words[end + 1:]
        _, left = self.positionals.parse_known_args([word for word in bare if word != "--"], options)
        unknown += left + ["--"] * bare.count("--")
        if unknown:
            self.error(f"unrecognized arguments: {' '.join(unknown)}")
        self.read_steps(options)
        if self.has_regions:
            limits = (options.most_moved, options.most_output) if self.has_limits else ()
            try:
                options.regions = regions_of(options.heap_region, options.stack_region, *limits)
            except Fault as fault:
                self.error(str(fault))
        return options

    def read_steps(self, options: argparse.Namespace) -> None:
        """Reads the values of steps, which `--limit` bounds: its own may come after them."""
        for dest, least in self.steps:
            value = getattr(options, dest)
            if isinstance(value, str):
                try:
                    setattr(options, dest, number(least, options.limit)(value))
                except BadValue as fault:
                    self.error(f"argument --{dest}: {fault}")
            elif value is not None:
                setattr(options, dest, min(value, options.limit))


def usage_of(page: str) -> str:
    """What follows `usage: ` in a page, with its indented lines."""
    lines = page.split("\n")
    first = next(place for place, line in enumerate(lines) if line.startswith("usage: "))
    last = next(place for place in range(first + 1, len(lines) + 1) if place == len(lines) or not lines[place].startswith(" " * 7))
    return "\n".join(lines[first:last]).removeprefix("usage: ")


def looks_like_option(word: str) -> bool:
    return len(word) > 1 and word.startswith("-") and not word[1].isdigit()


def show_version() -> int:
    """Shows the version of the program. Returns its status."""
    from replaycheck.children import outcome
    from replaycheck.programs import program
    status, out, _ = outcome([program(), "--version"])
    write(out.decode("utf-8", "surrogateescape"))
    return status


def is_number(text: str) -> bool:
    """Whether a text is a number as lines of a session have it: decimal, or hexadecimal after 0x."""
    if text[:2] in ("0x", "0X"):
        digits, most, known = text[2:], 8, "0123456789abcdefABCDEF"
    else:
        digits, most, known = text, 10, "0123456789"
    return 0 < len(digits) <= most and all(digit in known for digit in digits)


def number(least: int, greatest: int) -> Callable[[str], int]:
    """A reader of numbers, decimal or hexadecimal after 0x, within limits."""
    def read(text: str) -> int:
        value = int(text, 16 if text[:2] in ("0x", "0X") else 10) if is_number(text) else -1
        if not least <= value <= greatest:
            raise BadValue(f"{text!r} is not a number from {least} to {greatest}")
        return value
    return read


def limit_for(step: int) -> int:
    """The limit of a session that goes to a step."""
    return max(LAST_STEP, step)


def address(text: str) -> int:
    """The number that a text is, or one that is none of an address."""
    return int(text, 16 if text[:2] in ("0x", "0X") else 10) if is_number(text) else 1 << 32


def heap_region(text: str) -> int:
    """Reads where the heap's region begins."""
    if not is_heap(address(text)):
        raise BadValue(f"{text!r} is not {HEAP_WANTED}")
    return address(text)


def stack_region(text: str) -> tuple[int, int]:
    """Reads where the stack's region begins and ends."""
    begin, _, end = text.partition("..")
    if not is_stack(address(begin), address(end)):
        raise BadValue(f"{text!r} is not {STACK_WANTED}")
    return address(begin), address(end)


def most_output(text: str) -> str | int:
    """Reads how many bytes a program can write in all, or that there is no limit: a text, as None is an option that isn't given."""
    return text if text == "none" else number(0, GREATEST_OUTPUT)(text)


def regions_of(heap: int | None, stack: tuple[int, int] | None, moved: int | None = None, output: str | int | None = None,
               usual: tuple[int, int | None] = (USUAL_MOVED, USUAL_OUTPUT)) -> Regions:
    """The regions and limits that options say, each None where it isn't given; `usual` has the limits that hold then."""
    most = usual[1] if output is None else None if output == "none" else int(output)
    regions = Regions(USUAL_REGIONS.heap if heap is None else heap, USUAL_REGIONS.stack if stack is None else stack,
                      usual[0] if moved is None else moved, most)
    if regions.meet():
        raise Fault(overlap(regions))
    return regions


def one_line(text: str) -> str:
    """Reads a line of a session, which must be one."""
    if "\n" in text:
        raise BadValue(f"two lines in one argument: {text!r}")
    return text


def edit(text: str) -> str:
    """Reads a line of a session that edits the run."""
    if one_line(text).split(" ")[0] in ("", "report", "worked", "goto") or text.startswith("#"):
        raise BadValue(f"not an edit: {text!r}")
    return text
