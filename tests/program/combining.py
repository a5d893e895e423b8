"""What tests/program/test-combinations tries: the tables of docs/internals/combinations.md, and command lines of the program and the
tools."""
import contextlib
import dataclasses
import importlib
import os
import pathlib
import pkgutil
import re
import runpy
import subprocess
import sys
import tempfile
from collections.abc import Sequence

import replaycheck
from checkout import TOP
from guest_files import elf
from replaycheck.guest.assembly import ENTRY, assemble

NAME = re.compile(r"`([^`]+)`")
WORD = re.compile(r"(?<![\w-])(?:--?[a-z][a-z-]*|FILE)(?![\w-])")
OF_PROGRAM = ("run", "session", "look", "tries", "sweep", "certify", "exec")
# A value of each option, with which it goes together with all others of its command; of those without one, the option is a flag.
VALUES = {
    "--input": "three", "--isa": "rv32imac", "--heap-region": "0x50000000", "--stack-region": "0x7e000000..0x7f000000",
    "--supp": "some.supp", "--most-moved": "4096", "--most-output": "4096", "--limit": "1000", "--step": "10", "--bytes": "0",
    "--values": "7", "--words": "0x10000", "--words-values": "flips", "--at": "0", "--faults": "skip", "--code-range": "0x10000",
    "--pairs": "skip", "--part": "1/1", "--patch": "0x1000c=0x13", "--redzone": "32", "--queue": "100", "--memory-limit": "100",
    "--report": "/dev/null", "--callers": "5", "--show": "all", "--error-exitcode": "9", "--count": "all", "--idle-exitcode": "5",
    "--not-heap": "malloc", "--format": "json", "--log-format": "json", "--log-file": "log", "--log-fd": "2", "--strip-prefix": "/",
    "--demangle": "yes", "--from": "table", "--code": "main", "--seed": "1", "--sample": "1", "--jobs": "1", "--parts": "1",
    "--keep": "kept", "--sshlogin": ":", "--script": "slurm", "--goal": "exited", "--table": "out", "--svg": "out",
    "--html": "out", "--lcov": "out", "--port": "0", "--map": "map", "--pad": "script", "--undefined": "main",
    "--any": "0..2", "--any-memory": "0x1000c..0x10010", "--reveal": "1,0x1000c,4",
}
# What comes after the options of a tool, if it isn't a file only.
OPERANDS = {"compare": ("FILE", "input 0 7"), "talk": ("FILE", "-"), "when": ("FILE", "x"), "word": ("nop",), "suppress": (), "page": ()}
CLEAN, LOSES = "file", "loses"
# Two programs with a function, so that their heaps count as seen: one without errors, and one that loses a block.
PROGRAMS = {CLEAN: "li a0, 0; li a7, 93; ecall; nop", LOSES: "li a0, 8; li a7, 2001; ecall; li a0, 0; li a7, 93; ecall"}


@dataclasses.dataclass(frozen=True)
class Row:
    """Options of a command that are rejected or have no effect beside some options, and without others."""

    command: str
    options: tuple[str, ...]
    beside: tuple[str, ...]
    without: tuple[str, ...]
    is_rejected: bool

    def holds(self, given: set[str]) -> bool:
        """Whether it is about a command line with these options and a file."""
        return bool(given & set(self.options)) and given >= set(self.beside) and not given & set(self.without)

    def __str__(self) -> str:
        beside = [*self.beside, *(f"no {name}" for name in self.without)]
        return f"{self.command}: {', '.join(self.options)} beside {', '.join(beside)}"


class Page:
    """The tables of the page: the commands of each option, and rows of options that don't go together."""

    def __init__(self, text: str) -> None:
        self.having: dict[str, set[str]] = {}
        self.rows: list[Row] = []
        for line in text.splitlines():
            cells = [cell.strip() for cell in line.strip("|").split("|")]
            if len(cells) == 2 and cells[0].startswith("`-"):
                for option in NAME.findall(cells[0]):
                    self.having.setdefault(option, set()).update(NAME.findall(cells[1]))
            elif len(cells) == 4 and cells[3] in ("rejected", "no effect"):
                without = tuple(re.findall(r"no `([^`]+)`", cells[2]))
                beside = tuple(name for name in NAME.findall(cells[2]) if name not in without)
                command, = NAME.findall(cells[0])
                self.rows.append(Row(command, tuple(NAME.findall(cells[1])), beside, without, cells[3] == "rejected"))

    def options(self) -> set[str]:
        return set(self.having)

    def options_of(self, command: str) -> set[str]:
        return {option for option, commands in self.having.items() if command in commands}

    def commands(self) -> set[str]:
        return {command for commands in self.having.values() for command in commands} | {row.command for row in self.rows}

    def rejecting(self, command: str) -> list[Row]:
        return [row for row in self.rows if row.command == command and row.is_rejected]

    def needed(self, command: str, given: set[str]) -> list[str]:
        """Returns the options without which one of these is rejected, and those without which such an option is."""
        found: list[str] = []
        while more := [name for row in self.rejecting(command) if row.holds(given | set(found)) for name in row.without]:
            found += more[:1]
        return found


@dataclasses.dataclass(frozen=True)
class Outcome:
    """What a command line came to."""

    status: int
    out: bytes
    said: str


def load_tools() -> None:
    """Loads the package of the tools, so that a process that becomes one needs not do it."""
    for module in pkgutil.walk_packages(replaycheck.__path__, "replaycheck."):
        importlib.import_module(module.name)


def become_tool(path: str, arguments: list[str], streams: tuple[int, int, int]) -> None:
    """Ends this process as a tool in Python does, with these standard streams."""
    status = 1
    try:
        for number, stream in enumerate(streams):
            os.dup2(stream, number)
        sys.stdin, sys.stdout, sys.stderr = open(0, closefd=False), open(1, "w", closefd=False), open(2, "w", closefd=False)
        sys.argv = [path, *arguments]
        runpy.run_path(path, run_name="__main__")
    except SystemExit as ended:
        status = ended.code if isinstance(ended.code, int) else 0 if ended.code is None else 1
    finally:
        with contextlib.suppress(OSError):
            sys.stdout.flush()
            sys.stderr.flush()
        os._exit(status)


class Commands:
    """The commands of a program and the tools, which run in a folder with a file of each kind."""

    of_program = OF_PROGRAM

    def __init__(self, program: str, folder: pathlib.Path) -> None:
        self.program, self.folder = program, folder
        tools = sorted(path.name.removeprefix("replaycheck-") for path in (TOP / "cli/bin").glob("replaycheck-*"))
        self.names = (*OF_PROGRAM, "run+", "exec+", "certify+", *tools)
        for name, text in PROGRAMS.items():
            words = assemble(text)
            (folder / name).write_bytes(elf(words, symbols=[("main", ENTRY, 4 * len(words))]))
        (folder / "three").write_bytes(b"abc")
        (folder / "some.supp").write_text("{\n  any\n  Memcheck:Cond\n  fun:*\n}\n")

    @staticmethod
    def names_all(command: str) -> bool:
        """Whether a command says all options at once that it doesn't have, as a tool in Python does."""
        return command not in OF_PROGRAM and not command.endswith("+")

    def outcome(self, command: str, arguments: list[str]) -> Outcome:
        if command in OF_PROGRAM:
            words = [self.program, command, *arguments]
            ended = subprocess.run(words, stdin=subprocess.DEVNULL, capture_output=True, cwd=self.folder, check=False)
            return Outcome(ended.returncode, ended.stdout, ended.stderr.decode("utf-8", "replace"))
        path = TOP / "cli" / (f"libexec/{command[:-1]}" if command.endswith("+") else f"bin/replaycheck-{command}")
        with tempfile.TemporaryFile() as out, tempfile.TemporaryFile() as said:
            child = os.fork()
            if child == 0:
                os.chdir(self.folder)
                os.environ["REPLAYCHECK"] = self.program
                become_tool(str(path), arguments, (os.open(os.devnull, os.O_RDONLY), out.fileno(), said.fileno()))
            status = os.waitstatus_to_exitcode(os.waitpid(child, 0)[1])
            out.seek(0)
            said.seek(0)
            return Outcome(status, out.read(), said.read().decode("utf-8", "replace"))

    def arguments(self, command: str, options: list[str], file: str = CLEAN) -> list[str]:
        """Returns the arguments of a command: each of these options, with its value, and operands, without a file if that is empty. A sweep
        of bytes has an input, and so have bytes that are any."""
        given = ["--input"] * ((command == "sweep" or "--any" in options) and "--input" not in options) + options
        valued = [f"{option}={VALUES[option]}" if option in VALUES else option for option in given]
        operands = [file if name == "FILE" else name for name in OPERANDS.get(command, ("FILE",))]
        return [*valued, *filter(None, operands)]

    def help_of(self, command: str) -> str:
        return self.outcome(command, ["--help"]).out.decode()

    def rejected(self, command: str, options: list[str], named: list[str], or_named: Sequence[str] = ()) -> list[str]:
        """What is wrong if a command line has to be rejected by a line that has these names and one of the others. FILE among the others
        is a file that isn't given."""
        arguments = self.arguments(command, options, "" if "FILE" in or_named else CLEAN)
        got = self.outcome(command, arguments)
        line = got.said.partition("\n")[0]
        found = set(WORD.findall(line))
        is_named = found >= set(named) and (not or_named or bool(found & set(or_named)))
        is_so = is_named and not got.out and got.status == (125 if command.startswith("exec") else 2)
        return [] if is_so else [f"{command} {' '.join(arguments)}: not rejected by name: status {got.status}: {line}"]

    def accepted(self, command: str, options: list[str]) -> list[str]:
        """What is wrong if a command line has to work."""
        arguments = self.arguments(command, options)
        got = self.outcome(command, arguments)
        return [] if got.status == 0 else [f"{command} {' '.join(arguments)}: status {got.status}: {got.said[:200]}"]

    def same(self, command: str, options: list[str], fewer: list[str]) -> list[str]:
        """What is wrong if some options have to come to the same as fewer of them."""
        more, less = (self.outcome(command, self.arguments(command, given, LOSES)) for given in (options, fewer))
        return [] if more == less and not less.said.startswith(("replaycheck:", "error:")) else [
            f"{command} {' '.join(options)}: not the same as {' '.join(fewer)}: {more.said[:100]}"]
