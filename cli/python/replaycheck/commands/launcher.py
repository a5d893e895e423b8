"""What the launcher does where it starts neither the program nor a tool: help, the version, where Python finds the library, and words that
name nothing.

usage: launcher [WORD ..]"""
from __future__ import annotations

import difflib
import glob
import hashlib
import os
import re
import sys

from replaycheck.endings import Fault, write
from replaycheck.launching import become_program, run_program
from replaycheck.programs import BUILT_FROM, PROGRAM, TOP

NAME = ""
LAUNCHER, TOOLS, LIBRARY = f"{TOP}/cli/replaycheck", f"{TOP}/cli/bin", f"{TOP}/cli/python"
PASSED = f"{TOP}/out/passed"
# The program's own commands: no tool has the name of one.
COMMANDS = ("run", "session", "look", "tries", "sweep", "certify", "exec")
LONGER = ("run", "exec")  # those to which options are added
MORE = """
`run`, `session`, `look` and `tries` are one thing in four sizes. Use `run` for
one report. Use `session` to edit a run and ask for reports, by lines on
standard input. Use `look` for these lines and others, which show or alter
registers and memory. Use `tries` for all of these, and for lines that try
other inputs.

`replaycheck run --help` has the options for CI, and for other formats,
`replaycheck exec --help` those for test runners.
"""
FIRST = """
To begin with:
  replaycheck run program.elf --input bytes         prints the report of a program
  replaycheck exec -q --error-exitcode=9 test.elf   runs a test, and fails on an error
  replaycheck explore program.elf --input bytes     tries every value of each byte

"""
LIKENESS = 0.7  # of a word that is meant, as difflib has it: `walks` is no `talk`


def tools() -> dict[str, str]:
    """Returns the files of the tools by their names: those of cli/bin, and those of the path that have other names."""
    found: dict[str, str] = {}
    for folder in (TOOLS, *os.get_exec_path()):
        for path in sorted(glob.glob(f"{glob.escape(folder)}/replaycheck-*")):
            name = os.path.basename(path).removeprefix("replaycheck-")
            if name not in COMMANDS and os.path.isfile(path) and os.access(path, os.X_OK):
                found.setdefault(name, path)
    return found


def list_of_tools() -> str:
    """Returns the tools, a line each, with the summaries that those of cli/bin have in the table there."""
    with open(f"{TOOLS}/README.md", encoding="utf-8") as file:
        summaries = dict(re.findall(r"^\| `(\S+)` \| (.*) \|$", file.read(), re.MULTILINE))
    lines = [f"  replaycheck {name:<9} {summaries.get(name, '') if os.path.dirname(path) == TOOLS else ''}\n"
             for name, path in tools().items()]
    return "Tools, each with a --help of its own:\n" + "".join(lines)


def show_page() -> int:
    """Shows the program's help, and below it the tools."""
    status = run_program(["--help"])
    if not status:
        write(f"\n{list_of_tools()}{MORE}")
    return status


def show_usage() -> int:
    """Shows what the program says of no argument at all, and below it what to begin with, and the tools."""
    status = run_program([])
    os.write(2, f"{FIRST}{list_of_tools()}".encode("utf-8", "surrogateescape"))
    return status


def words_of(path: str) -> list[str]:
    """Returns the words of a file; none where it isn't there."""
    try:
        with open(path, encoding="utf-8", errors="surrogateescape") as file:
            return file.read().split()
    except FileNotFoundError:
        return []


def built_from() -> str:
    """Returns the commit that the program was built from: as a release has it, as the gate has passed this very program, or as the build
    noted it beside the program, with its time. Returns nothing if it isn't known."""
    commit, *more = words_of(BUILT_FROM) or words_of(PASSED) or [""]
    if os.path.exists(BUILT_FROM):
        return commit
    with open(PROGRAM, "rb") as file:
        if more[:1] == [hashlib.sha256(file.read()).hexdigest()]:
            return commit
    noted = words_of(f"{PROGRAM}.from")
    return noted[0] if noted and os.stat(f"{PROGRAM}.from").st_mtime_ns == os.stat(PROGRAM).st_mtime_ns else ""


def show_version() -> int:
    """Shows the program's version, and the commit that it was built from, which isn't known of a program that REPLAYCHECK names."""
    is_own = not os.environ.get("REPLAYCHECK")
    status = run_program(["--version"])
    commit = built_from() if is_own and not status else ""
    if commit:
        write(f"built from commit {commit}\n")
    return status


def reject(word: str) -> int:
    """Rejects a word that is neither a command nor a tool nor a file, and says which one it is like."""
    like = difflib.get_close_matches(word, [*COMMANDS, *tools()], 1, LIKENESS)
    meant = f"did you mean `replaycheck {like[0]}`?" if like else "`replaycheck --help` lists commands and tools"
    raise Fault(f"no such command, tool or file: {word}: {meant}")


def main() -> int:
    words = sys.argv[1:]
    if not words:
        return show_usage()
    if words == ["help"]:
        return show_page()
    if words in (["-V"], ["--version"]):
        return show_version()
    if words == ["--python-path"]:
        write(f"{LIBRARY}\n")
        return 0
    if words[0] == "help" and len(words) == 2 and words[1] in (*LONGER, *tools()):
        os.execv(LAUNCHER, [LAUNCHER, words[1], "--help"])
    if words[0] == "help" or words[0].startswith("-") or not words[0]:
        become_program(words)
    return reject(words[0])
