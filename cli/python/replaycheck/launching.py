"""The program as the launcher starts it: in place of this process, or with its streams."""
from __future__ import annotations

import os

from replaycheck.children import started
from replaycheck.endings import Interrupted, write
from replaycheck.programs import BUILT_FROM, PROGRAM, TOP


def starting_words(words: list[str]) -> list[str]:
    """Returns the command line that starts the program with these arguments. In a checkout the build does, which may show a report before
    its proof. What is started has no REPLAYCHECK, which may name the launcher."""
    named = os.environ.pop("REPLAYCHECK", "")
    is_built = bool(named) or os.path.exists(BUILT_FROM)
    return [*([] if is_built else [f"{TOP}/build/build"]), named or PROGRAM, *words]


def become_program(words: list[str]) -> None:
    """Ends this process as the program does with these arguments."""
    command = starting_words(words)
    os.execvp(command[0], command)


def run_program(words: list[str]) -> int:
    """Runs the program with these arguments. Returns its status."""
    status = started(starting_words(words), (0, 1, 2)).wait()
    if status < 0:
        raise Interrupted(-status)
    return status


def asks_for_help(words: list[str]) -> bool:
    """Whether an argument before `--` asks for help."""
    before = words[:words.index("--")] if "--" in words else words
    return "-h" in before or "--help" in before


def show_helps(command: str, page: str) -> int:
    """Shows the program's page of help on a command, and below it that of the options which are added to it. Returns the status."""
    status = run_program([command, "--help"])
    if not status:
        write(f"\n{page.strip()}\n")
    return status
