"""`replaycheck certify` with bytes that are any: the command line, the program's answer, and the bytes that it comes from."""
from __future__ import annotations

import argparse
import os

from replaycheck.certifying.culprits import bytes_line
from replaycheck.certifying.memory import memory_of
from replaycheck.children import outcome
from replaycheck.endings import Interrupted, write
from replaycheck.guest.regions import Regions
from replaycheck.options import FURTHEST_STEP, Parser, number
from replaycheck.programs import isa_words, path_of, program


def options(page: str) -> argparse.Namespace:
    """Reads the command line."""
    parser = Parser(page)
    parser.add_argument("file")
    parser.add_argument("--input")
    parser.isa_option()
    parser.region_options()
    parser.add_argument("--step", type=number(0, FURTHEST_STEP))
    for name in ("--any", "--any-memory", "--reveal"):
        parser.add_argument(name, action="append", default=[])
    parser.add_argument("--show-options", action="store_true")
    return parser.read()


def run_words(given: argparse.Namespace) -> list[str]:
    """Returns the arguments of the program that say what it runs."""
    regions: Regions = given.regions
    return [path_of(given.file), *([] if given.input is None else [f"--input={given.input}"]), *isa_words(given.isa), *regions.words]


def any_words(given: argparse.Namespace, memory: list[str]) -> list[str]:
    """Returns those that say which bytes are any."""
    return [*(f"--any={text}" for text in given.any), *(f"--any-memory={text}" for text in memory)]


def reveal_words(given: argparse.Namespace) -> list[str]:
    """Returns those that say what may be known of them."""
    return [f"--reveal={text}" for text in given.reveal]


def certify(page: str) -> int:
    """Does what the command line asks for. Returns the status."""
    given = options(page)
    memory = memory_of(given.file, given.any_memory, given.regions)
    step = [] if given.step is None else [f"--step={given.step}"]
    words = [*run_words(given), *any_words(given, memory), *reveal_words(given), *step]
    if given.show_options:
        from shlex import join
        write(join(["replaycheck", "certify", *words]) + "\n")
        return 0

    status, lines, said = outcome([program(), "certify", *words])
    os.write(2, said)
    if status < 0:
        raise Interrupted(-status)
    text = lines.decode("utf-8", "surrogateescape")
    write(text)

    def ask(more: list[str]) -> tuple[int, str]:
        status, lines, _ = outcome([program(), "certify", *run_words(given), *reveal_words(given), *more])
        return status, lines.decode("utf-8", "surrogateescape")

    write(bytes_line(text, ask))
    return status
