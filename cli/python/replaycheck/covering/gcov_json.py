"""What runs have executed in the form of `gcov --json-format`, version 2, as GCC 14 writes it. Each count is 1 or 0, and no column is
known."""
from __future__ import annotations

import json
import os

from replaycheck.demangling import Demangler

from .covered import Branch, Covered, Function, Line, SourceFile

FORMAT = "2"
NOWHERE = -1  # the block of a branch that leads to no code


def text(name: str) -> str:
    """A name as UTF-8 can have it: other bytes as `\\xff`."""
    return name.encode("utf-8", "surrogateescape").decode("utf-8", "backslashreplace")


def branches(branch: Branch) -> list:
    return [{"count": int(is_taken), "destination_block_id": NOWHERE if block is None else block, "fallthrough": way == 0,
             "source_block_id": branch.source, "throw": False} for way, (is_taken, block) in enumerate(branch.ways)]


def line(number: int, covered: Line) -> dict:
    named = {"function_name": text(covered.function)} if covered.function else {}
    return {"block_ids": sorted(covered.blocks), "branches": [way for branch in covered.branches for way in branches(branch)], "calls": [],
            "conditions": [], "count": int(covered.is_executed), "line_number": number, "unexecuted_block": covered.has_unexecuted, **named}


def function(covered: Function, names: Demangler) -> dict:
    return {"blocks": len(covered.blocks), "blocks_executed": sum(covered.blocks.values()),
            "demangled_name": text(names.name(covered.name)), "end_column": 0, "end_line": covered.last,
            "execution_count": int(covered.is_executed), "name": text(covered.name), "start_column": 0, "start_line": covered.first}


def source(file: SourceFile, names: Demangler) -> dict:
    names.learn(source_function.name for source_function in file.in_order())
    return {"file": text(file.name), "functions": [function(source_function, names) for source_function in file.in_order()],
            "lines": [line(number, source_line) for number, source_line in sorted(file.lines.items())]}


def text_of(covered: Covered, names: Demangler, program: str, *_) -> str:
    whole = {"current_working_directory": text(os.getcwd()), "data_file": text(program), "format_version": FORMAT,
             "gcc_version": "replaycheck", "files": [source(file, names) for file in covered.files]}
    return json.dumps(whole, separators=(",", ":")) + "\n"
