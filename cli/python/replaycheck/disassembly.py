"""Instructions of a program's file as text, by the disassembler of binutils."""
from __future__ import annotations

import os
import re
import shutil
import subprocess
from typing import Dict, Iterable, Iterator, List

from replaycheck.endings import Fault, start

PROGRAMS = ("riscv64-unknown-elf-objdump", "riscv64-linux-gnu-objdump")
NEAR = 4096  # bytes between two addresses that are asked for together
ROW = re.compile(r"\s*([0-9a-f]+):\t([^#]*)")


def texts_at(file: str, addresses: Iterable[int]) -> Dict[int, str]:
    """The instructions at addresses, as far as a disassembler is there and the file has code at them."""
    program = os.environ.get("OBJDUMP") or next(filter(None, map(shutil.which, PROGRAMS)), None)
    wanted = set(addresses)
    found: Dict[int, str] = {}
    for begin, last in spans(sorted(wanted)) if program else ():
        try:
            child = start([program, "-d", "--no-show-raw-insn", f"--start-address={begin}", f"--stop-address={last + 4}", file],
                          stdin=subprocess.DEVNULL, stdout=subprocess.PIPE, stderr=subprocess.DEVNULL)
        except Fault:
            return {}
        rows = map(ROW.match, child.communicate()[0].decode("utf-8", "replace").splitlines())
        found.update((int(row[1], 16), " ".join(row[2].split())) for row in rows if row)
    return {address: found[address] for address in wanted & found.keys()}


def spans(addresses: List[int]) -> Iterator[List[int]]:
    """From and to which address there are some that lie near each other."""
    span: List[int] = []
    for address in addresses:
        if span and address - span[1] <= NEAR:
            span[1] = address
        else:
            if span:
                yield span
            span = [address, address]
    if span:
        yield span
