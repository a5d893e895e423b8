"""Tokens of a file in the format of AFL's dictionaries."""
from __future__ import annotations

import re
from typing import List

from replaycheck.endings import Fault, naming
from replaycheck.guest.lines import shown, shown_name

from .mutations import LONGEST_TOKEN

LONGEST_FILE = 1 << 20
LINE = re.compile(rb'[^"#]*"((?:[^"\\]|\\.)*)"\s*')
PLAIN = re.compile(rb"\\(?:x([0-9a-fA-F]{2})|([\\\"nrt]))|([^\\])", re.DOTALL)
NAMED = {b"n": b"\n", b"r": b"\r", b"t": b"\t"}


def token_of(text: bytes):
    """The bytes that a text in quotes stands for, None if it has another escape."""
    found, at = b"", 0
    while at < len(text):
        part = PLAIN.match(text, at)
        if not part:
            return None
        found += bytes.fromhex(part[1].decode()) if part[1] else NAMED.get(part[2], part[2]) if part[2] else part[3]
        at = part.end()
    return found


def tokens_in(path: str) -> List[bytes]:
    """The tokens of a file: a line each, in quotes, after a name or without one."""
    with naming(path), open(path, "rb") as file:
        content = file.read(LONGEST_FILE + 1)
    if len(content) > LONGEST_FILE:
        raise Fault(f"--tokens {shown_name(path)}: longer than {LONGEST_FILE} bytes")
    found = []
    for number, line in enumerate(content.split(b"\n"), 1):
        line = line.strip()
        if not line or line.startswith(b"#"):
            continue
        match = LINE.fullmatch(line)
        token = token_of(match[1]) if match else None
        if not token or len(token) > LONGEST_TOKEN:
            raise Fault(f'--tokens {shown_name(path)}: line {number}: no token as name="text" of 1 to {LONGEST_TOKEN} bytes: {shown(line)}')
        found.append(token)
    return found
