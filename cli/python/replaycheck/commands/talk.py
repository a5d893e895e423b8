"""Prints each line of a script before the reply to it.

usage: replaycheck talk FILE [--input F] [--supp F] [--isa NAME]
         [--heap-region BEGIN] [--stack-region A..B]
         [--most-moved N] [--most-output N] [--limit N] SCRIPT

SCRIPT is a file of lines of `replaycheck look`, which has those of a session
too, or - for standard input. Empty lines and lines that begin with # are
remarks. Each line is printed after `> `, unless it is a remark, and then its
reply. The number of a rejected line is followed by what it means.

Options:
  --input F   the file that the program reads
  --supp F    a file of suppressions
  --isa NAME  the instruction set: rv32im (the default), rv32imc or rv32imac
  --heap-region BEGIN
              where the heap's region begins; 0x40000000 by default
  --stack-region A..B
              the stack's region; 0x7f000000..0x80000000 by default
  --most-moved N, --most-output N
              the most bytes that one read or write moves, and
              that the program writes in all, or none for no
              limit; 4096 and 65536 by default
  --limit N   the greatest step of goto and other lines: 4194304 by default, at
              most 2147483647

Exit status:
  0  no line was rejected
  1  some line was rejected
  2  it failed: a line on standard error says what, and why

Environment:
  REPLAYCHECK  the program to run instead of the usual one"""
import sys
from collections.abc import Iterator
from typing import BinaryIO

from replaycheck.endings import flush, naming, write
from replaycheck.options import Parser
from replaycheck.refusals import with_words
from replaycheck.sessions import Session


def lines_of(script: BinaryIO, path: str) -> Iterator[str]:
    with naming("standard input" if path == "-" else path):
        for line in script:
            yield line.decode("utf-8", "surrogateescape").rstrip("\r\n")


def main() -> int:
    parser = Parser(__doc__)
    parser.program_options()
    parser.limit_option()
    parser.add_argument("script")
    options = parser.read()
    script = sys.stdin.buffer if options.script == "-" else open(options.script, "rb")
    session, status = Session(options.file, options.input, options.supp, command="look", isa=options.isa, regions=options.regions,
                              limit=options.limit), 0
    for line in lines_of(script, options.script):
        if not line or line.startswith("#"):
            told = [line]
        else:
            reply = session.ask(line)
            told = ["> " + line, with_words(reply[0]), *reply[1:]]
            status |= reply[0].startswith("refused ")
        write("\n".join(told) + "\n")
        flush()
    return status
