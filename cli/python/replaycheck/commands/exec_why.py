"""Says why `exec` couldn't read a file or rejects it: of the status with which the program ended, which may be the checked program's own.

usage: exec-why STATUS [OPTION ..] FILE"""
import sys

from replaycheck.executing.execution import say_why

NAME = "exec"


def main() -> int:
    return say_why(int(sys.argv[1]), sys.argv[2:])
