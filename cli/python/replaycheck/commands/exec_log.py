"""Writes the log of a quiet run, which the launcher has made: of the report on standard input, whose first byte is an argument.

usage: exec-log PID FIRST [--OPTION[=VALUE] ..] -- FILE"""
import gc
import sys

NAME = "exec"


def main() -> int:
    gc.disable()  # it mostly imports, and what it makes is needed to its end
    from replaycheck.executing.quiet_log import write_log
    process, first, *options, _, file = sys.argv[1:]
    return write_log(process, first, options, file)
