"""The command line of `replaycheck coverage`: runs, what they executed, and where that is written."""
from __future__ import annotations

import os
from argparse import Namespace
from fnmatch import fnmatchcase
from typing import Callable, Dict

from replaycheck.demangling import Demangler
from replaycheck.endings import Fault, tell, write
from replaycheck.guest.code import Code
from replaycheck.options import USUAL_STEP, BadValue, Parser
from replaycheck.places import Paths, Places
from replaycheck.refusals import Ended, Refused
from replaycheck.whole_files import rights_of, rights_of_new, same_file, write_whole

from . import gcov_json, lcov, table
from .covered import Covered
from .runs import Sides, run, why

FORMATS: Dict[str, Callable[..., str]] = {"summary": table.text_of, "lcov": lcov.text_of, "gcov-json": gcov_json.text_of}


def pattern(text: str) -> str:
    """Reads a pattern of names of files."""
    if not text:
        raise BadValue("an empty pattern, which no file has")
    return text


def options_of(page: str) -> Namespace:
    parser = Parser(page)
    parser.add_argument("file")
    parser.add_argument("--input", action="extend", nargs="+", default=[])
    parser.add_argument("--format", choices=tuple(FORMATS), default="summary")
    parser.add_argument("--output")
    parser.add_argument("--include", type=pattern, action="append", default=[])
    parser.add_argument("--exclude", type=pattern, action="append", default=[])
    parser.step_option("--step", default=USUAL_STEP)
    parser.limit_option()
    parser.isa_option()
    parser.region_options()
    options = parser.read()
    for path in (options.file, *options.input):
        if options.output is not None and same_file(options.output, path):
            parser.error(f"--output: it would overwrite {path}")
    return options


def all_runs(options, sides):
    """Makes a run of each input, or one without. Returns those that could be made, and how many couldn't."""
    made, failed = [], 0
    for given in options.input or [None]:
        try:
            made.append(run(options.file, given, options, sides))
        except (Ended, Refused) as fault:
            failed += 1
            tell("coverage", Fault(f"{options.file if given is None else given}: no run: {why(fault)}"))
    return made, failed


def is_chosen(name, options):
    """Whether a source file is one of those that are asked for, by its name as it is printed or from the root on."""
    def matches(patterns):
        return any(fnmatchcase(path, one) for one in patterns for path in (name, os.path.abspath(name)))
    return (not options.include or matches(options.include)) and not matches(options.exclude)


def choose(covered, options):
    """Leaves out the source files that aren't asked for."""
    chosen = {name: file for name, file in covered.by_name.items() if is_chosen(name, options)}
    if not chosen:
        raise Fault(f"--include and --exclude leave out all {len(covered.by_name)} source files, such as {covered.files[0].name}")
    covered.by_name = chosen


def put_out(text, path):
    if path is None:
        write(text)
    else:
        rights = rights_of(path) if os.path.isfile(path) else rights_of_new()
        write_whole(path, text.encode("utf-8", "surrogateescape"), rights)


def cover(options: Namespace) -> int:
    """Makes the runs and writes what they executed. Returns the exit status."""
    code = Code(options.file, options.isa, options.regions)
    sides, places, names = Sides(code.ranges, code.unit), Places(options.file, Paths(from_here=True)), Demangler()
    runs, failed = all_runs(options, sides)
    if runs:
        covered = Covered(options.file, code, sides.all(), places)
        choose(covered, options)
        put_out(FORMATS[options.format](covered, names, options.file, runs, options.step), options.output)
        if names.fault:
            tell("coverage", Fault(f"no names as in the source: {names.fault}"))
    return int(failed > 0)
