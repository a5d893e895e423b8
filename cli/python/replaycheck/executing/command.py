"""The command line of `exec`: the launcher's options, the program's, and Valgrind's. Options come before the program's file."""
from __future__ import annotations

import argparse
import os

from replaycheck.endings import Fault
from replaycheck.executing.choices import Choices, Usage
from replaycheck.guest.regions import GREATEST_MOVED
from replaycheck.options import BadValue, Narrow, heap_region, most_output, number, regions_of, stack_region
from replaycheck.programs import ISAS
from replaycheck.verdicts import LEAK_KINDS

TYPE_CHECKING = False  # its name in the module typing, which takes long to import
if TYPE_CHECKING:
    from typing import Any, NoReturn

FORMATS = ("valgrind", "report", "json", "sarif", "valgrind-xml", "junit", "gcc", "github")
EMULATORS = ("qemu-riscv32", "qemu-riscv32-static")
MOST_CALLERS = 24
HELP = "`replaycheck exec --help` lists the options, which come before the program's file"
# Options without a value: what each sets, and to what.
FLAGS: dict[str, tuple[str, bool]] = {
    "-q": ("quiet", True), "--quiet": ("quiet", True), "-v": ("verbose", True), "--verbose": ("verbose", True),
    "--require-heap": ("require_heap", True), "--no-require-heap": ("require_heap", False), "--full-paths": ("full_paths", True),
    "--no-demangle": ("demangle", False), "--end-line": ("ends_line", True),
    "-h": ("asks_for_help", True), "--help": ("asks_for_help", True)}
# What options of Valgrind on leaks come to here, by their values.
NO_LEAKS = {"show": "none", "count": "none"}
LEAK_CHECKS = {"no": NO_LEAKS, "summary": NO_LEAKS, "yes": {}, "full": {}}
SHOW_REACHABLE = {"yes": {"show": "all"}, "no": {}}
SHOW_POSSIBLY_LOST = {"yes": {}, "no": {"show": "definite"}}
# Options of Valgrind that change nothing here, each with the values that ask for what is done anyway; None is any value.
UNUSED = {
    "--tool": ("memcheck",), "--undef-value-errors": ("yes",), "--gen-suppressions": ("no",), "--xml": ("no",), "--track-fds": ("no",),
    "--time-stamp": ("no",), "--stats": ("no",), "--error-limit": None, "--track-origins": None, "--trace-children": None,
    "--child-silent-after-fork": None, "--vgdb": None, "--vgdb-error": None, "--read-var-info": None, "--read-inline-info": None,
    "--keep-debuginfo": None, "--keep-stacktraces": None, "--default-suppressions": None, "--partial-loads-ok": None,
    "--expensive-definedness-checks": None, "--leak-resolution": None, "--leak-check-heuristics": None, "--show-mismatched-frees": None,
    "--malloc-fill": None, "--free-fill": None, "--max-stackframe": None, "--main-stacksize": None, "--show-below-main": None,
    "--run-libc-freeres": None, "--run-cxx-freeres": None, "--num-transtab-sectors": None, "--sigill-diagnostics": None,
    "--error-markers": None, "--exit-on-first-error": ("no",), "--show-error-list": ("no",), "--allow-mismatched-debuginfo": None,
    "--smc-check": None, "--fair-sched": None, "--freelist-big-blocks": None,
}


class Passed(argparse.Action):
    """An option that the program has: its value is passed on, for the name `dest`."""

    def __call__(self, parser: argparse.ArgumentParser, namespace: Any, values: Any, option_string: str | None = None) -> None:
        namespace.passed[self.dest] = str(values)


class PassedAs(argparse.Action):
    """An option whose values stand for options that the program has: `const` has them."""

    def __call__(self, parser: argparse.ArgumentParser, namespace: Any, values: Any, option_string: str | None = None) -> None:
        namespace.passed.update(self.const[values])


class Unused(argparse.Action):
    """An option that changes nothing here. `const` are the values that ask for what is done anyway; None is any value."""

    def __call__(self, parser: argparse.ArgumentParser, namespace: Any, values: Any, option_string: str | None = None) -> None:
        if self.const is not None and values not in self.const:
            raise Usage(f"{option_string}={values}: {rejected(str(option_string))}")
        namespace.unused.append(f"{option_string}={values}")


class Parser(argparse.ArgumentParser):
    """Reads options. What is wrong with them is a fault with the status of `exec`. Of an option that is given twice the last one holds."""

    def __init__(self) -> None:
        super().__init__(add_help=False, allow_abbrev=False, argument_default=argparse.SUPPRESS, formatter_class=Narrow)

    def error(self, message: str) -> NoReturn:
        raise Usage(message)


def kinds(text: str) -> str:
    """Reads a list of kinds of leaks, as a text."""
    unknown = [kind for kind in text.split(",") if kind not in {*LEAK_KINDS.values(), "all", "none"}]
    if unknown:
        raise BadValue(f"no kind of leak: {unknown[0]!r}")
    return text


def callers(text: str) -> int:
    """Reads a number of addresses of a trace, of which Valgrind has more than there are here."""
    return min(MOST_CALLERS, number(1, 500)(text))


def yes_or_no(text: str) -> bool:
    if text not in ("yes", "no"):
        raise BadValue(f"{text!r} is neither yes nor no")
    return text == "yes"


def parser_of_options() -> Parser:
    parser = Parser()
    for name, (dest, value) in FLAGS.items():
        parser.add_argument(name, dest=dest, action="store_const", const=value)
    for name in ("--input", "--report", "--log-file", "--strip-prefix"):
        parser.add_argument(name)
    parser.add_argument("--isa", choices=ISAS)
    parser.add_argument("--heap-region", type=heap_region)
    parser.add_argument("--stack-region", type=stack_region)
    parser.add_argument("--most-moved", type=number(1, GREATEST_MOVED))
    parser.add_argument("--most-output", type=most_output)
    parser.add_argument("--log-fd", type=number(0, 1023))
    parser.add_argument("--log-format", choices=FORMATS)
    parser.add_argument("--demangle", type=yes_or_no)
    parser.add_argument("--error-exitcode", type=number(0, 255))
    parser.add_argument("--supp", "--suppressions", dest="suppressions", action="append")
    parser.add_argument("--patch", dest="patches", action="append")
    parser.add_argument("--not-heap", action="append")
    add_passed(parser)
    for name, values in UNUSED.items():
        parser.add_argument(name, action=Unused, const=values)
    return parser


def add_passed(parser: Parser) -> None:
    """Adds the options that the program has, by its names for them and by Valgrind's."""
    for names, least, most in ((["--step"], 0, 4294967295), (["--idle-exitcode"], 0, 255), (["--memory-limit"], 0, 1048576),
                               (["--callers"], 1, MOST_CALLERS), (["--redzone", "--redzone-size"], 0, 4096),
                               (["--queue", "--freelist-vol"], 0, 1000000000)):
        parser.add_argument(*names, dest=names[0][2:], action=Passed, type=number(least, most))
    parser.add_argument("--num-callers", dest="callers", action=Passed, type=callers)
    parser.add_argument("--show", "--show-leak-kinds", dest="show", action=Passed, type=kinds)
    parser.add_argument("--count", "--errors-for-leak-kinds", dest="count", action=Passed, type=kinds)
    for name, values in (("--leak-check", LEAK_CHECKS), ("--show-reachable", SHOW_REACHABLE), ("--show-possibly-lost", SHOW_POSSIBLY_LOST)):
        parser.add_argument(name, action=PassedAs, choices=tuple(values), const=values)


def rejected(name: str) -> Usage:
    """The fault of an option that there isn't, with what does its work here if it is one of Valgrind's."""
    from replaycheck.valgrind_options import HERE
    why = HERE.get(name)
    return Usage(f"{name} is no option here{f': {why}' if why else '; ' + HELP}")


def split(words: list[str]) -> tuple[list[str], list[str]]:
    """The options at the beginning of some words, each with its value in the same word, and the words after them."""
    options, at = [], 0
    while at < len(words) and words[at].startswith("-") and words[at] not in ("-", "--"):
        has_more = words[at] not in FLAGS and "=" not in words[at]
        options.append("=".join(words[at:at + 1 + has_more]))
        at += 1 + has_more
    return options, words[at + 1:] if words[at:at + 1] == ["--"] else words[at:]


def stepped_over(words: list[str]) -> tuple[list[str], list[str]]:
    """The words after the names of emulators, and the options of another `replaycheck exec` before the file."""
    inner: list[str] = []
    while len(words) > 1:
        name = os.path.basename(words[0])
        if name in EMULATORS:
            if words[1].startswith("-"):
                raise Usage(f"options of an emulator aren't stepped over: {name} {words[1]}")
            words = words[1:]
        elif name == "replaycheck-exec" or name == "replaycheck" and words[1] == "exec":
            more, words = split(words[1 if name == "replaycheck-exec" else 2:])
            inner += more
        else:
            break
    return inner, words


def more_options() -> list[str]:
    """The options that the environment has."""
    text = os.environ.get("REPLAYCHECK_OPTS", "")
    if not text.strip():
        return []
    import shlex
    try:
        options, rest = split(shlex.split(text))
    except ValueError as fault:
        raise Usage(f"REPLAYCHECK_OPTS: {fault}") from None
    if rest:
        raise Usage(f"REPLAYCHECK_OPTS: no option: {rest[0]}")
    return options


def is_text(word: str) -> bool:
    """Whether an argument is UTF-8: of any other byte Python makes a lone surrogate."""
    return not any("\udc80" <= letter <= "\udcff" for letter in word)


def choices_of(words: list[str]) -> Choices:
    """What the words of a command line ask for. Those of another `replaycheck exec` come first, then the environment's."""
    given, rest = split(words)
    inner, rest = stepped_over(rest)
    not_text = next((word for word in (*inner, *given, *rest[:1]) if not is_text(word)), None)
    if not_text is not None:
        raise Usage(f"not UTF-8: {not_text}")
    options = argparse.Namespace(passed={}, unused=[])
    _, unknown = parser_of_options().parse_known_args([*inner, *more_options(), *given], options)
    if unknown:
        raise rejected(unknown[0].partition("=")[0])
    choices = Choices(**vars(options))
    if choices.asks_for_help:
        return choices
    if not rest:
        raise Usage(f"no program's file; {HELP}")
    choices.file, choices.arguments = rest[0], rest[1:]
    judge(choices)
    return choices


def judge(choices: Choices) -> None:
    """Rejects options that contradict each other. A report in a file is a log in the form of a report."""
    try:
        choices.regions = regions_of(choices.heap_region, choices.stack_region, choices.most_moved, choices.most_output,
                                     usual=(GREATEST_MOVED, None))
    except Fault as fault:
        raise Usage(str(fault)) from None
    logs = [name for name, value in (("--report", choices.report), ("--log-file", choices.log_file), ("--log-fd", choices.log_fd))
            if value is not None]
    if len(logs) > 1:
        raise Usage(f"{logs[0]} and {logs[1]} at once")
    if choices.full_paths and choices.strip_prefix is not None:
        raise Usage("--full-paths and --strip-prefix at once")
    if choices.report is not None:
        if choices.log_format not in ("valgrind", "report"):
            raise Usage(f"--report and --log-format {choices.log_format} at once")
        choices.log_format, choices.log_file = "report", choices.report.replace("%", "%%")
    if choices.log_format == "report" and (choices.full_paths or choices.strip_prefix is not None):
        report = "--report" if choices.report is not None else "--log-format report"
        raise Usage(f"{'--full-paths' if choices.full_paths else '--strip-prefix'} and {report} at once: a report has no source files")
