"""`replaycheck run` with options that the program itself doesn't have: a report by a session, and what it comes to."""
from __future__ import annotations

import os
import sys
from argparse import Namespace

from replaycheck.children import outcome
from replaycheck.endings import Fault, flush, write
from replaycheck.launching import become_program
from replaycheck.options import LAST_STEP, BadValue, Parser, number
from replaycheck.programs import isa_words, path_of, program
from replaycheck.refusals import Ended, Refused
from replaycheck.verdicts import LEAK_KINDS, Verdict

NO_OUTPUT = "the program counts the bytes that were written and doesn't keep them; qemu-riscv32 prints them"
FORMATS = ("json", "sarif", "valgrind-xml", "junit", "gcc", "github")
FROM_HERE = ("sarif", "github")  # whose readers look for source files below the folder where the run begins
# The session's options, by the names that Valgrind has for them.
PASSED_ON = {"--num-callers": ("callers", number(1, 24)), "--freelist-vol": ("queue", number(0, 1000000000)),
             "--redzone-size": ("redzone", number(0, 4096))}
FLAGS = ("--full-paths", "--require-heap", "--no-require-heap", "--no-demangle")
OWN = {*PASSED_ON, *FLAGS, "--error-exitcode", "--errors-for-leak-kinds", "--show-leak-kinds", "--suppressions", "--format",
       "--demangle", "--strip-prefix", "--output", "--not-heap"}


# Options of other commands.
LIMITS = ("--most-moved", "--most-output")


def leak_kinds(text: str) -> tuple[str, frozenset[str]]:
    """Reads a list of kinds of leaks."""
    known: dict[str, set[str]] = {**{kind: {kind} for kind in LEAK_KINDS.values()}, "all": set(LEAK_KINDS.values()), "none": set()}
    unknown = [kind for kind in text.split(",") if kind not in known]
    if unknown:
        raise BadValue(f"no kind of leak: {unknown[0]!r}")
    return text, frozenset().union(*(known[kind] for kind in text.split(",")))


SHOWN = leak_kinds("definite,possible")


def parser_of_options(page: str) -> Parser:
    parser = Parser(page)
    parser.program_options(has_limits=False)
    parser.add_argument("--step", type=number(0, LAST_STEP), default=LAST_STEP)
    parser.add_argument("--error-exitcode", type=number(0, 255), default=0)
    for name in ("--errors-for-leak-kinds", "--show-leak-kinds"):
        parser.add_argument(name, type=leak_kinds, default=SHOWN)
    for name, (option, kind) in PASSED_ON.items():
        parser.add_argument(name, dest=option, type=kind)
    parser.add_argument("--suppressions", action="append", default=[])
    parser.add_argument("--not-heap", action="append", default=[])
    parser.add_argument("--format", choices=["text", *FORMATS], default="text")
    for name in FLAGS:
        parser.add_argument(name, action="store_true")
    parser.add_argument("--demangle", choices=["yes", "no"])
    parser.add_argument("--strip-prefix")
    return parser


def options_of(page: str, words: list[str]) -> Namespace:
    """The options. One that only Valgrind has is an error."""
    parser = parser_of_options(page)
    for name in names_of(words) - OWN:
        why = f"`run` has the usual numbers; `exec`, `look` and other commands take {name}" if name in LIMITS else elsewhere(name)
        if why is not None:
            parser.error(f"{name} is no option here{why and ': ' + why}")
    if "--output" in names_of(words):
        parser.error(f"--output: {NO_OUTPUT}")
    options = parser.read(words)
    if options.full_paths and options.strip_prefix is not None:
        parser.error("--full-paths and --strip-prefix at once")
    if options.require_heap and options.no_require_heap:
        parser.error("--require-heap and --no-require-heap at once")
    options.require_heap = options.require_heap or bool(options.error_exitcode) and not options.no_require_heap
    if options.format == "text" and (options.full_paths or options.strip_prefix is not None):
        parser.error("--full-paths and --strip-prefix go with a --format that isn't text, or `replaycheck lines`")
    if options.demangle == "yes" and (options.no_demangle or options.format == "text"):
        parser.error("--no-demangle and --demangle=yes at once" if options.no_demangle else
                     "--demangle=yes goes with a --format that isn't text; or use `replaycheck lines`")
    return options


def elsewhere(name: str) -> str | None:
    """What does here the work of an option that Valgrind has, in words; None of any other."""
    from replaycheck.valgrind_options import HERE
    return HERE.get(name)


def names_of(words: list[str]) -> set[str]:
    """The names of the options among the arguments before `--`."""
    before = words[:words.index("--")] if "--" in words else words
    return {word.partition("=")[0] for word in before if word.startswith("--")}


def suppressions_of(options):
    """The path of one file of all suppressions, and the descriptors that it needs. Each of several files is given to the program by itself
    first, so that it says what is wrong with which."""
    paths = ([options.supp] if options.supp is not None else []) + options.suppressions
    if len(paths) < 2:
        return (paths[0] if paths else None), []
    room = os.memfd_create("suppressions")
    for path in paths:
        replies(options, ["worked"], path, [])
        with open(path, "rb") as file:
            os.write(room, file.read() + b"\n")
    return f"/dev/fd/{room}", [room]


def replies(options, lines, supp, lends):
    """The lines with which the program answers those of a session, or, where there are none, its report."""
    words = [program(), "session"] if lines else [program(), "run", "--step", str(options.step)]
    words += [*isa_words(options.isa), *options.regions.words]
    for name, path in (("--input", options.input), ("--supp", supp)):
        words += [name, path_of(path)] if path is not None else []
    given = "".join(line + "\n" for line in lines).encode()
    status, told, said = outcome([*words, path_of(options.file)], given, lends)
    if status or not told.endswith(b"\n"):
        raise Ended(status, said, keeps_status=True)
    return told.decode("utf-8", "surrogateescape").split("\n")[:-1]


def report_of(options):
    """The lines of the report. The program's own `run` makes it where it has all options: a session to a far step takes longer."""
    lines = [f"option {option} {getattr(options, option)}" for option, _ in PASSED_ON.values() if getattr(options, option) is not None]
    lines += [f"option show {options.show_leak_kinds[0]}"] if options.show_leak_kinds != SHOWN else []
    lines += [f"goto {options.step}", "report"] if lines else []
    told = replies(options, lines, *suppressions_of(options))
    if not lines:
        return told
    for line, reply in zip(lines, told):
        if reply.startswith("refused "):
            refused = Refused(line, reply)
            refused.status = 4 if refused.number == 1 else 2
            raise refused
    return told[len(lines) - 1:]


def tell(text):
    """Says something on standard error besides the report."""
    try:
        sys.stderr.buffer.write(f"replaycheck run: {text}\n".encode("utf-8", "surrogateescape"))
        sys.stderr.flush()
    except OSError:
        pass  # nobody reads it


def with_places(shown, options):
    """A report with source lines and names as in the source; without them, and with a line on standard error, where addr2line or c++filt
    can't find them."""
    from replaycheck.places import Paths
    paths = Paths(options.full_paths, options.strip_prefix, options.format in FROM_HERE)
    for missing in shown.show(paths, not options.no_demangle and options.demangle != "no"):
        tell(missing)
    return shown


def verdict_line(options):
    """The line of `look certify` on the run, by a look with its options of the heap; nothing where the files can't be read twice."""
    if not all(os.path.isfile(path) for path in (options.file, options.input) if path is not None):
        return ""
    lines = [f"option {name} {getattr(options, name)}" for name in ("redzone", "queue") if getattr(options, name) is not None]
    given = ["--input", path_of(options.input)] if options.input is not None else []
    words = [program(), "look", *given, *isa_words(options.isa), *options.regions.words, path_of(options.file)]
    asked = "".join(f"{line}\n" for line in [*lines, f"goto {options.step}", "look certify"]).encode()
    _, told, _ = outcome(words, asked)
    return told.decode("utf-8", "surrogateescape").rstrip("\n").rpartition("\n")[2]


def version():
    """The version of the program."""
    return outcome([program(), "--version"])[1].decode("utf-8", "replace").strip().removeprefix("replaycheck ")


def formatted(told, options, heap):
    """The report in a format for other programs."""
    from replaycheck import formats
    from replaycheck.findings import Shown
    from replaycheck.reports import Lines, read_report
    counted = options.errors_for_leak_kinds[1]
    shown = Shown(read_report(Lines(told)), options.file, options.input, counted, heap, options.require_heap, options.isa, options.regions)
    shown.version = version() if options.format == "sarif" else None
    shown.verdict = verdict_line(options) if options.format == "json" else ""
    return formats.FORMATS[options.format](with_places(shown, options))


def notices(options, told, verdict, heap):
    """What of the run wasn't checked, in lines."""
    if told[1].startswith(("state stopped illegal", "state stopped misaligned")):
        from replaycheck.other_sets import hint
        said = hint(options.file, options.isa)
        if said:
            yield f"{options.file}: {said[0].lower()}{said[1:]}"
    if verdict.runs_on:
        more = f"; --step goes up to {LAST_STEP}" if verdict.step < LAST_STEP else ""
        yield f"{options.file}: still running at step {verdict.step}: what it does after that isn't checked{more}"
    if heap and heap.is_unseen:
        yield heap.notice(options.file)


def checked(options: Namespace) -> int:
    """Writes the report. Returns the status."""
    from replaycheck.file_heaps import heap_of_run
    told = report_of(options)
    try:
        verdict = Verdict(told)
    except (IndexError, KeyError, ValueError):
        raise Fault(f"{program()}: what it printed is no report: {told[0][:80]!r}") from None
    heap = heap_of_run(options.file, options.input, verdict.step, options.isa, options.regions, options.not_heap)
    write("".join(line + "\n" for line in told) if options.format == "text" else formatted(told, options, heap))
    flush()
    for line in notices(options, told, verdict, heap):
        tell(line)
    if options.require_heap and heap and heap.is_unseen:
        return options.error_exitcode or 1
    return options.error_exitcode if verdict.fails(options.errors_for_leak_kinds[1]) else 0


def run(page: str) -> int:
    """Makes a report as the command line asks for, or becomes the program. Returns the exit status."""
    words = sys.argv[1:]
    names = names_of(words)
    if not names & OWN and not any(elsewhere(name) is not None for name in names):
        become_program(["run", *words])
    return checked(options_of(page, words))
