"""The command line of `replaycheck explore`, and its work."""
import contextlib
import os
import random
import sys
from argparse import Namespace

from replaycheck.covering import lcov
from replaycheck.endings import Fault, flush, write
from replaycheck.file_heaps import heap_of_run
from replaycheck.guest.lines import shown_name
from replaycheck.options import FURTHEST_STEP, Parser, number
from replaycheck.programs import ISAS
from replaycheck.recording.file import Recording
from replaycheck.sessions import program

from . import goals, remote, scripts
from .altered import Instructions
from .executed import Executed, told as executed_told
from .heads import MOST_PARTS, told_isa, told_regions
from .keeping import Kept, Room
from .merging import Merged, in_order, sources_in, spooled
from .outputs import OUTPUTS, Outputs, check_outputs
from .picture import Picture
from .progress import Progress
from .request import Request, models_of, range_of, values_reader, words_of
from .running import Runner
from .steps import MODELS
from .summary import SourceLines, Summary

PARTS_A_JOB = 8
BYTES, WORDS = ("all", "flips", "edges"), ("skip", "flips")


def options_of(page: str) -> Namespace:
    parser = Parser(page)
    parser.add_argument("file", nargs="?")
    for name in ("--input", "--supp", "--code", "--keep", "--goal", "--table", "--svg", "--html", "--lcov", "--sshlogin"):
        parser.add_argument(name)
    parser.add_argument("--isa", choices=ISAS)
    parser.region_options()
    parser.add_argument("--step", type=number(0, FURTHEST_STEP))
    parser.add_argument("--limit", type=number(1, FURTHEST_STEP))
    parser.add_argument("--bytes", type=range_of)
    parser.add_argument("--words", type=words_of)
    parser.add_argument("--values", type=values_reader(BYTES, 256))
    parser.add_argument("--words-values", type=values_reader(WORDS, 1 << 32))
    parser.add_argument("--at", type=range_of)
    parser.add_argument("--faults", type=models_of)
    parser.add_argument("--code-range", type=words_of)
    parser.add_argument("--pairs", choices=["skip"])
    parser.add_argument("--with-output", action="store_true")
    parser.add_argument("--jobs", type=number(1, 10000))
    parser.add_argument("--parts", type=number(1, MOST_PARTS))
    parser.add_argument("--sample", type=number(1, MOST_PARTS))
    parser.add_argument("--seed", type=number(0, 0xFFFFFFFF))
    parser.add_argument("--script", choices=["slurm"])
    parser.add_argument("--require-heap", action="store_true")
    parser.add_argument("--from", dest="tables", nargs="+", action="extend", default=[])
    options = parser.read()
    check(parser, options)
    return options


def given(options: Namespace, names: tuple[str, ...]) -> list[str]:
    """Those of some options that a command line has."""
    values = ((name, getattr(options, name[2:].replace("-", "_"))) for name in names)
    return [name for name, value in values if value is not None and value is not False]


def check(parser: Parser, options: Namespace) -> None:
    """Rejects what doesn't go together."""
    printed = [f"--{name}" for name in OUTPUTS if getattr(options, name) == "-"]
    words = options.words is not None or options.code is not None and options.at is None
    making = given(options, ("--step", "--limit", "--bytes", "--words", "--code", "--values", "--words-values", "--at", "--faults",
                             "--code-range", "--pairs", "--with-output", "--jobs", "--parts", "--keep", "--sshlogin", "--script",
                             "--require-heap"))
    running = given(options, ("--goal", "--table", "--svg", "--html", "--lcov", "--jobs", "--sample", "--sshlogin", "--require-heap"))
    faults = [(options.file is None and not options.tables, "no FILE, and no --from"),
              (options.file is None and (options.input or options.supp), "--input and --supp go with a FILE"),
              *((options.file is None and getattr(options, name) is not None, f"--{name.replace('_', '-')} goes with a FILE")
                for name in ("isa", "heap_region", "stack_region", "most_moved", "most_output")),
              (options.limit is not None and options.step is not None, "--step and --limit at once"),
              (options.tables and making, f"--from takes tables that are there: {' '.join(making)} makes them"),
              (options.script is not None and running, f"--script prints a script and runs nothing: not with {' '.join(running)}"),
              (options.at is None and options.code is not None and options.words is not None, "--code and --words at once"),
              (options.code is not None and options.code_range is not None, "--code and --code-range at once"),
              (options.at is not None and options.faults is None, f"--at needs --faults, a list of {', '.join(MODELS)}"),
              *((options.at is None and getattr(options, name) is not None, f"--{name.replace('_', '-')} goes with --at")
                for name in ("faults", "code_range", "pairs")),
              (options.values is not None and options.at is not None and options.bytes is None, "--values is for bytes, with --bytes"),
              (options.values is not None and words and options.bytes is None,
               "--values is for bytes, with --bytes; for words it is --words-values"),
              (options.words_values is not None and not words, "--words-values goes with --words or --code"),
              (options.seed is not None and options.sample is None, "--seed goes with --sample"),
              (options.tables and options.sample is not None, "--sample makes parts: not of --from"),
              *((options.file is None and getattr(options, name) is not None, f"--{name} goes with a FILE") for name in ("html", "lcov")),
              (len(printed) > 1, f"{' and '.join(f'{option} -' for option in printed)} at once"),
              ("" in (*(getattr(options, name) for name in OUTPUTS), options.keep, options.code, options.goal),
               "an option without a value")]
    for is_so, text in faults:
        if is_so:
            parser.error(text)


# ---- the tables


def tables_given(options, request, room):
    """The tables of --from, in order. With a file they are of that."""
    found = []
    for name in options.tables:
        path = name
        if name == "-":
            path = spooled(sys.stdin.buffer, "standard input", room)
        elif not os.path.isfile(name):
            with open(name, "rb") as file:
                path = spooled(file, name, room)
        found += sources_in(path, "standard input" if name == "-" else name)
    for source in found if request else ():
        request.check_files(source)
    return in_order(found)


def chosen(options, count):
    """The parts that are made: all, or a sample."""
    if options.sample is None:
        return list(range(1, count + 1))
    return sorted(random.Random(options.seed or 0).sample(range(1, count + 1), min(options.sample, count)))


def jobs_of(options):
    return options.jobs or len(os.sched_getaffinity(0))


def tables_made(options, request, room, executed):
    """The tables of the parts, made as far as they aren't kept, in order, and what the summary says of a sample. If it is asked what their
    runs execute, and the tables can say that, they do."""
    kept = Kept(options.keep) if options.keep is not None else None
    jobs = jobs_of(options)
    places = max(1, request.places)
    count = kept.count(options.parts) if kept else options.parts
    count = count or min(places, MOST_PARTS, jobs * PARTS_A_JOB if options.sample is None else MOST_PARTS)
    parts = chosen(options, count)
    request.has_sides = request.is_of_bytes and (kept.has_sides() if kept and kept.found else executed is not None and executed.is_whole)
    folder = kept.path if kept else room
    if options.sshlogin is None:
        runner = Runner(program(), request, folder, count, jobs)
    else:
        runner = remote.Remote(program(), request, folder, count, options.jobs)
        runner.logins = options.sshlogin
    found = kept.parts(runner) if kept else {}
    missing = [part for part in parts if part not in found]
    made = runner.run(missing, Progress(request.edits() * len(missing) // count)) if missing else []
    sources = [found[part] for part in parts if part in found] + made
    if options.sample is None:
        return in_order(sources), []
    note = (f"a sample: {len(parts)} of {count} parts of the sweep, by random.Random({options.seed or 0}).sample; what "
            "the other parts lead to isn't known")
    return in_order(sources, (parts, count)), [note]


# ---- what is told


def told(options, request, sources, notes, room, outputs, executed):
    """Reads the tables as one, and tells what is asked for. Gives the status."""
    merged, goal = Merged(sources), None
    if executed:
        executed.begin(merged, request.edits() if options.sample is None else 0)
    if options.goal is not None:
        goal = goals.Goal(options.goal, merged, room)
    picture = Picture(merged, sources, goal) if "svg" in outputs else None
    lines = SourceLines(request and os.path.abspath(request.program.path))
    instructions = Instructions(request, lines)
    recording = Recording(request, merged, goal, jobs_of(options)) if "html" in outputs else None
    takers = [taker.add for taker in (goal, picture, executed, recording) if taker]
    is_table = "table" in outputs and options.sample is None
    for place in merged.places(outputs["table"].write if is_table else None):
        for take in takers:
            take(place)
    covered = executed and executed.end()
    summary = Summary(merged, request.title() if request else anonymous(merged.head),
                      request.before if request else lambda *_: None, lines, notes, request.step_note if request else "", instructions,
                      executed_told(covered) if covered else "")
    if picture:
        outputs["svg"].write(picture.text(summary).encode("utf-8"))
    if recording:
        outputs["html"].write(recording.content(summary))
    if covered:
        outputs["lcov"].write(lcov.text_of(covered).encode("utf-8", "surrogateescape"))
    if "table" in outputs and not is_table:
        for source in sources:
            outputs["table"].copy(source.path)
    for output in outputs.values():
        output.end()
    if "-" not in [getattr(options, name) for name in OUTPUTS]:
        write(goal.told(instructions) if goal else "".join(f"{line}\n" for line in summary.lines()))
    flush()
    return int(bool(goal.count if goal else summary.is_new))


def anonymous(head):
    """What a sweep is called of which the files aren't there."""
    (size, digest), (length, other), _ = head.files
    given = f" with {length} bytes ({other[:12]}..)" if length else ""
    return f"a program of {size} bytes ({digest[:12]}..){given}{told_isa(head.isa)}{told_regions(head.regions)}"


def check_heap(options, request):
    """Says where errors of the heap can't be found in the runs of a sweep."""
    heap = heap_of_run(request.program.path, request.input.path or None, request.step, isa=request.isa, regions=request.regions)
    if heap and heap.is_unseen:
        notice = heap.notice(shown_name(request.program.name))
        if options.require_heap:
            raise Fault(notice)
        sys.stderr.write(f"replaycheck explore: {notice}\n")


def executed_of(options, request):
    """What the runs execute, where an info file is asked for."""
    return contextlib.nullcontext() if options.lcov is None else Executed(request, jobs_of(options))


def explore(options):
    check_outputs(options)
    with Room() as room:
        request = Request(options, room) if options.file is not None else None
        if options.script:
            write(scripts.slurm(options, request))
            return 0
        if request and not options.tables:
            check_heap(options, request)
        if options.sshlogin is not None and not remote.is_there():
            raise Fault("--sshlogin: GNU parallel isn't there, Debian's package parallel; without --sshlogin "
                        "all parts run here")
        with Outputs(options, room) as outputs, executed_of(options, request) as executed:
            if options.tables:
                sources, notes = tables_given(options, request, room), []
            else:
                sources, notes = tables_made(options, request, room, executed)
            return told(options, request, sources, [*(request.notes if request else []), *notes], room, outputs, executed)
