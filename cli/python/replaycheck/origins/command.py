"""The command line of `replaycheck origin`, and its answer."""
from argparse import Namespace

from replaycheck.endings import write
from replaycheck.options import LAST_STEP, USUAL_STEP, Parser, edit, number

from .image import Image
from .search import Group, Search
from .telling import Teller
from .trials import Trials, errors_of

LONG_RUN = 100000  # an error that is made after so many steps is told in the short form, unless --long is there
SHORT = 4096  # which goes so many steps back


def options_of(page: str) -> Namespace:
    parser = Parser(page)
    parser.program_options()
    parser.add_argument("--line", type=edit, action="append", default=[])
    parser.add_argument("--error", type=number(1, LAST_STEP), default=1)
    parser.step_option("--last", 1, USUAL_STEP)
    parser.limit_option()
    parser.add_argument("--short", action="store_true")
    parser.add_argument("--long", action="store_true")
    options = parser.read()
    if options.short and options.long:
        parser.error("--short and --long don't go together")
    return options


def origin(options: Namespace) -> int:
    trials = Trials(options.file, options.input, options.supp, options.line, options.isa, options.regions, options.limit)
    try:
        errors = errors_of(trials.report(options.last))
        if len(errors) < options.error:
            of = f"{len(errors)} errors depend" if len(errors) != 1 else "1 error depends"
            write(f"no such error: at step {options.last} {of} on undefined bits\n")
            return 1
        image = Image(options.file, options.line, options.isa, options.regions)
        search = Search(trials, image, errors[options.error - 1], options.last)
        return told(search, Teller(search, options.file, write), options)
    finally:
        trials.progress.end()


def told(search, teller, options):
    """Tells the origins, and the certificate. Gives the status."""
    teller.error()
    reads = search.needed(search.last_reads())
    if not reads:
        teller.lines("", "no certificate: no marks of memory remove it. What it depends on has only been in registers",
                     "for long, or is where this doesn't look")
        return 1
    is_short = options.short or search.step >= LONG_RUN and not options.long
    search.floor = max(0, search.step - SHORT) if is_short else 0
    origins = search.needed(search.origins(reads))
    if not search.certified(origins):
        origins = [Group(read.step, read.ranges, "read") for read in reads]
        if not search.certified(origins):
            teller.lines("", "no certificate: no marks that were found remove it with none to spare")
            return 1
    if len(origins) > 1:
        teller.lines(f" it hangs on {len(origins)} origins together")
    for index, group in enumerate(origins):
        teller.origin(index + 1, group, [other for other in origins if other is not group])
    teller.certificate(origins)
    return int(any(origin.made in ("lost", "read") for origin in origins))
