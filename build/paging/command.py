"""`replaycheck page`: builds the page."""
import pathlib
from argparse import Namespace

from checkout import TOP
from replaycheck.endings import Fault, write
from replaycheck.options import Parser
from replaycheck.recording.front import INDEX, LIVE, front_of

from .folder import SOURCES, front_page, one_file, write_folder
from .module import module


def options_of(page: str) -> Namespace:
    parser = Parser(page)
    parser.add_argument("--output", default=str(TOP / "out"))
    parser.add_argument("--recording")
    parser.add_argument("--anew", action="store_true")
    parser.add_argument("--kept", action="store_true")
    options = parser.read()
    if options.anew and options.kept:
        parser.error("--anew and --kept at once")
    return options


def build(options: Namespace) -> int:
    out = pathlib.Path(options.output)
    if (out / "page").resolve() == SOURCES.resolve():
        raise Fault(f"{out} is this repository, whose folder `page` has its own sources: give another folder")
    given = front_of(options.recording) if options.recording is not None else None
    made = module(options.anew, options.kept)
    write_folder(out / "page", made)
    page, front = one_file(made), given or front_page()
    (out / LIVE).write_bytes(page)
    (out / INDEX).write_bytes(front)
    write(f"{out / INDEX}: {len(front)} bytes, a recording that leads to it\n"
          f"{out / LIVE}: {len(page)} bytes, to open\n"
          f"{out / 'page'}: to serve, with a module of {len(made)} bytes\n")
    return 0
