"""`replaycheck page` in a release, which has the page: opens it, or copies it."""
import os
import pathlib
import shutil
from argparse import Namespace

from replaycheck.endings import Fault, flush, naming, write
from replaycheck.options import Parser
from replaycheck.programs import BUILT_FROM, TOP
from replaycheck.recording.front import INDEX, LIVE, front_of

# Where a release has the page, beside the launcher's folder.
PLACE = pathlib.Path(TOP).parents[1] / "share" / "replaycheck"
FILE, FOLDER = LIVE, "page"
BROWSERS = ("xdg-open", "sensible-browser", "x-www-browser")
# A browser that ends sooner has failed, if its status says so.
SECONDS = 3
PAGE = """\
Opens the page on which the program runs in a browser: a report that changes as
you edit.

usage: replaycheck page [--output DIR [--recording FILE]]

The package has the page: it was built with the package, from the intermediate
text of the proved program. Nothing has to be installed besides a browser with
64-bit WebAssembly memory, such as a current Chromium. Your browser reads your
files itself: nothing leaves the page.

Printed is the file that is opened. Without a desktop nothing is opened: open or
copy that file yourself.

Options:
  --output DIR      write DIR/replaycheck.html, one file with everything in it
                    that opens from disk, DIR/page, a folder to serve, and
                    DIR/index.html, a sweep that leads to replaycheck.html;
                    open nothing
  --recording FILE  make DIR/index.html of this file, which is one that
                    `explore --html` has written; without it, it is a sweep of
                    an example

Exit status:
  0  the page was opened or written
  2  it failed: a line on standard error says what, and why

Environment:
  DISPLAY, WAYLAND_DISPLAY  there is a desktop if one of these is set
  BROWSER                   the browser that xdg-open starts
"""


def is_made() -> bool:
    """Whether this is a release, which has the page."""
    return os.path.exists(BUILT_FROM)


def options_of() -> Namespace:
    parser = Parser(PAGE)
    parser.add_argument("--output")
    parser.add_argument("--recording")
    options = parser.read()
    if options.recording is not None and options.output is None:
        parser.error("--recording goes with --output")
    return options


def show(options: Namespace) -> int:
    if not (PLACE / FILE).is_file():
        raise Fault(f"{PLACE / FILE}: no such file: this release is not whole")
    if options.output is None:
        return open_file(PLACE / FILE)
    front = front_of(options.recording) if options.recording is not None else (PLACE / INDEX).read_bytes()
    return copy(pathlib.Path(options.output), front)


def copy(out: pathlib.Path, front: bytes) -> int:
    """Writes the file, the folder and the front page."""
    for path in (PLACE / FILE, *sorted(file for file in (PLACE / FOLDER).rglob("*") if file.is_file())):
        to = out / path.relative_to(PLACE)
        with naming(str(to)):
            to.parent.mkdir(parents=True, exist_ok=True)
            shutil.copyfile(path, to)
    with naming(str(out / INDEX)):
        (out / INDEX).write_bytes(front)
    write(f"{out / INDEX}: {len(front)} bytes, a recording that leads to it\n"
          f"{out / FILE}: {(out / FILE).stat().st_size} bytes, to open\n{out / FOLDER}: to serve\n")
    return 0


def open_file(path: pathlib.Path) -> int:
    """Has the desktop open the file, if there is one."""
    import subprocess
    write(f"{path}\n")
    flush()
    openers = [shutil.which(name) for name in BROWSERS]
    opener = next((found for found in openers if found), None)
    if not opener or not (os.environ.get("DISPLAY") or os.environ.get("WAYLAND_DISPLAY")):
        return 0
    child = subprocess.Popen([opener, str(path)], stdin=subprocess.DEVNULL, start_new_session=True)
    try:
        status = child.wait(SECONDS)
    except subprocess.TimeoutExpired:
        return 0
    if status:
        raise Fault(f"cannot open {path}: {os.path.basename(opener)} ended with status {status}")
    return 0
