"""Builds a page on which the program runs in a browser: a report that changes as
you edit.

usage: replaycheck page [--output DIR] [--recording FILE] [--anew | --kept]

Written are DIR/replaycheck.html, one file with everything in it that opens from
disk, DIR/page, a folder to serve, and DIR/index.html, a sweep of an example
that leads to replaycheck.html. The same sources give the same bytes. A package
has the page already, and there this command opens it.

The program's crate is built again over its proved libraries, with the toolchain
of Rattle, and must come out as the proved program, byte for byte. The
intermediate text that the compiler was given is then compiled for 64-bit
WebAssembly, by the same compiler, with page/engine/shim.c for the C library.
That needs some four minutes. The compiled module is kept in the user's folder
of caches until the program, the shim or the toolchain changes.

Options:
  --output DIR      the folder to write to, by default `out` of this repository
  --recording FILE  make DIR/index.html of this file, which is one that
                    `explore --html` has written
  --anew            compile the module again
  --kept            use only a kept module, and build nothing

Exit status:
  0  all were written
  2  it failed: a line on standard error says what, and why"""
import os
import sys

from replaycheck import installed_page
from replaycheck.programs import TOP

if installed_page.is_made():
    __doc__ = installed_page.PAGE


def main() -> int:
    if installed_page.is_made():
        return installed_page.show(installed_page.options_of())
    sys.path.insert(0, os.path.join(TOP, "build"))
    from paging.command import build, options_of  # here, as a release doesn't have it
    return build(options_of(__doc__))
