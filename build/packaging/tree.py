"""What is installed where, below the folder usr."""
import gzip
import os
import re
import shutil
from email.utils import formatdate

from checkout import TOP
from packaging.completions import completions
from packaging.helps import helps
from packaging.man import man_pages
from packaging.notices import notices
from packaging.pages import manual
from packaging.source import PROGRAM, output
from paging.folder import front_page, one_file, write_folder
from paging.module import module
from replaycheck import installed_page
from replaycheck.endings import Fault

# The launcher finds what it runs beside itself, as in the repository.
HOME = "lib/replaycheck"
EXAMPLES = "share/replaycheck/examples"
DOC = "share/doc/replaycheck"
BROWSER = "share/replaycheck"
LIBRARY = f"{HOME}/cli/python/replaycheck"
PYTHON = "lib/python3/dist-packages/replaycheck"  # where Debian's Python looks for modules
SHIPPED = re.compile(r"cli/(?!README)")
EXAMPLE = re.compile(r"examples/(?!README|firmware/\.gitignore)")

# The package's own list of changes, in Debian's form.
ENTRY = """\
replaycheck ({version}) unstable; urgency=medium

  * What changed stands in CHANGELOG.md.

 -- {maintainer}  {date}
"""
# What Debian's checker is told of a package that brings programs for another processor, and whose own has the bytes that were proved.
OVERRIDES = """\
# The examples are programs for RISC-V, which the manual runs.
replaycheck: arch-dependent-file-in-usr-share [usr/share/replaycheck/examples/*]
replaycheck: binary-from-other-architecture [usr/share/replaycheck/examples/*]
replaycheck: statically-linked-binary [usr/share/replaycheck/examples/*]
replaycheck: unstripped-binary-or-object [usr/share/replaycheck/examples/*]
# The program is the one that the gate has passed, byte for byte.
replaycheck: unstripped-binary-or-object [usr/lib/replaycheck/replaycheck]
"""


def put(path, content, runs=False):
    """Writes a file with its folders."""
    path.parent.mkdir(parents=True, exist_ok=True)
    path.write_bytes(content if isinstance(content, bytes) else content.encode())
    path.chmod(0o755 if runs else 0o644)


def link(path, to):
    path.parent.mkdir(parents=True, exist_ok=True)
    path.symlink_to(os.path.relpath(to, path.parent))


def compressed(content):
    return gzip.compress(content.encode(), 9, mtime=0)


def fill(tree, source):
    """Puts all of a release below a folder."""
    for name in source.files:
        folder = HOME if SHIPPED.match(name) else EXAMPLES.removesuffix("/examples") if EXAMPLE.match(name) else None
        if folder:
            to = tree / folder / name
            to.parent.mkdir(parents=True, exist_ok=True)
            shutil.copy(TOP / name, to, follow_symlinks=False)
    put(tree / HOME / "replaycheck", source.program.read_bytes(), runs=True)
    put(tree / HOME / "replaycheck.options", output(TOP / "build" / "options", source.program))
    put(tree / HOME / "built-from", f"{source.commit}\n")
    for name in ("replaycheck", "replaycheck-exec"):  # the launcher is `replaycheck exec` by the second
        link(tree / "bin" / name, tree / HOME / "cli" / "replaycheck")
    link(tree / PYTHON, tree / LIBRARY)
    put_page(tree, source)
    told = helps(tree / HOME)
    for name, text in completions(told).items():
        put(tree / "share" / name, text)
    for name, text in man_pages(told, source).items():
        put(tree / "share/man/man1" / f"{name}.gz", compressed(text))
    document(tree, source)


def put_page(tree, source):
    """Puts the page for a browser, built from the text of the very program that the release has."""
    built = module()
    if PROGRAM.read_bytes() != source.program.read_bytes():
        raise Fault(f"{source.program}: not the program of this checkout, {PROGRAM}, from whose text the page is built")
    write_folder(tree / BROWSER / installed_page.FOLDER, built)
    put(tree / BROWSER / installed_page.FILE, one_file(built))
    put(tree / BROWSER / installed_page.INDEX, front_page())


def document(tree, source):
    """Puts the manual, the list of changes and the notices into the folder of documents."""
    for name, content in manual().items():
        put(tree / DOC / name, content)
    changes = TOP / "CHANGELOG.md"
    if f"## [{source.version}]" not in changes.read_text():
        raise Fault(f"CHANGELOG.md: no section on version {source.version}")
    put(tree / DOC / "CHANGELOG.md.gz", compressed(changes.read_text()))
    date = formatdate(source.time).replace("-0000", "+0000")
    put(tree / DOC / "changelog.gz", compressed(ENTRY.format(version=source.version, maintainer=source.maintainer, date=date)))
    put(tree / DOC / "copyright", notices())
    link(tree / DOC / "examples", tree / EXAMPLES)
    put(tree / "share/lintian/overrides/replaycheck", OVERRIDES)
