"""The files of a release: an archive, and a package for Debian. What is in them stands in order and has one time."""
import gzip
import hashlib
import io
import os
import re
import shutil
import sys
import tarfile

from packaging.source import output

CONTROL = """\
Package: replaycheck
Version: {version}
Architecture: amd64
Maintainer: {maintainer}
Installed-Size: {size}
Depends: libc6 (>= {libc}), python3
Recommends: binutils-riscv64-unknown-elf
Section: devel
Priority: optional
Description: Memcheck for static RV32IM programs, and what one edit would change
 It runs a static program for RV32IM and reports invalid reads and writes, uses
 of undefined values, bad frees and leaks, in the manner of Valgrind's Memcheck.
 A recorded run can then be edited (a byte of its input, an instruction, a range
 of memory), and the report of the edited run is there at once. That each report
 is the one of a run from step zero is proved by machine.
"""


# What is done after the package is installed and before it goes: Python's modules are compiled for the Python that is there.
SCRIPTS = {
    "postinst": """\
#!/bin/sh
set -e
if [ "$1" = configure ] && command -v py3compile >/dev/null; then
  py3compile -p replaycheck /usr/lib/replaycheck
fi
""",
    "prerm": """\
#!/bin/sh
set -e
if command -v py3clean >/dev/null; then
  py3clean -p replaycheck
fi
""",
}
# Compiles all modules below a folder, each as the source says by its own sum, which isn't looked at again: in one process whose sets
# have one order, so that the same sources give the same bytes.
COMPILE = """\
import pathlib, py_compile, sys
for path in sorted(pathlib.Path(sys.argv[1]).rglob("*.py")):
    shown = str(path.relative_to(sys.argv[1]))
    py_compile.compile(path, dfile=shown, doraise=True, invalidation_mode=py_compile.PycInvalidationMode.UNCHECKED_HASH)
"""


def compile_modules(tree):
    """Compiles the modules of an archive, which nobody installs, for the system's Python."""
    python = "/usr/bin/python3" if os.access("/usr/bin/python3", os.X_OK) else sys.executable
    output(python, "-S", "-c", COMPILE, tree / "lib/replaycheck/cli/python", env={**os.environ, "PYTHONHASHSEED": "0"})


def digest(path):
    return hashlib.sha256(path.read_bytes()).hexdigest()


def entries(tree):
    """All below a folder, in order of their paths: folders, files and links."""
    return sorted(tree.rglob("*"))


def settle(tree, time):
    """Gives all in a tree one time, and the rights that its kind has."""
    for path in [tree, *entries(tree)]:
        if not path.is_symlink():
            runs = path.is_dir() or path.stat().st_mode & 0o100
            path.chmod(0o755 if runs else 0o644)
        os.utime(path, (time, time), follow_symlinks=False)


def make_archive(tree, source, folder):
    """The tree as replaycheck-VERSION.tar.gz, in a folder of that name."""
    name = f"replaycheck-{source.version}"
    compile_modules(tree)
    settle(tree, source.time)
    held = io.BytesIO()
    with tarfile.open(fileobj=held, mode="w", format=tarfile.PAX_FORMAT) as archive:
        for path in [tree, *entries(tree)]:
            entry = archive.gettarinfo(path, f"{name}/{path.relative_to(tree)}")
            entry.uid = entry.gid = 0
            entry.uname = entry.gname = "root"
            entry.mtime = source.time
            with open(path, "rb") if entry.isreg() else io.BytesIO() as content:
                archive.addfile(entry, content)
    made = folder / f"{name}.tar.gz"
    made.write_bytes(gzip.compress(held.getvalue(), 9, mtime=0))
    return made


def newest_libc(program):
    """The newest version of the C library whose symbols a program asks for."""
    found = re.findall(r"GLIBC_(\d+)\.(\d+)", output("objdump", "-T", program).decode())
    return ".".join(map(str, max((int(major), int(minor)) for major, minor in found)))


def make_debian(tree, source, folder):
    """The tree as a package for Debian."""
    files = [path for path in entries(tree) if path.is_file() and not path.is_symlink()]
    control = tree.parent / "DEBIAN"
    control.mkdir()
    size = sum(path.stat().st_size + 1023 for path in files) // 1024
    (control / "control").write_text(CONTROL.format(
        version=source.version, size=size, libc=newest_libc(source.program), maintainer=source.maintainer))
    sums = (f"{hashlib.md5(path.read_bytes()).hexdigest()}  {path.relative_to(tree.parent)}\n" for path in files)
    (control / "md5sums").write_text("".join(sums))
    for name, text in SCRIPTS.items():
        (control / name).write_text(text)
        (control / name).chmod(0o755)
    settle(tree.parent, source.time)
    made = folder / f"replaycheck_{source.version}_amd64.deb"
    dated = {**os.environ, "SOURCE_DATE_EPOCH": str(source.time)}
    output("dpkg-deb", "--build", "--root-owner-group", "-Zxz", tree.parent, made, env=dated)
    shutil.rmtree(control)
    return made
