"""The program's module: the same intermediate text that the proved program is compiled from, compiled once more for 64-bit
WebAssembly."""
import filecmp
import hashlib
import os
import pathlib
import re
import shutil
import subprocess
import sys
import tempfile

from checkout import TOP
from replaycheck.endings import Fault

from . import kit as kits

NAME = "replaycheck"
PROGRAM = TOP / "crates" / NAME / "out" / NAME
CHECKED = TOP / "out" / "build" / "checked"  # the first build keeps here what its check of the program's crate proved
SHIM = TOP / "page" / "engine" / "shim.c"
KEPT = pathlib.Path(os.environ.get("XDG_CACHE_HOME") or pathlib.Path.home() / ".cache") / "replaycheck" / "page-modules"
MOST_KEPT = 4
STACK, MOST_MEMORY = 4 << 20, 4 << 30
# What of the text is of its processor: the name, the layout of data, which is the same but for types that aren't used, and
# attributes of functions.
LAYOUT = re.compile(r"^target datalayout = .*\n", re.M)
TRIPLE = re.compile(r'^target triple = ".*"$', re.M)
ATTRIBUTES = re.compile(r' "(?:probe-stack|stack-probe-size|target-cpu|target-features|tune-cpu|frame-pointer)"="[^"]*"')
SIMD = "-msimd128"  # two words are moved at once; each browser with 64-bit memory has it
PARTS = ("src", "specs", "proofs", "args", "stdin", "stdout", "status", "data")


def tell(what):
    print(f"replaycheck page: {what}", file=sys.stderr, flush=True)


def libraries_of(text):
    """What each crate stands on, by the lines of crates.txt."""
    lines = [line.partition("#")[0] for line in text.splitlines()]
    return {name.split()[0]: used.split() for name, colon, used in (line.partition(":") for line in lines) if colon}


def below(name, libraries):
    """The crates that one stands on, each after those that it stands on itself."""
    found = []
    for library in libraries[name]:
        if library in libraries:
            found += [crate for crate in [*below(library, libraries), library] if crate not in found]
    return found


class Crates:
    """The crates of a folder, with their libraries built."""

    def __init__(self, top):
        self.top = top
        self.libraries = libraries_of((top / "crates.txt").read_text())
        self.below = below(NAME, self.libraries)

    def library(self, name):
        return self.top / "crates" / name / "out" / "rlib" / f"{name}.rlib"

    def are_built(self):
        return all((self.library(crate) / "format").is_file() for crate in self.below)

    def words(self, kit, checked):
        """The words with which the program's crate is built over its libraries: from what a check has proved, or else by a proof."""
        used = self.libraries[NAME]
        words = ["--crate-name", NAME, "src/main.rt"]
        for name in ["std", *(crate for crate in used if crate not in self.libraries)]:
            words += ["--extern", f"{name}={kit}/rlibs/{name}.rlib"]
        words += ["-L", f"dependency={kit}/rlibs"]
        for name in (crate for crate in used if crate in self.libraries):
            words += ["--extern", f"{name}={self.library(name)}"]
        for name in self.below:
            words += ["-L", f"dependency={self.library(name).parent}"]
        words += ["--antt-project", f"{kit}/rattle/logic/antt-project.json", "--links", f"{NAME}="]
        proof = ["--logic-built", f"{kit}/logic_built", "--jobs", "1"]
        return [*words, *(["--crate-checked", checked] if checked else proof)]


def copy_of_crates(room):
    """The crates that the program stands on, in a repository of their own, proved by `rt ci`, which takes what is kept."""
    crates, top = Crates(TOP), room / "copy"
    names = {*crates.below, NAME}
    (top / ".git").mkdir(parents=True)
    shutil.copy(TOP / "HANDLES", top)
    lines = (TOP / "crates.txt").read_text().splitlines(True)
    (top / "crates.txt").write_text("".join(line for line in lines if not names.isdisjoint(line.partition(":")[0].split()[:1])))
    for name in names:
        for part in PARTS:
            source, to = TOP / "crates" / name / part, top / "crates" / name / part
            if source.is_dir():
                shutil.copytree(source, to)
            elif source.exists():
                to.parent.mkdir(parents=True, exist_ok=True)
                shutil.copy(source, to)
    tell("takes the proved libraries")
    ran = subprocess.run(["rt", "ci"], cwd=top, stdin=subprocess.DEVNULL, capture_output=True, text=True, errors="replace")
    if ran.returncode:
        raise Fault(f"rt ci failed:\n{(ran.stdout + ran.stderr)[-2000:]}")
    return Crates(top)


def built_again(kit, tools, room, crates, checked=None):
    """Whether the program, built once more over libraries, is the proved one, byte for byte."""
    tell("takes the program's intermediate text" if checked else
         "proves the program's crate over its libraries, which takes some minutes, and takes its intermediate text")
    words = ["--toolchain", tools.folder, "--backend", "llvm", "-o", room / "native.o"]
    folder = crates.top / "crates" / NAME
    kits.run([kit / "bin/rattle", "build", *crates.words(kit, checked), *words], folder, "building the program's crate")
    tools.must_have(kits.IR)
    words = ["--target", kits.NATIVE, "--toolchain", kit / "toolchain", "-o", room / "native", room / "native.o"]
    kits.run([kit / "bin/rattle-link", *words, kit / "c/libos_c.a", kit / "c/liblibc_c.a"], room, "linking the program")
    return filecmp.cmp(room / "native", PROGRAM, shallow=False)


def take_text(kit, tools, room):
    """Has the program built once more, so that the compiler is given its text: over the libraries that the gate has left, if
    there are such and they are of this program, or else over a copy's. It is proved again only where the first build's check
    isn't kept, or is of other sources."""

    def is_taken(crates, *checked):
        try:
            return built_again(kit, tools, room, crates, *checked)
        except Fault:
            return False  # what was left is of other sources

    left = Crates(TOP)
    if left.are_built() and is_taken(left):
        return
    crates = copy_of_crates(room)
    if CHECKED.is_dir() and is_taken(crates, CHECKED):
        return
    if not built_again(kit, tools, room, crates):
        raise Fault(f"the program that was built again differs from {PROGRAM.relative_to(TOP)}: the page would have another program")


def for_pages(text):
    """The intermediate text for another processor, whose addresses have 64 bits too."""
    text = TRIPLE.sub(f'target triple = "{kits.TARGET}"', LAYOUT.sub("", text))
    return ATTRIBUTES.sub("", text)


def compile_module(tools, room):
    """The module, from what was kept of the text."""
    tell("compiles the program for WebAssembly")
    tools.take_helpers(room)
    flags = [*tools.flags(), SIMD]
    as_text = ["-S", "-emit-llvm", "-Xclang", "-disable-llvm-passes", "-O1", "-o", "module.ll"]
    kits.run([tools.clang, "-x", "ir", tools.kept / kits.IR, *as_text], room, "reading the program's text")
    text = room / "module.ll"
    text.write_text(for_pages(text.read_text()))
    free = ["-ffreestanding", "-fno-builtin", "-nostdinc"]
    for name, words in (("program", ["-O3", "-x", "ir", "module.ll"]),
                        ("shim", ["-O2", *free, "-Wall", "-Wextra", "-Werror", SHIM]),
                        ("helpers", ["-O2", "-fwrapv", *free, "-x", "c", tools.kept / kits.HELPERS])):
        kits.run([tools.clang, *flags, "-c", *words, "-o", f"{name}.o"], room, f"compiling the {name}")
    kits.run([tools.linker, "-flavor", "wasm", "-mwasm64", "--no-entry", "--stack-first", "-z", f"stack-size={STACK}",
              "--export=__heap_base", "--gc-sections", "--fatal-warnings", f"--max-memory={MOST_MEMORY}", "--strip-debug",
              "program.o", "shim.o", "helpers.o", "-o", "module.wasm"], room, "linking the module")
    return (room / "module.wasm").read_bytes()


def stamp_of(kit):
    """What tells of which sources a module is that was kept."""
    made = hashlib.sha256()
    for path in (PROGRAM, SHIM, kit / "KIT-ID", kit / "toolchain/bin/clang", pathlib.Path(__file__), pathlib.Path(kits.__file__)):
        made.update(hashlib.sha256(path.read_bytes()).digest())
    return made.hexdigest()


def keep(made, path):
    """Keeps a module for later builds, where there is room for it."""
    try:
        path.parent.mkdir(parents=True, exist_ok=True)
        part = path.with_suffix(f".{os.getpid()}")
        part.write_bytes(made)
        part.rename(path)
        for old in sorted(path.parent.glob("*.wasm"), key=lambda kept: -kept.stat().st_mtime)[MOST_KEPT:]:
            old.unlink()
    except OSError as fault:
        tell(f"the module isn't kept for the next time: {fault}")


def build_program():
    if subprocess.run([str(TOP / "build" / "build")], stdin=subprocess.DEVNULL).returncode:
        raise Fault("the program isn't built")


def module(anew=False, is_kept=False):
    """The module's bytes. One that was made of the same sources is taken as it is, but where it is wanted anew; where it must be
    a kept one, of the program as it is, nothing is built."""
    kit = kits.find()
    if not is_kept:
        build_program()
    elif not PROGRAM.is_file():
        raise Fault("no program is built yet")
    kept = KEPT / f"{stamp_of(kit)}.wasm"
    if not anew and kept.is_file():
        return kept.read_bytes()
    if is_kept:
        raise Fault("no module of this program is kept; `replaycheck page` builds one")
    with tempfile.TemporaryDirectory(prefix="replaycheck-page-") as folder:
        room = pathlib.Path(os.path.realpath(folder))
        tools = kits.Tools(kit, room)
        take_text(kit, tools, room)
        made = compile_module(tools, room)
    keep(made, kept)
    return made
