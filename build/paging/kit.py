"""The toolchain of Rattle where it stands, and a folder that stands for its tools and keeps what its compiler is given."""
import os
import pathlib
import shlex
import shutil
import subprocess

from replaycheck.endings import Fault

NEEDED = ("bin/rattle", "bin/rattle-link", "toolchain/bin/clang", "toolchain/bin/ld.lld", "toolchain/bin/llvm-ar",
          "toolchain/lib", "c/libos_c.a", "c/liblibc_c.a", "rlibs/std.rlib", "rattle/logic/antt-project.json",
          "logic_built")
TARGET, NATIVE = "wasm64-unknown-unknown", "x86_64-unknown-linux-gnu"
IR, HELPERS = "module.bc", "helpers.c"
KEEPING = """#!/bin/sh
for file in {files}; do
  [ ! -f "$file" ] || {{ cp "$file" {kept}/ && printf '%s\\n' "$@" >{kept}/"$file.words"; }} || exit
done
exec {clang} "$@"
"""


def find():
    """The folder of the toolchain."""
    found = shutil.which("rt")
    if not found:
        raise Fault("cannot build the page: it needs the toolchain of Rattle, and its command rt is not on the path")
    kit = pathlib.Path(os.path.realpath(found)).parents[1]
    missing = [name for name in NEEDED if not (kit / name).exists()]
    if missing:
        raise Fault(f"the toolchain of Rattle in {kit} lacks {', '.join(missing)}")
    return kit


def run(words, folder, what):
    """Runs a tool, whose words are told where it fails."""
    ran = subprocess.run([str(word) for word in words], cwd=folder, stdin=subprocess.DEVNULL, capture_output=True, text=True,
                         errors="replace")
    if ran.returncode:
        said = (ran.stdout + ran.stderr).strip()[-2000:]
        raise Fault(f"{what} failed: {words[0]} ended with status {ran.returncode}\n{said}")


class Tools:
    """A folder with links to the tools, whose compiler keeps a program's module and the helpers for wide numbers."""

    def __init__(self, kit, folder):
        self.kit, self.folder, self.kept = kit, folder / "tools", folder / "kept"
        self.clang, self.linker = kit / "toolchain/bin/clang", kit / "toolchain/bin/ld.lld"
        (self.folder / "bin").mkdir(parents=True)
        self.kept.mkdir()
        (self.folder / "lib").symlink_to(kit / "toolchain/lib")
        for tool in (kit / "toolchain/bin").iterdir():
            if tool.name != "clang":
                (self.folder / "bin" / tool.name).symlink_to(tool)
        script = self.folder / "bin/clang"
        script.write_text(KEEPING.format(files=f"{IR} {HELPERS}", kept=shlex.quote(str(self.kept)),
                                         clang=shlex.quote(str(self.clang))))
        script.chmod(0o755)

    def flags(self):
        """What the linker has the compiler make code for a page with: all words before `-c`, but the place of the tools."""
        words = (self.kept / f"{HELPERS}.words").read_text().splitlines()
        return [word for word in words[:words.index("-c")] if not word.startswith("--sysroot=")]

    def take_helpers(self, room):
        """Has the linker hand its helpers to the compiler, by a library of one function that it links."""
        (room / "empty.c").write_text("int empty(void) { return 0; }\n")
        words = [self.clang, f"--target={TARGET}", "--no-default-config", "-c", "empty.c", "-o", "empty.o"]
        run(words, room, "an empty library")
        run([self.kit / "toolchain/bin/llvm-ar", "rcD", "empty.a", "empty.o"], room, "an empty library")
        words = ["--target", TARGET, "--toolchain", self.folder, "-o", "empty.wasm", "empty.a"]
        run([self.kit / "bin/rattle-link", *words], room, "linking an empty library")
        self.must_have(HELPERS)

    def must_have(self, name):
        if not (self.kept / name).is_file():
            raise Fault(f"the toolchain of Rattle in {self.kit} gave its compiler no {name}: the page can't be built with it")
