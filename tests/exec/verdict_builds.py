"""The builds of `test-verdicts`: options of the compiler, and programs with the kit of examples/firmware."""
import pathlib
import shutil
import subprocess
from typing import NamedTuple

from debian_sources import FIRMWARE, TOP

ROOM = TOP / "out" / "verdicts"
COMPILER, COMPILER_PLUS = "riscv64-unknown-elf-gcc", "riscv64-unknown-elf-g++"
HAS_PLUS = shutil.which(COMPILER_PLUS) is not None
WITHOUT_HEAP = ("start.S", "system.c", "console.c")
WITH_HEAP = (*WITHOUT_HEAP, "heap_by_name.c")
WITH_NEW = (*WITH_HEAP, "new.cpp")
SHARED = ["-mabi=ilp32", "--specs=picolibc.specs", "-g", "-w", "-I", FIRMWARE]
PLUS_WORDS = ["-fno-exceptions", "-fno-rtti", "-fno-threadsafe-statics"]


class Build(NamedTuple):
    """A build by its instruction set and its optimization."""

    isa: str
    level: str

    @property
    def name(self) -> str:
        return f"{self.isa} {self.level}"

    @property
    def folder(self) -> pathlib.Path:
        return ROOM / self.name.replace(" ", "")

    @property
    def words(self) -> list:
        return [f"-march={self.isa}", self.level, *SHARED]

    @property
    def exec_words(self) -> list[str]:
        return [] if self.isa == "rv32im" else [f"--isa={self.isa}"]


BUILDS = (Build("rv32im", "-Og"), Build("rv32im", "-O2"), Build("rv32im", "-O0"), Build("rv32imac", "-Os"))
BUILDS_PLUS = (BUILDS[0], BUILDS[3]) if HAS_PLUS else ()


def put_kit() -> None:
    """Builds the objects of the kit, for each build."""
    for build in BUILDS:
        build.folder.mkdir(parents=True, exist_ok=True)
        for name in WITH_NEW if HAS_PLUS else WITH_HEAP:
            more = [*PLUS_WORDS] if name.endswith("pp") else ["-DHEAP_SIZE=262144"]
            compiled([*build.words, *more, "-c", FIRMWARE / name, "-o", object_of(build, name)])


def object_of(build: Build, name: str) -> pathlib.Path:
    return build.folder / f"{name}.o"


def built(out: pathlib.Path, sources: list, build: Build, options: list, kit: tuple[str, ...]) -> pathlib.Path:
    """Builds a program of sources and files of the kit. Returns its path."""
    objects = [object_of(build, it) for it in kit]
    compiled([*build.words, *sources, *objects, *options, "-nostartfiles", "-T", FIRMWARE / "firmware.ld", "-o", out])
    return out


def compiled(words: list) -> None:
    subprocess.run([COMPILER, *words], check=True)
