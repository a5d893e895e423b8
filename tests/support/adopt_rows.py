"""What the tests of `replaycheck adopt` share: rows, what they compare, and files."""
import pathlib
import subprocess
import tempfile

from board_files import READ_RUN, board, function, segment, words
from checkout import TOP
from replaycheck.guest.assembly import assemble

ADOPT = str(TOP / "cli/bin/replaycheck-adopt")
AT = 0x10000
EXIT = "li a7, 93; ecall"
GCC = "riscv64-unknown-elf-gcc"
RAM = segment(0x20000, bytes(256))


class Rows:
    """Counts what passes, and tells what fails."""

    def __init__(self, program):
        self.program, self.passed, self.failed = program, 0, 0
        self.room = pathlib.Path(tempfile.mkdtemp())

    def row(self, label, faults):
        faults = list(faults)
        if faults:
            print(f"test-adopt: {label}", *faults[:6], sep="\n  ")
        self.failed += bool(faults)
        self.passed += not faults

    def file(self, data, name="board.elf"):
        path = self.room / name
        path.write_bytes(data)
        return path

    def adopt(self, *options):
        return subprocess.run([ADOPT, *map(str, options)], capture_output=True, text=True, errors="replace",
                              cwd=self.room)

    def run(self, path, *options, step=5000):
        """The report of a run, or what the program says in its place."""
        done = subprocess.run([self.program, "run", path, "--step", str(step), *map(str, options)], capture_output=True,
                              text=True)
        return done.stdout + done.stderr

    def cured(self, data, *options):
        """The output of an adoption, and where the cured file stands."""
        out = self.room / "check.elf"
        out.unlink(missing_ok=True)
        return self.adopt(self.file(data), "-o", out, *options), out


# ---- what a row compares


def lacking(text, wanted):
    return [f"no '{it}' in: {text}" for it in wanted if it not in text]


def status(done, wanted):
    traceback = ["a traceback: " + done.stderr] if "Traceback" in done.stderr else []
    return traceback + ([] if done.returncode == wanted
                        else [f"status {done.returncode} for {wanted}: {done.stdout}{done.stderr}"])


def unlisted(before, after, changes):
    """Bytes that differ and aren't in the list of changes, which are offsets and sizes."""
    kept, given = bytearray(after[:len(before)]), bytearray(before)
    for offset, size in changes:
        kept[offset:min(offset + size, len(given))] = given[offset:offset + size]
    added = sorted(it for it in changes if it[0] >= len(before))
    end = len(before)
    for offset, size in added:
        end = offset + size if offset == end else -1
    return [] if kept == given and end == len(after) else ["bytes are changed that the list hasn't"]


def listed(text):
    """The offsets and sizes of the list of changes."""
    lines = [line.split() for line in text.splitlines() if line.startswith("  offset 0x")]
    return [(int(it[1][:-1], 16), int(it[2])) for it in lines]


def heals(rows, data, before, after, *options, told=()):
    """A file's run has a text before it is adopted, and another one after; what is adopted stays as it is if adopted
    again."""
    yield from lacking(rows.run(rows.file(data)), [before])
    done, out = rows.cured(data, *options)
    yield from status(done, 0)
    if out.exists():
        yield from lacking(done.stdout, told)
        yield from lacking(rows.run(out), [after])
        yield from unlisted(data, out.read_bytes(), listed(done.stdout))
        yield from status(rows.adopt(out, *options), 0)


# ---- files


def code(text, **labels):
    return words(*assemble(text, labels))


def placed(text, size=0x100):
    """Functions by name, each with its instructions, from AT on at multiples of a size: a segment's bytes, and
    symbols."""
    pieces = [piece.split(":", 1) for piece in text.strip().split("\n")]
    names = [name.strip() for name, _ in pieces]
    labels = {name: AT + size * i for i, name in enumerate(names)}
    content, symbols = b"", []
    for i, (_, body) in enumerate(pieces):
        piece = words(*assemble(f"{size // 4 * i} * nop; {body}" if i else body, labels)[size // 4 * i:])
        symbols.append(function(names[i], AT + size * i, len(piece)))
        content += piece + bytes(-len(piece) % size)
    return content, symbols


def firmware(text, extra=(), size=0x100, **more):
    content, symbols = placed(text, size)
    return board([segment(AT, content, flags=READ_RUN), *more.pop("segments", ())], [*symbols, *extra], **more)


def calls(*steps):
    """_start, which takes these steps one after the other and exits with 0."""
    return f"_start: {'; '.join(steps)}; li a0, 0; {EXIT}\n"


def built(rows, name, *options):
    """A file that the compiler makes, or what it says."""
    path = rows.room / name
    done = subprocess.run([GCC, "-mabi=ilp32", "--specs=picolibc.specs", "-Og", "-o", path, *options],
                          capture_output=True, text=True)
    if done.returncode:
        raise OSError(f"{GCC}: {done.stderr}")
    return path.read_bytes()
