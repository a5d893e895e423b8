"""The folder in which tests/explore/test-explore runs `replaycheck explore`, and what passes and fails there."""
import concurrent.futures
import os
import re
import shlex
import shutil
import subprocess

from checkout import TOP
from guest_files import ENTRY, elf
from rows import without_progress
from tool_rows import HALF, atomic_file

EXPLORE = str(TOP / "cli/bin/replaycheck-explore")
EXAMPLES = TOP / "examples"
MOST_SECONDS = 120
PACKET = ["packet.elf", "--input=packet.input", "--values=flips", "--step=4096"]
# A program that is another one in one way. It notes each part that it makes.
WRAPPER = """#!/bin/sh
case "$*" in *--part=*) ;; *) exec {program} "$@" ;; esac
for word; do case $word in --part=*) part=${{word#--part=}} ;; esac; done
echo "$part" >>{room}/made
{does}
exec {program} "$@"
"""


class Tests:
    """Counts what passes and what fails, in a folder of its own."""

    def __init__(self, room, program):
        self.room, self.program, self.passed, self.failed = room, program, 0, 0
        self.scratch = room / "scratch"
        self.scratch.mkdir()

    def check(self, label, wrong):
        self.passed, self.failed = self.passed + (not wrong), self.failed + bool(wrong)
        if wrong:
            print(f"test-explore: {label}: {str(wrong)[:900]}")

    def left_out(self, label, missing):
        print(f"test-explore: {label}: left out, there is no {missing}")

    def environment(self, **more):
        return {**os.environ, "REPLAYCHECK": self.program, "TMPDIR": str(self.scratch), "LC_ALL": "C", **more}

    def run(self, words, given=b"", before=(), **more):
        """What `explore` has for a status, standard output and standard error."""
        done = subprocess.run([*before, EXPLORE, *map(str, words)], input=given, capture_output=True, cwd=self.room,
                              env=self.environment(**more), timeout=MOST_SECONDS)
        return done.returncode, done.stdout.decode("latin-1"), without_progress(done.stderr.decode("latin-1"))

    def not_refused(self, words, text, **more):
        """What is wrong of a command line that should be refused, with this text."""
        status, out, err = self.run(words, **more)
        is_so = status == 2 and not out and text in err and "Traceback" not in err and not re.search(r"[^\n -~]", err)
        return "" if is_so else (status, out[:200], err[:600])

    def refuses(self, label, words, text, **more):
        self.check(label, self.not_refused(words, text, **more))

    def refuse_all(self, rows):
        """Rows that don't depend on one another, each a label, words and a text."""
        with concurrent.futures.ThreadPoolExecutor(os.cpu_count()) as pool:
            for (label, *_), wrong in zip(rows, pool.map(lambda it: self.not_refused(*it[1:]), rows)):
                self.check(label, wrong)

    def file(self, name, content):
        path = self.room / name
        path.write_bytes(content)
        return path

    def wrapper(self, does):
        """The path of a program that does something before it makes a part."""
        path = self.room / "wrapper"
        quoted = {"program": shlex.quote(self.program), "room": shlex.quote(str(self.room))}
        path.write_text(WRAPPER.format(does=does.format(**quoted), **quoted))
        path.chmod(0o755)
        (self.room / "made").write_text("")
        return str(path)

    def made(self):
        return sorted((self.room / "made").read_text().split())

    def left(self):
        return [it.name for it in self.scratch.iterdir()]

    def sweep(self, *words):
        return subprocess.run([self.program, "sweep", *words], cwd=self.room, capture_output=True).stdout


def furnish(room):
    for path in [*EXAMPLES.glob("*.elf"), EXAMPLES / "packet.input"]:
        shutil.copy(path, room)
    (room / "half.elf").write_bytes(elf(HALF, symbols=[("main", ENTRY, 4 * len(HALF))]))
    (room / "counts.elf").write_bytes(atomic_file())
    (room / "packet-2.elf").write_bytes((room / "packet.elf").read_bytes() + b"\0")
    (room / "a name\nin two lines.elf").write_bytes((room / "packet.elf").read_bytes())
    (room / "linked.input").symlink_to("packet.input")
    (room / "known.supp").write_text("{\n known\n Memcheck:Addr1\n ...\n}\n")
