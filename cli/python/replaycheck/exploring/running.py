"""The parts of a sweep, side by side: their tables go to files, whole or not at all."""
import contextlib
import os
import selectors
import subprocess
from dataclasses import dataclass, field

from replaycheck.endings import Fault, heed_signal, start
from replaycheck.guest.lines import shown_name
from replaycheck.refusals import with_words

from . import tables
from .merging import sources_in

AGAIN = 2  # so often a part is tried
PATIENCE = 1  # seconds after which a wait for parts is interrupted for a look at signals
REFUSED = (2, 3)  # the statuses with which the program says that it will never do it
MOST_SAID = 1 << 16
EDITS = tuple(b"\n" + edit for edit in tables.EDITS)  # how rows begin


def edits_in(content):
    """How many rows of edits begin in a text."""
    return sum(map(content.count, EDITS))


@dataclass
class Job:
    """A part that is being made: its number, its child, and the file that its table goes to."""

    part: int
    child: subprocess.Popen
    path: str
    file: object
    said: bytes = b""
    tail: bytes = b""
    open: set = field(default_factory=set)


class Runner:
    """Makes parts of a request in a folder, so many at a time."""

    def __init__(self, program, request, folder, count, jobs):
        self.words, self.request, self.folder = [program, *request.words()], request, folder
        self.count, self.jobs = count, jobs
        self.selector, self.running, self.tries = selectors.DefaultSelector(), {}, {}
        self.fresh = set()  # the paths of tables that may not be whole

    def path(self, part):
        return os.path.join(self.folder, f"part-{part}-of-{self.count}")

    def source(self, path):
        """The one table of a file, which must be of this request."""
        name = os.path.basename(path)
        found = list(sources_in(path, name))
        if len(found) != 1:
            raise Fault(f"{shown_name(name)}: {len(found)} tables, not one")
        self.request.check(found[0])
        return found[0]

    def run(self, parts, progress):
        """Makes these parts. Gives their tables."""
        waiting, found = list(reversed(parts)), []
        try:
            while waiting or self.running:
                heed_signal()
                progress.add(0)
                while waiting and len(self.running) < self.jobs:
                    self.begin(waiting.pop())
                for job in self.read(progress):
                    failed = self.end(job)
                    if failed is None:
                        found.append(self.keep(job))
                    else:
                        self.retry(job, failed)
                        waiting.insert(0, job.part)
        finally:
            progress.end()
            self.clear()
        return found

    def begin(self, part):
        path = self.path(part) + ".new"
        self.tries[part] = self.tries.get(part, 0) + 1
        self.fresh.add(path)
        file = open(path, "wb")
        child = start([*self.words, f"--part={part}/{self.count}"], stdin=subprocess.DEVNULL, stdout=subprocess.PIPE,
                      stderr=subprocess.PIPE)
        job = self.running[part] = Job(part, child, path, file, open={child.stdout, child.stderr})
        for pipe in job.open:
            self.selector.register(pipe, selectors.EVENT_READ, job)

    def read(self, progress):
        """Takes what has come. Gives the jobs that have ended."""
        ended = []
        for key, _ in self.selector.select(PATIENCE):
            job, pipe = key.data, key.fileobj
            content = os.read(pipe.fileno(), 1 << 16)
            if not content:
                self.selector.unregister(pipe)
                job.open.discard(pipe)
                ended += [job] if not job.open else []
            elif pipe is job.child.stdout:
                self.write(job, content)
                job.tail = (job.tail + content)[-100:]
                progress.add(edits_in(b"\n" + content))
            else:
                job.said = (job.said + content)[:MOST_SAID]
        return ended

    @staticmethod
    def write(job, content):
        """Appends to the table of a job."""
        try:
            job.file.write(content)
            job.file.flush()
        except OSError as fault:
            raise Fault(f"cannot write {shown_name(job.path)}: {fault.strerror}") from None

    def end(self, job):
        """How a job has failed, in words; None where it hasn't."""
        status = job.child.wait()
        for pipe in (job.child.stdout, job.child.stderr):
            pipe.close()
        if status == 0 and b"\nend " in job.tail and job.tail.endswith(b"\n"):
            return None
        how = f"status {status}" if status >= 0 else f"signal {-status}"
        how = "no line `end ..`" if status == 0 else how
        return " ".join([f"({how})", *map(told, job.said.split(b"\n"))]).rstrip()

    def keep(self, job):
        """Gives a whole table its name."""
        os.fsync(job.file.fileno())
        job.file.close()
        self.source(job.path)
        os.replace(job.path, self.path(job.part))
        self.fresh.discard(job.path)
        del self.running[job.part]
        return self.source(self.path(job.part))

    def retry(self, job, failed):
        """Puts a part that has failed back, once."""
        job.file.close()
        del self.running[job.part]
        status = job.child.returncode
        if status in REFUSED:
            raise Refused(job.said)
        if self.tries[job.part] == AGAIN:
            raise Fault(f"part {job.part}/{self.count} failed twice: {failed}")

    def clear(self):
        """Ends what runs, and takes away what isn't whole."""
        for job in self.running.values():
            job.child.terminate()
        for job in self.running.values():
            job.child.wait()
            with contextlib.suppress(OSError):  # a full disk
                job.file.close()
        for path in filter(os.path.exists, self.fresh):
            os.unlink(path)
        self.running, self.fresh = {}, set()
        self.selector.close()


class Refused(Fault):
    """The program has refused what was asked for, in its own words."""

    def __init__(self, said):
        super().__init__("the program has refused it")
        self.said = "".join(f"{told(line)}\n" for line in said.split(b"\n") if line)


def told(line):
    """A line of the program's, with words behind a number, as a terminal may have it."""
    return shown_name(with_words(line.decode("utf-8", "surrogateescape")))
