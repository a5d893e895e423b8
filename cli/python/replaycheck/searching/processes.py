"""The processes of a search: workers, and what they report."""
from __future__ import annotations

import io
import json
import os
import selectors
from collections import deque
from functools import partial
from typing import Callable, Deque, Iterator, List, Tuple

from replaycheck import children as child_processes
from replaycheck.endings import TOLD, Fault, children, end_children, signal, undisturbed
from replaycheck.guest.lines import shown_name

from .leaving import Leaving
from .worker import Over

AT_ONCE = 1 << 16  # bytes of one read


class Forked(child_processes.Child):
    """A worker, which is a copy of this process. It ends when a signal ends this one. `stdout` is the pipe of its reports."""

    stdout: io.FileIO

    def __init__(self, work: Callable, unneeded: List[int]):
        self.status, self.unread, self.has_ended = None, b"", False
        self.lines: Deque[bytes] = deque()  # those that have come and aren't taken yet
        told, tells = os.pipe()
        blocked = signal.pthread_sigmask(signal.SIG_BLOCK, TOLD)  # until the worker obeys them
        try:
            self.pid = os.fork()
            if not self.pid:
                self.begin(work, (told, *unneeded), tells)
        finally:
            signal.pthread_sigmask(signal.SIG_SETMASK, blocked)
        os.close(tells)
        self.stdout = open(told, "rb", buffering=0)

    def read(self):
        """Reads what it reports, or that it has ended."""
        content = os.read(self.stdout.fileno(), AT_ONCE)
        *lines, self.unread = (self.unread + content).split(b"\n")
        self.lines += lines
        self.has_ended = not content

    @staticmethod
    def begin(work: Callable, unneeded: Tuple[int, ...], tells: int):
        """Does the work, in the new process, and ends that."""
        status = 1
        try:
            for number in unneeded:
                os.close(number)
            children.clear()
            Leaving.begin()
            status = obey(work, tells)
        finally:
            os._exit(status)


def obey(work: Callable, tells: int) -> int:
    """Does the work of a worker. What keeps it from that is reported."""
    def tell(*values):
        content = json.dumps(values).encode("ascii") + b"\n"
        try:
            while content:
                content = content[os.write(tells, content):]
        except BrokenPipeError:
            raise Over from None
    try:
        try:
            work(tell)
        except Fault as fault:
            tell("fault", str(fault), fault.said)
        except OSError as fault:
            named = f"{shown_name(os.fspath(fault.filename))}: " if fault.filename else ""
            tell("fault", f"{named}{fault.strerror or fault}", "")
        except MemoryError:
            tell("fault", "out of memory", "")
    except Over:
        pass
    end_children()
    return 0


class Workers:
    """Workers that run side by side."""

    def __init__(self):
        self.selector = selectors.DefaultSelector()
        self.running: List[Forked] = []

    def start(self, works: List[Callable], unneeded: List[int]):
        """Starts workers. `works` has what each does, given a function that tells this process something."""
        for work in works:
            undisturbed(partial(self.add, work, unneeded))

    def add(self, work: Callable, unneeded: List[int]):
        number = len(self.running)
        worker = Forked(work, [*unneeded, *(other.stdout.fileno() for other in self.running)])
        children.append(worker)
        self.running.append(worker)
        self.selector.register(worker.stdout, selectors.EVENT_READ, (number, worker))

    def messages(self, patience: float) -> Iterator[Tuple[int, list]]:
        """What workers report within some seconds: of each its number, and the message. Messages that an exception leaves untaken come by
        a later call."""
        for key, _ in self.selector.select(patience):
            number, worker = key.data
            undisturbed(worker.read)
            while worker.lines:
                yield number, json.loads(worker.lines.popleft())
            if worker.has_ended:
                self.end(worker)

    def end(self, worker: Forked):
        undisturbed(partial(self.leave_out, worker))
        status = worker.wait()
        children.remove(worker)
        if status:
            raise Fault(f"a worker ended with {f'signal {-status}' if status < 0 else f'status {status}'}")

    def leave_out(self, worker: Forked):
        self.selector.unregister(worker.stdout)
        worker.stdout.close()
        self.running.remove(worker)

    def stop(self):
        """Has the workers end. They report how far they are first."""
        for worker in self.running:
            worker.terminate()
