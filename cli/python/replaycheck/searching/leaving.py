"""How a worker of a search is told to end."""
from __future__ import annotations

from replaycheck.endings import TOLD, Starting, signal


class Leaving:
    """Whether this process is a worker that is to end. SIGTERM says so, and its handler only remembers it: `Worker.tick` ends the work.
    Nothing is raised where the signal comes. Python drops what is raised in a `__del__` or while a generator is closed, and nobody would
    take what is raised before the work begins or once it has ended."""

    is_on = False

    @classmethod
    def begin(cls):
        """Obeys signals as a worker does. They have been blocked since before this process was forked: Python forgets those that reach a
        new process first. What a terminal sends to all processes is for the first one."""
        for number in (signal.SIGINT, signal.SIGHUP):
            signal.signal(number, signal.SIG_IGN)
        signal.signal(signal.SIGTERM, cls.leave)
        Starting.is_on, Starting.come = False, None  # those of the first process
        signal.pthread_sigmask(signal.SIG_UNBLOCK, TOLD)

    @classmethod
    def leave(cls, *_):
        cls.is_on = True
