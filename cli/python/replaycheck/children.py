"""Children with pipes, without the module subprocess, whose import takes longer than what most of them do."""
import io
import os

from replaycheck.endings import Fault, children, signal, undisturbed

# Has a command line killed when a process ends, whose number comes first. The second shell sees whether it had ended before that was so.
TIED = """if setpriv --pdeathsig KILL true 2>/dev/null; then
  exec setpriv --pdeathsig KILL sh -c '[ "$PPID" = "$0" ] && exec "$@"' "$0" "$@"
fi
exec "$@" """


class Child:
    """A process that `endings.end_children` can end. What it says on standard error goes to a file, so that it never waits for a reader."""

    stdin: "io.BufferedWriter | None" = None
    stdout: "io.BufferedReader | io.FileIO | None" = None
    stderr: "io.BufferedReader | None" = None
    # Whether this process has killed it outright.
    is_killed = False

    def __init__(self, words, pipes, lends):
        """Starts it with three descriptors for its standard streams. Those that it is lent keep their numbers."""
        for number in lends:
            os.set_inheritable(number, True)
        actions = [(os.POSIX_SPAWN_DUP2, number, place) for place, number in enumerate(pipes)]
        reset = [signal.SIGPIPE, signal.SIGXFSZ]
        self.status = None
        self.pid = os.posix_spawnp(words[0], words, os.environ, file_actions=actions, setsigdef=reset)

    def terminate(self):
        if self.status is None:
            os.kill(self.pid, signal.SIGTERM)

    def wait(self, options=0):
        """Returns the status with which it has ended, and None where it isn't to be waited for and runs. A child of another process, and
        one whose status another part of this process has taken, has ended with 0. A signal may end the wait: then it is still to be
        waited for."""
        if self.status is None:
            try:
                if not options and not self.is_killed:
                    self.outlast()
                if os.waitid(os.P_PID, self.pid, os.WEXITED | os.WNOWAIT | options):
                    undisturbed(self.reap)
            except ChildProcessError:
                self.status = 0
        return self.status

    def outlast(self):
        """Waits until it has ended, a second at a time: a signal that comes just before a call is seen only when the call returns."""
        import select
        try:
            end = os.pidfd_open(self.pid)
        except OSError:
            return
        try:
            waits = select.poll()
            waits.register(end, select.POLLIN)
            while not waits.poll(1000):
                pass
        finally:
            os.close(end)

    def reap(self):
        self.status = os.waitstatus_to_exitcode(os.waitpid(self.pid, 0)[1])

    def kill(self):
        """Ends it at once, unless it has ended. To wait for it then needs no other module, which couldn't be imported while Python ends."""
        if self.wait(os.WNOHANG) is None:
            os.kill(self.pid, signal.SIGKILL)
            self.is_killed = True

    def close_input(self):
        """Closes its standard input. What it hasn't read is dropped."""
        try:
            self.stdin.close()
        except OSError:
            pass

    def leave(self):
        """Waits for its end and keeps nothing of it: no pipe, and no place among the children of this process."""
        self.close_input()
        self.stdout.close()
        self.wait()
        self.stderr.close()
        if self in children:
            children.remove(self)

    def said(self):
        """What it has said on standard error."""
        return os.pread(self.stderr.fileno(), os.fstat(self.stderr.fileno()).st_size, 0)


def is_there(name):
    """Whether there is a program of this name: a path, or a name on the path."""
    folders = [""] if "/" in name else os.get_exec_path()
    return any(os.access(os.path.join(folder, name), os.X_OK) for folder in folders)


def tied(words):
    """A command line whose process is killed when this one ends, also by SIGKILL, if there is a setpriv that can do that. Where the program
    isn't there, it is as it was."""
    return ["sh", "-c", TIED, str(os.getpid()), *words] if is_there(words[0]) else words


def started(words, pipes, lends=(), needs=""):
    """A child that a signal ends with its parent. Where its program isn't there, the fault says what is needed."""
    made = []

    def make():
        made.append(Child(words, pipes, lends))
        children.append(made[0])
    try:
        undisturbed(make)
    except OSError as fault:
        raise Fault(f"cannot run {words[0]}: {fault.strerror}{needs and '; ' + needs}") from None
    return made[0]


def piped(words, lends=(), needs=""):
    """A child whose standard input is written and whose standard output is read."""
    numbers = []
    try:
        for make in (os.pipe, os.pipe, lambda: (os.memfd_create("said"),)):
            numbers += make()
        in_read, in_write, out_read, out_write, said = numbers
        child = started(words, (in_read, out_write, said), lends, needs)
    except BaseException:
        for number in numbers:
            os.close(number)
        raise
    os.close(in_read)
    os.close(out_write)
    child.stdin, child.stdout, child.stderr = open(in_write, "wb"), open(out_read, "rb"), open(said, "rb")
    return child


def outcome(words, given=b"", lends=()):
    """A child's status, and what it wrote to standard output and standard error. `given` must fit into a pipe."""
    child = piped(words, lends)
    try:
        child.stdin.write(given)
        child.stdin.close()
    except BrokenPipeError:
        pass  # it reads no more
    told = child.stdout.read()
    status, said = child.wait(), child.said()
    child.leave()
    return status, told, said
