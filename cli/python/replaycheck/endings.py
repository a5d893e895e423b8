"""How a tool ends: with a status, with a line on standard error where it can't do its work, or of the signal that
interrupted it. It leaves no process behind. Its children read from pipes that end with it, so that they end where it is
killed outright."""
import _signal as signal  # what the module signal has, without its names for numbers, which take longer than a short run
import os
import sys

TOLD = {signal.SIGHUP, signal.SIGINT, signal.SIGTERM}
children = []


class Fault(Exception):
    """What keeps a tool from its work, in words. `said` comes in place of the tool's own line, where there is one."""

    said = ""
    status = 2


class naming:
    """Gives a fault of the system in its block the name of a file, where it has none."""

    def __init__(self, name):
        self.name = name

    def __enter__(self):
        return self

    def __exit__(self, _, fault, __):
        if isinstance(fault, OSError) and fault.filename is None and not isinstance(fault, BrokenPipeError):
            fault.filename = self.name


class Interrupted(BaseException):
    """A signal has come, or would come where Python let it. `come` is the number of the last one that was
    raised."""

    come = None

    def __init__(self, number):
        super().__init__(number)
        self.number = number


class Starting:
    """Whether a child or a folder is being made, and the signal that has come meanwhile: it waits until that is
    known."""

    is_on = False
    come = None


def interrupt(number, _):
    if Starting.is_on:
        Starting.come = number  # no signal is ignored yet: a child that is made now would ignore it, too
    else:
        raise interrupted(number)


def interrupted(number):
    """What a signal raises. No other one comes after it."""
    for other in TOLD:
        signal.signal(other, signal.SIG_IGN)
    Interrupted.come = number
    return Interrupted(number)


def heed_signal():
    """Raises again what a signal has raised, if Python has dropped that, as it does in a `__del__` and while it closes a
    generator. A long loop calls this at each turn."""
    if Interrupted.come is not None:
        raise Interrupted(Interrupted.come)


def undisturbed(action):
    """Does something that a signal waits for."""
    Starting.is_on = True
    try:
        action()
    finally:
        Starting.is_on = False
        come, Starting.come = Starting.come, None
        if come is not None:
            raise interrupted(come)


def start(words, needs="", **pipes):
    """Starts a child. Where its program isn't there, the fault says what is needed."""
    import subprocess
    try:
        undisturbed(lambda: children.append(subprocess.Popen(words, **pipes)))
    except OSError as fault:
        raise Fault(f"cannot run {words[0]}: {fault.strerror}{needs and '; ' + needs}") from None
    return children[-1]


def end_children():
    """Ends the children that still run: most end with their input."""
    for child in children:
        for pipe in (child.stdin, child.stdout, child.stderr):
            try:
                if pipe:
                    pipe.close()
            except OSError:
                pass
        child.terminate()
        child.wait()


def die_of(number):
    """Ends this process as the signal does it."""
    end_children()
    signal.signal(number, signal.SIG_DFL)
    os.kill(os.getpid(), number)


def write(text):
    """Writes a text, of any bytes, to standard output."""
    put(lambda: sys.stdout.buffer.write(text.encode("utf-8", "surrogateescape")))


def flush():
    put(sys.stdout.flush)


def put(action):
    """Does something to standard output. Later writes go nowhere where it fails, so that Python's own end says
    nothing."""
    try:
        action()
    except BrokenPipeError:  # nobody reads on
        silence()
        raise Interrupted(signal.SIGPIPE) from None
    except OSError as fault:
        silence()
        raise Fault(f"cannot write: {fault.strerror}") from None


def silence():
    os.dup2(os.open(os.devnull, os.O_WRONLY), sys.stdout.fileno())


def open_streams():
    """Opens streams that the caller has closed, so that no file takes their place: what reads or writes there is
    refused."""
    for number, mode in ((0, os.O_WRONLY), (1, os.O_RDONLY), (2, os.O_RDONLY)):
        if not is_open(number):
            os.open(os.devnull, mode)  # the lowest number that is free
    sys.stdin, sys.stdout, sys.stderr = sys.stdin or open(0), sys.stdout or open(1, "w"), sys.stderr or open(2, "w")


def is_open(number):
    try:
        os.fstat(number)
    except OSError:
        return False
    return True


def status_of(main):
    """The status with which a tool's work ends."""
    try:
        status = main()
    except SystemExit as ended:  # the page or the version was shown
        status = ended.code
    except OSError as fault:
        named = f"{os.fspath(fault.filename)}: " if fault.filename else ""
        raise Fault(f"{named}{fault.strerror or fault}") from None
    flush()
    return status


def outcome_of(name, main):
    """The status of a tool of this name, 2 where its work can't be done, once its children have ended. A signal meanwhile
    interrupts it, and none does so with words while Python ends itself."""
    for number in TOLD:
        if signal.getsignal(number) != signal.SIG_IGN:
            signal.signal(number, interrupt)
    try:
        status = status_of(main)
    except Fault as fault:
        status = tell(name, fault)
    end_children()
    for number in TOLD:
        if signal.getsignal(number) is interrupt:
            signal.signal(number, signal.SIG_DFL)
    return status


def end(name, main):
    """Ends a tool of this name with the status that its work gives, or as a signal does that comes meanwhile. The launcher has no name."""
    open_streams()
    try:
        status = outcome_of(name, main)
    except Interrupted as signalled:
        silence()
        die_of(signalled.number)
    sys.exit(status)


def tell(name, fault):
    """Says on standard error what keeps a tool from its work, after what it has written already. Gives the status."""
    said = fault.said or f"replaycheck{name and ' '}{name}: {fault}\n"
    try:
        flush()
    except Fault:
        pass  # the first fault is told
    try:
        sys.stderr.buffer.write(said.encode("utf-8", "surrogateescape"))
        sys.stderr.flush()
    except OSError:
        os.dup2(os.open(os.devnull, os.O_WRONLY), 2)
    return fault.status
