"""Where the log of a run goes, and what it says."""
import os

from replaycheck.endings import Fault, tell
from replaycheck.executing.choices import FAILED, Usage
from replaycheck.programs import program
from replaycheck.reports import Lines, NoReport, read_report

NAME = "exec"


class Unwritten(Fault):
    """A log that can't be written."""

    status = FAILED


def guarded(action):
    """Does something whose faults have the statuses of `exec`."""
    try:
        return action()
    except Fault as fault:
        fault.status = FAILED if fault.status == 2 else fault.status
        raise
    except OSError as fault:
        named = f"{os.fspath(fault.filename)}: " if fault.filename else ""
        raise Unwritten(f"{named}{fault.strerror or fault}") from None


def parsed(told):
    """The report that a text is."""
    try:
        return read_report(Lines(told.split("\n")[:-1]))
    except NoReport as fault:
        raise Fault(f"{program()}: {fault}") from None


def note(text):
    """Says something on standard error besides the log."""
    tell(NAME, Fault(text))


def expanded(text):
    """A name of a log, with the number of this process and variables of the environment in place of their marks."""
    made, rest = "", text
    while rest:
        before, mark, rest = rest.partition("%")
        made += before
        if not mark:
            break
        if rest.startswith("q{") and "}" in rest:
            name, _, rest = rest[2:].partition("}")
            if name not in os.environ:
                raise Usage(f"--log-file: no variable in the environment: {name}")
            made += os.environ[name]
            continue
        known = {"p": str(os.getpid()), "%": "%"}
        if rest[:1] not in known:
            raise Usage(f"--log-file: not %p, %q{{NAME}} or %%: %{rest[:1]}")
        made, rest = made + known[rest[:1]], rest[1:]
    return made


class Log:
    """A file or a descriptor that is open for the log, before the program is run."""

    def __init__(self, choices):
        self.name, self.number = "standard error", 2
        if choices.log_file is not None:
            self.name = expanded(choices.log_file)
            self.open(choices)
        elif choices.log_fd is not None:
            self.name, self.number = f"descriptor {choices.log_fd}", choices.log_fd
            try:
                os.fstat(self.number)
            except OSError as fault:
                raise Unwritten(f"--log-fd: cannot write to {self.name}: {fault.strerror}") from None

    def open(self, choices):
        """Opens a file, which is none of those that are read."""
        for path in (choices.file, choices.input, *choices.suppressions):
            if path is not None and os.path.isfile(path) and os.path.exists(self.name) and os.path.samefile(path, self.name):
                raise Usage(f"the log would replace a file that is read: {self.name}")
        try:
            self.number = os.open(self.name, os.O_WRONLY | os.O_CREAT | os.O_TRUNC, 0o666)
        except OSError as fault:
            raise Unwritten(f"cannot write {self.name}: {fault.strerror}") from None

    def write(self, text):
        left = text.encode("utf-8", "surrogateescape")
        try:
            while left:
                left = left[os.write(self.number, left):]
        except OSError as fault:
            raise Unwritten(f"cannot write the log: {self.name}: {fault.strerror}") from None


def shown_report(choices, report, heap=None, status=None):
    """A report with source lines and readable names, as far as there are tools for them."""
    from replaycheck.findings import Shown
    from replaycheck.places import Paths
    shown = Shown(report, choices.file, choices.input, choices.counted, heap, choices.needs_heap, choices.isa, choices.regions)
    shown.status, shown.error_exitcode = status, choices.error_exitcode
    paths = Paths(choices.full_paths, choices.strip_prefix, choices.log_format in ("sarif", "github"))
    for missing in shown.show(paths, choices.demangle):
        note(missing)
    return shown


def log_text(choices, told, report, process, heap=None, status=None):
    """The log of a run in the chosen format, of the text of its report. `status` is that with which this process ends, where a format
    says it."""
    if choices.log_format == "report":
        return told
    shown = shown_report(choices, report, heap, status)
    if choices.log_format == "valgrind":
        from replaycheck.executing import valgrind_log
        return valgrind_log.log_text(shown, process, [choices.file, *choices.arguments], choices.quiet)
    from replaycheck import formats
    if choices.log_format == "sarif":
        from replaycheck.checked_run import version
        shown.version = version()
    return formats.FORMATS[choices.log_format](shown)
