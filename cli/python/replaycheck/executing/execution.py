"""`replaycheck exec` with options that the program itself doesn't have: a run by the program, and a log of its report."""
import os
import sys
from collections.abc import Callable

from replaycheck.children import outcome, started, tied
from replaycheck.endings import Fault, Interrupted
from replaycheck.executing.arguments import patches_for
from replaycheck.executing.command import choices_of
from replaycheck.executing.logs import Log, guarded, log_text, note, parsed
from replaycheck.options import LAST_STEP
from replaycheck.programs import isa_words, path_of, program
from replaycheck.refusals import why_unreadable, with_words

UNREADABLE, REFUSED = 127, 126


class Unreadable(Fault):
    """A file that can't be read."""

    status = UNREADABLE


def joined(paths):
    """A descriptor of a file that has all suppressions of several files."""
    room = os.memfd_create("suppressions")
    for path in paths:
        try:
            with open(path, "rb") as file:
                os.write(room, file.read() + b"\n")
        except OSError as fault:
            raise Unreadable(f"cannot read {path}: {fault.strerror}") from None
    return room


def suppressions_of(choices):
    """The path of all suppressions, or None, and the descriptors that it needs."""
    paths = choices.suppressions
    if len(paths) < 2:
        return (paths[0] if paths else None), []
    room = joined(paths)
    return f"/dev/fd/{room}", [room]


def needs_whole_report(choices):
    """Whether the log has something to say of a run with no fault, too."""
    return not choices.quiet or choices.verbose or choices.log_format not in ("valgrind", "report")


def all_patches(choices):
    """The patches of the options, which may be lists, and those that hand over arguments: `ADDR=WORD` each."""
    given = [patch for text in choices.patches for patch in text.split(",")]
    return given + patches_for(choices.file, choices.arguments)


def words_for(choices, supp, report):
    """The arguments of the program."""
    words = [program(), "exec", "--report", report, *isa_words(choices.isa), *choices.regions.exec_words]
    words += ["--end-line"] if choices.log_goes_to_error or choices.ends_line else []
    for name, text in choices.passed.items():
        words += [f"--{name}", text]
    for name, path in (("--input", choices.input), ("--supp", supp)):
        words += [name, path_of(path)] if path is not None else []
    patches = all_patches(choices)
    words += ["--patch", ",".join(patches)] if patches else []
    words += ["--error-exitcode", str(choices.error_exitcode)] if choices.error_exitcode else []
    words += ["--quiet"] if not needs_whole_report(choices) else []
    words += [] if choices.require_heap is None else ["--require-heap" if choices.require_heap else "--no-require-heap"]
    words += ["--not-heap", ",".join(choices.not_heap)] if choices.not_heap else []
    return [*words, path_of(choices.file)]


def made_run(choices):
    """Runs the program, whose output goes where this process has it. Returns its status, and the text of its report."""
    supp, lent = suppressions_of(choices)
    room = os.memfd_create("report")
    try:
        words = words_for(choices, supp, f"/dev/fd/{room}")
    except OSError as fault:
        raise Unreadable(f"cannot read {choices.file}: {fault.strerror}") from None
    status = started(tied(words), (0, 1, 2), [*lent, room]).wait()
    if status < 0:
        raise Interrupted(-status)
    return status, os.pread(room, os.fstat(room).st_size, 0).decode("utf-8", "surrogateescape")


def reasons(choices, status):
    """Why a file can't be read or is rejected, in lines, where that is what a status of 127 or 126 says."""
    if status == UNREADABLE:
        for path in (choices.file, choices.input, *choices.suppressions):
            why = why_unreadable(path) if path is not None else ""
            if why:
                yield f"{path}: {why}"
    elif status == REFUSED:
        _, _, said = outcome([program(), "look", *isa_words(choices.isa), *choices.regions.words, path_of(choices.file)])
        for line in said.decode("utf-8", "surrogateescape").splitlines():
            if with_words(line) != line:
                yield choices.file + with_words(line)[len(line):]


def is_told(choices, report):
    """Whether a log is written of a report: always, but of a quiet run only where it has an error, a listed leak or a stop."""
    if not choices.quiet or choices.log_format not in ("valgrind", "report"):
        return True
    return bool(report.errors or report.leaks or report.state.name == "stopped")


def heap_of(choices, report):
    """The heap of a program, where a format for other programs has a place for it."""
    if choices.log_format in ("valgrind", "report"):
        return None
    from replaycheck.file_heaps import heap_of_run
    return heap_of_run(choices.file, choices.input, report.step, choices.isa, choices.regions, choices.not_heap)


def certificate(choices, report):
    """What `certify` says of the run, by a look with the same options of the heap and the same patches."""
    if choices.input is None and report.length:
        return "certify: not asked: the run read standard input; --input names a file that can be read twice"
    lines = [f"option {name} {choices.passed[name]}" for name in ("redzone", "queue") if name in choices.passed]
    lines += ["patch {} {}".format(*patch.split("=")) for patch in all_patches(choices)]
    lines += [f"goto {min(report.step, LAST_STEP)}", "look certify"]
    given = isa_words(choices.isa) + choices.regions.words + (["--input", path_of(choices.input)] if choices.input is not None else [])
    _, told, _ = outcome([program(), "look", *given, path_of(choices.file)], "".join(f"{line}\n" for line in lines).encode())
    return "certify: " + told.decode("utf-8", "surrogateescape").rstrip("\n").rpartition("\n")[2]


def say_more(choices, report):
    """What -v adds."""
    if choices.unused:
        note(f"options that change nothing: {' '.join(choices.unused)}")
    note(certificate(choices, report))


def executed(choices):
    """Runs a program and writes the log. Returns the status."""
    log = Log(choices)
    status, told = made_run(choices)
    if not told:
        for reason in reasons(choices, status):
            note(reason)
        return status
    report = parsed(told)
    if is_told(choices, report):
        log.write(log_text(choices, told, report, os.getpid(), heap_of(choices, report), status))
    if choices.verbose:
        say_more(choices, report)
    return status


def begin(show_page: Callable[[], int]) -> int:
    choices = choices_of(sys.argv[1:])
    if choices.asks_for_help:
        return show_page()
    if not os.path.exists("/dev/fd"):
        raise Fault("there is no /dev/fd, which is a link into /proc: mount /proc")
    return executed(choices)


def run(show_page: Callable[[], int]) -> int:
    """Does what a command line asks for, or shows the page. Returns the exit status."""
    return guarded(lambda: begin(show_page))


def say_why(status: int, words: list[str]) -> int:
    """Says why a quiet run ended with a status before it began, if it did."""
    def main():
        choices = choices_of(words)
        for reason in reasons(choices, status):
            note(reason)
        return 0
    return guarded(main)
