"""A log in the form of Valgrind's Memcheck, which ctest's MemCheck step reads."""
from replaycheck.findings import is_at_atomic
from replaycheck.other_sets import hint
from replaycheck.programs import unit_of

# The signal of which a process would have died, and what of the address.
STOPS = {"illegal": (4, "SIGILL", "Illegal instruction at address"), "break": (5, "SIGTRAP", "EBREAK at address"),
         "misaligned": (7, "SIGBUS", "Jump to an address that is no multiple of {unit}, from"),
         "jump": (11, "SIGSEGV", "Jump to where no memory is, to address")}
OF_ATOMIC = "Atomic instruction whose address is no multiple of 4, at"
# The text that Memcheck has for one of an error.
MEMCHECKS = {"Invalid free() / realloc()": "Invalid free() / delete / delete[] / realloc()"}
SUMS = ("definitely lost", "indirectly lost", "possibly lost", "still reachable", "suppressed")


def trace_of(shown, trace):
    for index, call in enumerate(shown.calls(trace)):
        place = call.place or f"in {shown.file}"
        yield f"   {'by' if index else 'at'} 0x{call.address:X}: {call.function} ({place})"


def error_lines(shown, error):
    yield MEMCHECKS.get(error.text, error.text)
    yield from trace_of(shown, error.trace)
    if error.note:
        yield f" Address 0x{error.note.address:x} is {error.note.place}"
        yield from trace_of(shown, error.note.trace)
    yield ""


def stop_lines(shown):
    """What is said of a program that hasn't exited."""
    state = shown.report.state
    if state.name == "stopped":
        number, name, what = STOPS[state.why]
        if state.why == "misaligned":
            what = OF_ATOMIC if is_at_atomic(state, shown.isa) else what.format(unit=unit_of(shown.isa))
        yield f"Process terminating with default action of signal {number} ({name})"
        yield f" {what} {state.address}"
        said = hint(shown.file, shown.isa) if state.why in ("illegal", "misaligned") else ""
        if said:
            yield f" {said}"
    elif state.name == "running":
        yield f"Still running at step {shown.report.step}"
    else:
        return
    yield from trace_of(shown, [shown.frame_at(state.address)])
    yield ""


def heap_lines(report):
    """The summary of the heap."""
    sums = report.sums.values()
    yield "HEAP SUMMARY:"
    yield f"    in use at exit: {sum(total.size for total in sums)} bytes in {sum(total.blocks for total in sums)} blocks"
    yield ""


def leak_lines(shown):
    """The listed leaks."""
    leaks = shown.report.leaks
    for number, leak in enumerate(leaks, 1):
        yield f"{leak.size} bytes in {leak.blocks} blocks are {leak.kind} in loss record {number} of {len(leaks)}"
        yield from trace_of(shown, leak.trace)
        yield ""


def summary_lines(shown):
    """The sums of leaks, or that there are none, where a heap was seen; and of errors."""
    from replaycheck.file_heaps import has_heap  # here, as a quiet log has no sums
    report = shown.report
    if any(total.blocks for total in report.sums.values()):
        yield "LEAK SUMMARY:"
        yield from (f"{name:>18}: {report.sums[name].size} bytes in {report.sums[name].blocks} blocks" for name in SUMS)
        yield ""
    elif has_heap(shown.file, shown.isa):
        yield "All heap blocks were freed -- no leaks are possible"
        yield ""
    yield (f"ERROR SUMMARY: {report.happened} errors from {report.contexts} contexts "
           f"(suppressed: {report.suppressed} from {report.suppressed_contexts})")


def lines_of(shown, words, is_quiet):
    if not is_quiet:
        yield "replaycheck, Memcheck for RV32IM programs"
        yield f"Command: {' '.join(words)}"
        yield ""
    for error in shown.report.errors:
        yield from error_lines(shown, error)
    if shown.report.state.name != "running" or not is_quiet:
        yield from stop_lines(shown)
    if not is_quiet:
        yield from heap_lines(shown.report)
    yield from leak_lines(shown)
    if not is_quiet:
        yield from summary_lines(shown)


def log_text(shown, process, words, is_quiet):
    """The log of a run, by a process with this number and of a program with these arguments."""
    return "".join(f"=={process}== {line}\n" for line in lines_of(shown, words, is_quiet))
