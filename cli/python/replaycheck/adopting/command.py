"""The command line of `replaycheck adopt`: what it takes, and what it reads and writes."""
import os
from argparse import Namespace
from typing import Tuple

from replaycheck.endings import Fault
from replaycheck.endings import write as say
from replaycheck.guest.elf import ROOM
from replaycheck.options import BadValue, Parser
from replaycheck.programs import USUAL
from replaycheck.whole_files import rights_of, same_file, write_whole

from . import report
from .curing import cured
from .devices import answerable, can_lead
from .findings import Findings
from .heaps import BadHeap, heap_of
from .outside import left

LONGEST_FILE = 1 << 26


def heap(text: str) -> Tuple[str, str, list]:
    try:
        return heap_of(text)
    except BadHeap as fault:
        raise BadValue(str(fault)) from None


def options_of(page: str) -> Namespace:
    parser = Parser(page)
    parser.add_argument("file")
    parser.add_argument("-o", "--output")
    parser.add_argument("--heap", type=heap, action="append", default=[])
    parser.add_argument("--keep", action="append", default=[])
    parser.add_argument("--devices", action="append", default=[])
    parser.isa_option()
    parser.region_options(has_limits=False)
    options = parser.read()
    names = [name for name, _, _ in options.heap] + options.keep
    twice = next((name for i, name in enumerate(names) if name in names[:i]), None)
    if twice:
        parser.error(f"{twice} is named twice")
    options.keep = frozenset(options.keep)
    return options


def read(path):
    with open(path, "rb") as file:
        return file.read(LONGEST_FILE + 1)


def mode_of(path):
    """The rights of a file, as far as this user gives them to new ones."""
    mask = os.umask(0)
    os.umask(mask)
    return rights_of(path) & ~mask & 0o777


def healed(findings, heaps, kept, asked=USUAL):
    """The file with what can be cured, as bytes, and the changes. It is looked at as the file was: nothing is left to
    cure."""
    content, changes = cured(findings)
    if len(content) > ROOM:
        raise Fault(f"the cured file would have more than {ROOM} bytes: leave its debug information out: "
                    "riscv64-unknown-elf-objcopy --strip-debug")
    again = Findings(content, heaps, kept, asked, findings.regions)
    if again.hopeless() or again.cures():
        raise Fault("the file's code overlaps its own tables: it is damaged, or not from a linker")
    return content, changes


def answer_for_devices(findings, inputs, kept):
    """Has the loads and stores of known devices answered for: those whose address is in the code, and those that runs on
    some inputs reach."""
    from .trying import tried  # here, as looks at runs import much

    def content_for(sites):
        findings.answer_for(sites)
        why = findings.driving and findings.no_answer()
        if why:
            raise Fault(f"{why.what}: {why.cure}")
        return cured(findings)[0]

    def can_be(site):
        return can_lead(findings.elf, site, kept, findings.unit)

    for given in inputs:
        os.stat(given)
    begun = filter(can_be, answerable(findings.devices))
    sites, findings.runs = tried(findings.elf, findings.isa, inputs, begun, can_be, content_for)
    content_for(sites)
    findings.devices = left(findings.devices, set(sites))


def adopt(options: Namespace) -> int:
    """Looks at a file, writes another one if asked to, tells both, and returns the exit status."""
    data = read(options.file)
    findings = Findings(data, options.heap, options.keep, options.isa, options.regions)
    if findings.damaged:
        fault = findings.damaged
        raise Fault(f"{options.file}: {fault.what} (image refused {fault.number}): {fault.cure}")
    if findings.plan:
        given = [name for name, _, _ in options.heap] + sorted(options.keep)
        missing = [name for name in given if name not in findings.plan.found]
        if missing:
            raise Fault(f"{options.file} has no function {missing[0]}")
    if options.devices and not findings.hopeless():
        answer_for_devices(findings, options.devices, options.keep)
    out, changes = options.output, []
    if out is not None and not findings.hopeless():
        if same_file(options.file, out):
            raise Fault(f"{out}: it is FILE itself: write to another file")
        content, changes = healed(findings, options.heap, options.keep, options.isa)
        write_whole(out, content, mode_of(options.file))
    written = out if out is not None and not findings.hopeless() else None
    for line in [*report.lines(findings, written, changes), report.verdict(findings, options.file, out)]:
        say(line + "\n")
    return int(bool(findings.obstacles or findings.devices or findings.cures() and not written))
