"""The words of what was found in a file, of what was changed in it, and of how far it will run."""
from replaycheck.guest import instructions as isa
from replaycheck.programs import SHORT

from . import regions
from .heaps import PARAMETERS

HEAP = "heap functions under other names: until they are mapped, freeing one of their blocks is reported wrongly"
CONTROL = f"instructions for control registers (CSRs), fence.i and wfi, at which the run would stop without --isa {SHORT}"
RETURN = "returns from traps and the like, at which the run would stop"
STACK = ("the start file sets its own stack: uninitialised variables on it aren't found, and pushes outside any segment are "
         "errors")
HOSTED = "semihosting calls, at which the run would stop: answered by calls 63, 64 and 93"
DRIVEN = "loads and stores of device registers, which are unmapped: answered by calls 63, 64 and 93"
COPIED = "initialised data that the start file copies from flash, where nothing is loaded: variables would be 0"

DEVICES = "device registers (unmapped): every access is reported, and polling loops never end"
HOST = "a word by which a host is asked (HTIF); no host answers"


def device_line(elf, device):
    """One page that is reached where no memory is, or a word by which a host is asked."""
    if not device.places:
        return f"{device.name} at 0x{device.first:08x}: {HOST}"
    span = f"0x{device.first:08x}" + (f" to 0x{device.last:08x}" if device.last > device.first else "")
    span += f", {device.name}" if device.name else ""
    return f"{span}: from {elf.where_all(device.places)}"


def taken_line(taken):
    called = [f"is called {taken.function}, too, at 0x{taken.named:08x}"] if taken.named is not None else []
    return f"{taken.name} at 0x{taken.symbol.value:08x}: " + "; ".join(taken.texts + called)


def control_line(elf, instruction):
    text = isa.control(instruction.word)
    note = "; a wait for the clock has no end" if isa.reads_clock(instruction.word) else ""
    note = "; what follows it is run" if text in isa.RETURNS and instruction.text == "nop" else note
    return f"{elf.where(instruction.address)}: {text} becomes {instruction.text}{note}"


def hosted_line(elf, address):
    return f"{elf.where(address)}: ebreak becomes a jump to what answers"


def driven_line(findings, address):
    return f"{findings.elf.where(address)}: 0x{findings.driving.word(address):08x} becomes a jump to what answers"


def driven_lines(findings):
    """Which loads and stores of devices are answered for, and how they were found."""
    if findings.driving:
        yield from (driven_line(findings, site) for site in findings.driving.sites)
        runs = "1 run" if findings.runs == 1 else f"{findings.runs} runs"
        yield f"found by addresses in the code and by {runs}; what neither shows isn't answered"


def copied_line(segment):
    return f"{segment.filesz} bytes for 0x{segment.vaddr:08x}: loaded at 0x{segment.paddr:08x}, too"


def cure_lines(findings):
    """What can be cured in the file, under a line that says what it cures."""
    elf, plan = findings.elf, findings.plan
    groups = [
        (HEAP, [taken_line(taken) for taken in plan.taken.values()]),
        (CONTROL, [control_line(elf, instruction) for instruction in findings.control if isa.is_control(instruction.word)]),
        (RETURN, [control_line(elf, instruction) for instruction in findings.control if not isa.is_control(instruction.word)]),
        (STACK, [f"{elf.where(instruction.address)}: 0x{instruction.word:08x}, which sets sp, becomes nop"
                 for instruction in findings.stack]),
        (HOSTED, [hosted_line(elf, site) for site in findings.hosting.sites] if findings.hosting else []),
        (DRIVEN, list(driven_lines(findings))),
        (COPIED, [copied_line(segment) for segment in findings.copied]),
    ]
    for heading, lines in groups:
        if lines:
            yield f"  {heading}"
            yield from (f"    {line}" for line in lines)


def heap_line(plan):
    names = set(plan.hooked.values()) | {taken.function for taken in plan.taken.values()}
    if not names:
        return "heap: no function has a heap's name; blocks that calls 2001 to 2004 give are checked"
    missing = [name for name in ("malloc", "free") if name not in names]
    told = f"heap: {', '.join(name for name in PARAMETERS if name in names)}"
    return told + (f"; there is no {' and no '.join(missing)}" if missing else "")


def lines(findings, written, changes):
    """The report: what there is of a heap, cures, what is left as it is, what needs a rebuild, and the bytes that were
    changed."""
    if findings.plan:
        yield heap_line(findings.plan)
    if regions.is_told(findings.regions, findings.own) and not (written and findings.stack):
        yield regions.line(findings.own)
    if findings.cures():
        yield "cured:" if written else "can be cured, with -o OUT:"
        yield from cure_lines(findings)
    if findings.plan and findings.plan.left:
        yield "can't be taken over:"
        yield from (f"  {name} at 0x{address:08x}: {why}" for name, address, why in findings.plan.left)
    if findings.devices:
        yield f"{DEVICES}:"
        yield from (f"  {device_line(findings.elf, device)}" for device in findings.devices)
    if findings.obstacles:
        yield "needs an option, or a rebuild:" if any(found.by_option for found in findings.obstacles) else "needs a rebuild:"
    for obstacle in findings.obstacles:
        yield f"  {obstacle.what}"
        yield f"    {obstacle.cure}"
    if changes:
        yield f"changed in {written}:"
        yield from (f"  offset 0x{change.offset:08x}, {change.size} bytes: {change.what}" for change in changes)


def verdict(findings, name, out):
    """How far it will run."""
    if findings.hopeless():
        return f"{name} won't run{without_option(findings)}" + (f", and {out} wasn't written" if out else "")
    runs = "will run" + (f" with {findings.option}" if findings.option else "")
    devices = "waits for no device" if findings.devices else ""
    if not all(obstacle.by_option for obstacle in findings.obstacles):
        return f"{out or name} {runs} as far as it meets nothing that needs a rebuild" + (devices and f" and {devices}")
    if out or not findings.cures():
        certain = f"{out or name} {runs}" + ("" if out or findings.option else " as it is")
        return f"{out or name} {runs} as far as it {devices}" if devices else certain
    other = f", or as it is with {findings.other_cure}" if findings.other_cure else ""
    return f"{name} {runs} once it is cured{other}" + (devices and f", as far as it {devices}")


def without_option(findings):
    """Without which option a file won't run, and how far with it."""
    if not findings.missing_option or any(obstacle.stops_all and not obstacle.by_option for obstacle in findings.obstacles):
        return ""
    is_enough = all(obstacle.by_option for obstacle in findings.obstacles)
    far = "" if is_enough else ", and with it as far as it meets nothing that needs a rebuild"
    return f" without {findings.missing_option}{far}"
