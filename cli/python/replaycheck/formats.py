"""A report in the formats that other programs read."""
import functools
import json
import os
import re

from replaycheck.findings import RULES, RUNNING
from replaycheck.programs import ISAS
from replaycheck.reports import Address, Frame
from replaycheck.verdicts import CLEAN, CLEAN_SO_FAR, LEAK_KINDS, SUMS

JSON_VERSION = 1
PLAIN = b"ABCDEFGHIJKLMNOPQRSTUVWXYZabcdefghijklmnopqrstuvwxyz0123456789_.-~/"  # bytes of a URI's path that stand for themselves
XML_KINDS = {"Value4": "UninitValue", "Cond": "UninitCondition", "Param": "SyscallParam", "Free": "InvalidFree",
             "Jump": "InvalidJump"}
XML_LEAKS = {"definitely lost": "Leak_DefinitelyLost", "indirectly lost": "Leak_IndirectlyLost",
             "possibly lost": "Leak_PossiblyLost",
             "still reachable": "Leak_StillReachable"}


def printable(text):
    """A text whose bytes are UTF-8: others, as names of files may have them, are replaced."""
    return text.encode("utf-8", "surrogateescape").decode("utf-8", "replace")


# ---- JSON, and what is made of it


class Encoded(str):
    """A text that is JSON already. What is in many results is encoded once."""


def flat(value: object) -> str:
    """A value as JSON in one line."""
    if isinstance(value, Encoded):
        return value
    if isinstance(value, dict):
        return "{" + ", ".join(f"{json.dumps(name)}: {flat(part)}" for name, part in value.items()) + "}"
    if isinstance(value, (list, tuple)):
        return "[" + ", ".join(map(flat, value)) + "]"
    return json.dumps(value)


def dumped(value: object, depth: int, indent: str = "") -> str:
    """A value as JSON, with each part on a line of its own down to a depth."""
    inner = indent + " "
    if isinstance(value, Encoded):
        return value
    if depth and isinstance(value, dict) and value:
        parts = (f"{inner}{json.dumps(name)}: {dumped(part, depth - 1, inner)}" for name, part in value.items())
        return "{\n" + ",\n".join(parts) + f"\n{indent}}}"
    if depth and isinstance(value, list) and value:
        return "[\n" + ",\n".join(inner + dumped(part, depth - 1, inner) for part in value) + f"\n{indent}]"
    return flat(value)


def address_text(address):
    return None if address is None else str(address)


def call_object(call):
    place = call.place and {"file": printable(call.place.file), "line": call.place.line}
    return {"address": str(call.address), "function": printable(call.function), "place": place}


def note_object(note, trace):
    if note is None:
        return None
    block = note.block and {"offset": note.offset, "side": note.side, "size": note.size, "state": note.block,
                            "trace": trace}
    return {"address": str(note.address), "text": note.place, "block": block}


def verdict_object(line, trace):
    """What a line of `look certify` says, with the source lines of a first use; None of any other line."""
    front, _, told = line.partition(": ")
    if front.startswith(CLEAN):
        return {"clean": True, "first_use": None}
    if front.startswith(CLEAN_SO_FAR):
        return {"clean": True, "goes_on": True, "first_use": None}
    first, is_use, rest = told.partition(": ")
    if front != "not clean" or not is_use:
        return None
    text, _, calls = rest.rpartition(" at ")
    parts = (call.split(": ", 1) for call in calls.split(", by "))
    frames = [Frame(Address(address, 16), name) for address, name in parts]
    return {"clean": False, "first_use": {"step": int(first.rpartition(" ")[2]), "text": text, "trace": trace(frames)}}


def json_text(shown):
    report = shown.report

    def trace(frames):
        return [call_object(call) for call in shown.calls(frames)]

    whole = {
        "format": "replaycheck report", "version": JSON_VERSION,
        "program": printable(shown.file), "input": shown.given and printable(shown.given),
        **({"isa": shown.isa} if shown.isa != ISAS[0] else {}),
        **{name[2:].replace("-", "_"): value for name, value in shown.regions.options}, "step": report.step,
        "state": {"name": report.state.name, "why": report.state.why, "address": address_text(report.state.address),
                  "status": report.state.status},
        "ended": report.state.name != "running",
        **({} if shown.status is None else {"exit_status": shown.status}),
        "read": report.position, "length": report.length, "written": report.written,
        "certify": verdict_object(shown.verdict, trace),
        "heap": shown.heap and {"known": shown.heap.known, "functions": shown.heap.functions},
        "errors": [{"kind": error.kind, "text": error.text, "count": error.count, "trace": trace(error.trace),
                    "note": note_object(error.note, trace(error.note.trace) if error.note else [])} for error in report.errors],
        "leaks": [{"kind": LEAK_KINDS[leak.kind], "bytes": leak.size, "blocks": leak.blocks, "trace": trace(leak.trace)}
                  for leak in report.leaks],
        "sums": {LEAK_KINDS.get(name, name): {"bytes": report.sums[name].size, "blocks": report.sums[name].blocks}
                 for name in SUMS},
        "summary": {"errors": report.happened, "contexts": report.contexts, "suppressed": report.suppressed,
                    "suppressed_contexts": report.suppressed_contexts},
    }
    return dumped(whole, 2) + "\n"


@functools.cache
def uri(path):
    """A path as a URI: absolute, or relative to the root of the sources."""
    text = "".join(chr(byte) if byte in PLAIN else f"%{byte:02X}" for byte in os.fsencode(path))
    return ("file://" if path.startswith("/") else "") + text


@functools.cache
def location(program, call, message=None, number=None):
    """A SARIF location, encoded: that of a call's source line, or else the program's file."""
    region = {"region": {"startLine": call.place.line}} if call.place else {}
    file = call.place.file if call.place else program
    made = {"physicalLocation": {"artifactLocation": {"uri": uri(file)}, **region},
            "logicalLocations": [{"name": printable(call.function), "kind": "function"}]}
    if message:
        made["message"] = {"text": printable(message)}
    if number is not None:
        made["id"] = number
    return flat(made)


@functools.cache
def flow_step(program, call, word):
    return f'{{"location": {location(program, call, f"{word} {call}")}}}'


def sarif_result(shown, finding, rules, print_of):
    """A result, encoded."""
    text = printable(f"{finding.title()}{'. ' + finding.note if finding.note else ''}")
    made = {"ruleId": finding.rule, "ruleIndex": rules.index(finding.rule),
            "level": "error" if finding.counts else "note", "message": {"text": text}, "occurrenceCount": finding.times,
            "partialFingerprints": {"functionsOfTrace/v1": print_of}}
    steps = [flow_step(shown.file, call, "by" if index else "at") for index, call in enumerate(finding.trace)]
    parts = [flat(made)[:-1], f'"locations": [{location(shown.file, finding.lead())}]',
             f'"codeFlows": [{{"threadFlows": [{{"locations": [{", ".join(steps)}]}}]}}]']
    if finding.note_trace:
        words = [finding.note] + [f"by {call.function}" for call in finding.note_trace[1:]]
        related = [location(shown.file, call, word, index)
                   for index, (call, word) in enumerate(zip(finding.note_trace, words))]
        parts.append(f'"relatedLocations": [{", ".join(related)}]')
    return Encoded(", ".join(parts) + "}")


def fingerprint(finding):
    """What tells a finding from others of its program, whatever moves in the source: its rule, and the functions of its trace, by names
    that don't depend on c++filt."""
    from hashlib import sha256  # here, as only SARIF needs it
    words = [finding.rule, finding.text, *(call.symbol for call in finding.trace)]
    return sha256("\n".join(words).encode("utf-8", "surrogateescape")).hexdigest()[:32]


def sarif_results(shown, rules):
    """The results. Those with one fingerprint are numbered."""
    seen = {}
    for finding in shown.findings():
        print_of = fingerprint(finding)
        seen[print_of] = seen.get(print_of, 0) + 1
        yield sarif_result(shown, finding, rules, f"{print_of}:{seen[print_of]}")


def invocation(shown):
    """Whether the run was checked to its end, and what a reader has to know of it besides. Of a run by `exec`, its status and whether that
    is 0 (SARIF 2.1.0, section 3.20)."""
    made = {"executionSuccessful": shown.was_checked if shown.status is None else shown.status == 0}
    if shown.status is not None:
        made["exitCode"] = shown.status
    notices = [("error" if shown.needs_heap else "warning", shown.heap_notice), ("error", shown.failed_status)]
    told_of = [{"level": level, "message": {"text": printable(text)}} for level, text in notices if text]
    return {**made, **({"toolExecutionNotifications": told_of} if told_of else {})}


def sarif_text(shown):
    rules = list(RULES)
    driver = {"name": "replaycheck", "version": shown.version,
              "rules": [{"id": rule, "shortDescription": {"text": RULES[rule]}} for rule in rules]}
    names = [os.path.basename(path) for path in (shown.file, shown.given) if path is not None]
    run = {"tool": {"driver": driver}, "automationDetails": {"id": "/".join(["replaycheck", *map(printable, names), ""])},
           "invocations": [invocation(shown)], "results": [*sarif_results(shown, rules)]}
    schema = "https://json.schemastore.org/sarif-2.1.0.json"
    return dumped({"$schema": schema, "version": "2.1.0", "runs": [run]}, 4) + "\n"


# ---- XML


@functools.cache
def not_in_xml() -> re.Pattern[str]:
    """What XML can't have."""
    return re.compile("[^\t\n -\ud7ff\ue000-\ufffd\U00010000-\U0010ffff]")


def xml(text):
    """A text as XML has it, with a mark in place of what XML can't have."""
    escapes = {"&": "&amp;", "<": "&lt;", ">": "&gt;", '"': "&quot;"}
    text = printable(str(text))
    is_plain = text.isascii() and text.replace("\n", "").replace("\t", "").isprintable()
    text = text if is_plain else not_in_xml().sub("\ufffd", text)
    return text.translate(str.maketrans(escapes))


@functools.cache
def xml_frame(program, call):
    parts = [f"    <frame>\n      <ip>{int(call.address):#x}</ip>\n      <obj>{xml(program)}</obj>\n"]
    if call.function != "???":
        parts.append(f"      <fn>{xml(call.function)}</fn>\n")
    if call.place:
        folder, name = os.path.split(call.place.file)
        parts.append(f"      <dir>{xml(folder)}</dir>\n" if folder else "")
        parts.append(f"      <file>{xml(name)}</file>\n      <line>{call.place.line}</line>\n")
    return "".join([*parts, "    </frame>\n"])


def xml_stack(shown, trace):
    return "  <stack>\n" + "".join(xml_frame(shown.file, call) for call in trace) + "  </stack>\n"


def xml_head(number, kind):
    return f"\n<error>\n  <unique>{number:#x}</unique>\n  <tid>1</tid>\n  <kind>{kind}</kind>\n"


def xml_error(shown, number, error):
    kind = XML_KINDS.get(error.kind) or ("InvalidRead" if " read " in error.text else "InvalidWrite")
    yield xml_head(number, kind) + f"  <what>{xml(error.text)}</what>\n"
    yield xml_stack(shown, shown.calls(error.trace))
    if error.note:
        yield f"  <auxwhat>{xml(f'Address {error.note.address} is {error.note.place}')}</auxwhat>\n"
        if error.note.trace:
            yield xml_stack(shown, shown.calls(error.note.trace))
    yield "</error>\n"


def xml_leak(shown, number, leak, record, records):
    text = f"{leak.size} bytes in {leak.blocks} blocks are {leak.kind} in loss record {record} of {records}"
    yield xml_head(number, XML_LEAKS[leak.kind])
    yield f"  <xwhat>\n    <text>{text}</text>\n"
    yield f"    <leakedbytes>{leak.size}</leakedbytes>\n    <leakedblocks>{leak.blocks}</leakedblocks>\n  </xwhat>\n"
    yield xml_stack(shown, shown.calls(leak.trace))
    yield "</error>\n"


def xml_status(state, step):
    return f"\n<status>\n  <state>{state}</state>\n  <time>step {step}</time>\n</status>\n"


def valgrind_parts(shown):
    """Protocol 4 of Valgrind's XML. A run is no process: it has the number 1, below 0, and steps for a time."""
    report = shown.report
    yield '<?xml version="1.0"?>\n\n<valgrindoutput>\n\n'
    yield "<protocolversion>4</protocolversion>\n<protocoltool>memcheck</protocoltool>\n"
    yield "\n<preamble>\n  <line>replaycheck, Memcheck for static RV32IM programs</line>\n</preamble>\n"
    yield "\n<pid>1</pid>\n<ppid>0</ppid>\n<tool>memcheck</tool>\n"
    yield "\n<args>\n  <vargv>\n    <exe>replaycheck</exe>\n  </vargv>\n"
    yield f"  <argv>\n    <exe>{xml(shown.file)}</exe>\n  </argv>\n</args>\n"
    yield xml_status("RUNNING", 0)
    for number, error in enumerate(report.errors):
        yield from xml_error(shown, number, error)
    yield xml_status("RUNNING" if report.state.name == "running" else "FINISHED", report.step)
    for record, leak in enumerate(report.leaks, 1):
        yield from xml_leak(shown, len(report.errors) + record - 1, leak, record, len(report.leaks))
    yield "\n<errorcounts>\n"
    for number, error in enumerate(report.errors):
        yield f"  <pair>\n    <count>{error.count}</count>\n    <unique>{number:#x}</unique>\n  </pair>\n"
    yield "</errorcounts>\n\n<suppcounts>\n</suppcounts>\n\n</valgrindoutput>\n"


def valgrind_text(shown):
    return "".join(valgrind_parts(shown))


def trace_text(calls):
    return [f"   {'by' if index else 'at'} {call}" for index, call in enumerate(calls)]


def told(finding):
    """A finding as lines of text."""
    note = [finding.note, *trace_text(finding.note_trace)] if finding.note else []
    return "\n".join([finding.text, *trace_text(finding.trace), *note])


def junit_case(suite, number, finding):
    place = finding.lead().place
    where = f' file="{xml(place.file)}" line="{place.line}"' if place else ""
    yield f'  <testcase classname="{suite}" name="{number}: {xml(finding.title())}"{where}>\n'
    if finding.counts:
        sort = "error" if finding.rule == RUNNING else "failure"
        yield f'    <{sort} type="{finding.rule}" message="{xml(finding.title())}">{xml(told(finding))}</{sort}>\n'
    else:
        yield f"    <system-out>{xml(told(finding))}</system-out>\n"
    yield "  </testcase>\n"


def junit_other(suite, name, sort, kind, text):
    """A case of its own for what is no finding: a heap that goes unseen where one is needed, or a status."""
    return (f'  <testcase classname="{suite}" name="{name}">\n    <{sort} type="{kind}" message="{xml(text)}">{xml(text)}</{sort}>\n'
            "  </testcase>\n")


def junit_text(shown):
    suite, findings = xml(os.path.basename(shown.file)), list(shown.findings())
    cases = [part for number, finding in enumerate(findings, 1) for part in junit_case(suite, number, finding)]
    no_heap, status = bool(shown.needs_heap and shown.heap_notice), shown.failed_status
    cases += [junit_other(suite, "the heap", "error", "Heap", shown.heap_notice)] if no_heap else []
    cases += [junit_other(suite, status.partition(":")[0], "failure", "Status", status)] if status else []
    cases = cases or [f'  <testcase classname="{suite}" name="no error and no leak"/>\n']
    errors = sum(finding.rule == RUNNING for finding in findings)
    failures = sum(finding.counts for finding in findings) - errors + bool(status)
    tests = len(findings) + no_heap + bool(status) or 1
    counts = f'tests="{tests}" failures="{failures}" errors="{errors + no_heap}" skipped="0"'
    return "".join(['<?xml version="1.0" encoding="UTF-8"?>\n', f'<testsuite name="{suite}" {counts}>\n', *cases,
                    "</testsuite>\n"])


# ---- lines


def one_line(text):
    return printable(text).replace("\r", " ").replace("\n", " ")


def gcc_line(shown, call, level, text):
    where = f"{call.place.file}:{call.place.line}" if call.place else shown.file
    return one_line(f"{where}: {level}: {text}") + "\n"


def gcc_parts(shown):
    for finding in shown.findings():
        yield gcc_line(shown, finding.lead(), "warning", f"{finding.title()} [{finding.rule}]")
        for index, call in enumerate(finding.trace):
            yield gcc_line(shown, call, "note", f"{'by' if index else 'at'} {call.address}: {call.function}")
        for index, call in enumerate(finding.note_trace or []):
            yield gcc_line(shown, call, "note", f"by {call.address}: {call.function}"
                           if index else f"{finding.note}, in {call.function}")
        if finding.note and not finding.note_trace:
            yield gcc_line(shown, finding.lead(), "note", finding.note)
    if shown.needs_heap and shown.heap_notice:
        yield one_line(f"{shown.file}: warning: {shown.heap_notice.partition(': ')[2]} [Heap]") + "\n"
    if shown.failed_status:
        yield one_line(f"{shown.file}: error: {shown.failed_status} [Status]") + "\n"


def gcc_text(shown):
    return "".join(gcc_parts(shown))


def escaped(text, also=""):
    """A text as a command of GitHub's runner takes it; a property can't have what is in `also` either."""
    for character in "%\r\n" + also:
        text = text.replace(character, f"%{ord(character):02X}")
    return printable(text)


def github_parts(shown):
    for finding in shown.findings():
        place = finding.lead().place
        where = f"file={escaped(place.file, ':,')},line={place.line}," if place else ""
        level = "error" if finding.counts else "notice"
        yield f"::{level} {where}title={escaped(finding.title(), ':,')}::{escaped(told(finding))}\n"
    if shown.heap_notice:
        level = "error" if shown.needs_heap else "warning"
        yield f"::{level} title=The heap goes unseen::{escaped(shown.heap_notice)}\n"
    if shown.failed_status:
        yield f"::error title={escaped(shown.failed_status, ':,')}::{escaped(f'{shown.file}: {shown.failed_status}')}\n"


def github_text(shown):
    return "".join(github_parts(shown))


FORMATS = {"json": json_text, "sarif": sarif_text, "valgrind-xml": valgrind_text, "junit": junit_text, "gcc": gcc_text,
           "github": github_text}
