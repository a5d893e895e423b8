"""The summary of a search."""
from __future__ import annotations

from typing import Iterator, List

from replaycheck.exploring.heads import told_isa, told_regions
from replaycheck.exploring.outcomes import Part, still_running
from replaycheck.exploring.summary import SourceLines, counted
from replaycheck.guest.lines import shown, shown_name
from replaycheck.programs import USUAL

from .folder import Finding
from .tries import LONGEST

INDENT = " " * 18


def head(title: str, search) -> Iterator[str]:
    options = search.options
    yield (f"{title}{told_isa(options.isa or USUAL)}{told_regions(options.regions)}: {counted(search.state.runs, 'try', 'tries')}, "
           f"seed {options.seed}, inputs of up to {options.max_len} bytes, step {options.step}")
    yield from filter(None, [search.step_note])
    kept = f", in {shown_name(search.folder.own)}" if options.out is not None else ""
    yield f"queue: {counted(search.state.entries, 'input')}, {counted(len(search.seeds), 'seed')} among them{kept}"


def found_lines(search, found: List[Finding]) -> Iterator[str]:
    if search.options.goal is None:
        had = f"; the seeds have {len(search.of_seeds)} of their own" if search.of_seeds else ""
        yield f"{counted(len(found), 'new error, leak or stop', 'new errors, leaks and stops')}, which no seed has{had}"
    else:
        begin, had = "begins" if len(found) == 1 else "begin", "; a seed has one too" if search.of_seeds else ""
        yield f"{counted(len(found), 'new line')} of outcomes, which no seed has, that {begin} with `{shown(search.options.goal)}`{had}"


def summary(title: str, search, found: List[Finding], sources: SourceLines) -> Iterator[str]:
    """The lines of a summary."""
    yield from head(title, search)
    if search.state.all_running:
        yield still_running(search.options.step, "each run")
    yield from found_lines(search, found)
    if not found:
        return
    sources.learn([finding.address for finding in found])
    yield ""
    yield f"   finding  bytes  {'new error, leak or stop' if search.options.goal is None else 'line of the outcome'}"
    for finding in found:
        yield f"   {finding.name:>7}  {len(finding.content):5}  {sources.told(Part(finding.text, finding.address))}"
        if len(finding.content) <= LONGEST:
            yield f"{INDENT}bytes is {finding.content.hex()}".rstrip()
