"""The command line of `replaycheck search`, and its work."""
from __future__ import annotations

import contextlib
import os
import sys
import time
from argparse import Namespace
from functools import partial
from typing import List, Optional

from replaycheck.covering import lcov
from replaycheck.covering.covered import Covered
from replaycheck.endings import Fault, Interrupted, flush, heed_signal, write
from replaycheck.exploring.executed import check_lines
from replaycheck.exploring.executed import told as executed_told
from replaycheck.exploring.keeping import Room
from replaycheck.exploring.outputs import Output, is_one
from replaycheck.exploring.summary import SourceLines
from replaycheck.exploring.unedited import Unedited, times_the_end
from replaycheck.file_heaps import heap_of_run
from replaycheck.guest.code import Code
from replaycheck.guest.lines import shown_name
from replaycheck.options import Parser, number
from replaycheck.places import Paths, Places
from replaycheck.sessions import Session

from .entries import files_in
from .folder import Finding, Folder, report_of, session_lines
from .processes import Workers
from .reached import Reached
from .seeds import seeds
from .state import State, Told
from .summary import summary
from .tokens import tokens_in
from .tries import COMMAND
from .worker import Plan, Worker

USUAL_LENGTH, GREATEST_LENGTH = 256, 65536
PATIENCE = 0.2  # seconds of a wait for what workers tell
MOST = 9999999999


def options_of(page: str) -> Namespace:
    parser = Parser(page)
    parser.add_argument("file")
    parser.add_argument("--input", action="extend", nargs="+", default=[])
    for name in ("--supp", "--out", "--tokens", "--goal", "--lcov"):
        parser.add_argument(name)
    parser.isa_option()
    parser.region_options()
    parser.step_option("--step")
    parser.limit_option()
    parser.add_argument("--time", type=number(1, MOST))
    parser.add_argument("--runs", type=number(1, MOST))
    parser.add_argument("--jobs", type=number(1, 1000))
    parser.add_argument("--seed", type=number(0, 0xFFFFFFFF), default=0)
    parser.add_argument("--max-len", type=number(1, GREATEST_LENGTH), default=USUAL_LENGTH)
    options = parser.read()
    if "" in (options.out, options.tokens, options.goal, options.lcov):
        parser.error("an option without a value")
    return options


def say(text):
    """Says something on standard error that ends nothing."""
    sys.stderr.buffer.write(f"replaycheck search: {text}\n".encode("utf-8", "surrogateescape"))
    sys.stderr.flush()


class Search:
    """A search, in a folder that is kept or only there while it works."""

    def __init__(self, options, room: str):
        self.options, self.room = options, room
        self.code = Code(options.file, options.isa, options.regions)
        self.folder = Folder(options.out if options.out is not None else os.path.join(room, "search"))
        given = [] if options.input else self.folder.seeds(options.max_len)
        self.seeds = given or seeds(options.input, options.max_len, say)
        self.seed = self.first_file()
        self.step_note = ""
        self.of_seeds: List[str] = []
        self.choose_step()
        self.tokens = tokens_in(options.tokens) if options.tokens is not None else []
        self.reached = Reached(options, self.code, self.folder.queue)
        self.places = self.places_of_lines()
        self.findings: List[Finding] = list(self.folder.findings())
        self.first_seed, self.first = self.folder.add_seeds(self.seeds, options.max_len)
        self.jobs = options.jobs or len(os.sched_getaffinity(0))
        kept = self.folder.own if options.out is not None else None
        self.state = State(self.jobs, kept, ["replaycheck", "search", *sys.argv[1:]], self.reached)

    def first_file(self) -> Optional[str]:
        """A file that has the first seed; none for an empty one."""
        content = self.seeds[0][1]
        path = os.path.join(self.room, "seed")
        with open(path, "wb") as file:
            file.write(content)
        return path if content else None

    # ---- what the first seed's run says

    def choose_step(self):
        """Chooses the step where none is asked for. Rejects a program that reads nothing, or doesn't end."""
        options = self.options
        name = f"the run of {shown_name(self.seeds[0][0])}" if self.seeds[0][0] else "the run without an input"
        with Unedited(options.file, self.seed, options.supp, options.isa, options.regions, options.limit) as run:
            if options.step is None:
                end = run.end()
                if end is None:
                    raise Fault(f"{name} doesn't end by step {options.limit}: --step N says how far each run goes, or another seed comes "
                                "first")
                options.step, self.step_note = times_the_end(end, name, options.limit)
            run.run.at(options.step)
            _, read, _, has_asked = run.run.look("input")[0].split()
            if read == "0" and has_asked == "no":
                raise Fault(f"{name} reads nothing up to step {options.step}, so that no other input changes it")
        self.check_heap()

    def check_heap(self):
        """Says where errors of the heap can't be found."""
        options = self.options
        heap = heap_of_run(options.file, self.seed, options.step, isa=options.isa, regions=options.regions)
        if heap and heap.is_unseen:
            say(heap.notice(shown_name(options.file)))

    def places_of_lines(self) -> Optional[Places]:
        if self.options.lcov is None:
            return None
        places = Places(self.options.file, Paths(from_here=True))
        check_lines(self.options.file, self.code, places)
        return places

    # ---- the work

    def opened(self, content: Optional[bytes]) -> Session:
        """A session of tries, with an input as its file where its bytes don't fit into a line."""
        path = None
        if content is not None:
            path = os.path.join(self.room, f"base-{os.getpid()}")
            with open(path, "wb") as file:
                file.write(content)
        options = self.options
        return Session(options.file, path, options.supp, command=COMMAND, isa=options.isa, regions=options.regions, limit=options.limit)

    def plan(self) -> Plan:
        options, goal = self.options, self.options.goal
        until = self.state.begun + options.time if options.time else float("inf")
        return Plan(self.opened, self.code, options.step, [content for _, content in self.seeds], self.tokens, options.max_len,
                    None if goal is None else goal.encode("utf-8", "surrogateescape"), options.runs, options.seed, until,
                    self.folder.path, self.folder.own, [finding.text for finding in self.findings], self.first_seed, self.first,
                    os.getpid())

    def work(self):
        """Runs the workers. A signal or a fault ends them. What was found until a signal comes is printed, too."""
        plan = self.plan()
        for name, _ in files_in(self.folder.queue):
            if os.path.exists(os.path.join(self.folder.queue, name)):  # a link may lead nowhere
                self.reached.add(name)
                self.state.add(name)
        self.state.findings = len(self.findings)
        flush()
        works = [partial(self.work_of, plan, place) for place in range(self.jobs)]
        workers = Workers()
        try:
            workers.start(works, [self.folder.lock])
            while workers.running:
                self.listen(workers, 0 if self.reached.waiting else PATIENCE)
                self.reached.look()
                self.state.show()
                self.state.write()
                heed_signal()
        except BaseException:
            workers.stop()
            while workers.running:
                with contextlib.suppress(Fault):  # what ends the search is the first reason for that
                    self.listen(workers, PATIENCE)
            raise
        finally:
            self.state.ended_at = time.monotonic()

    def listen(self, workers: Workers, patience: float):
        for place, message in workers.messages(patience):
            self.take(place, *message)

    def work_of(self, plan: Plan, place: int, tell):
        Worker(plan, place, self.jobs, tell).work()

    def take(self, place: int, kind: str, *values):
        """Takes what a worker reports."""
        getattr(self, f"take_{kind}")(place, *values)

    def take_state(self, place, *values):
        self.state.told[place] = Told(*values)

    def take_entry(self, _, name):
        self.state.add_new(name)
        self.reached.add(name)

    def take_seeds(self, _, texts):
        self.of_seeds = texts

    def take_finding(self, place, content, text, address, runs):
        """Takes a finding, and after how many runs its worker found it."""
        if any(finding.text == text for finding in self.findings):
            return
        taken = {finding.number for finding in self.findings}
        number = next(candidate for candidate in range(1, len(taken) + 2) if candidate not in taken)
        tries = runs + sum(told.runs for other, told in enumerate(self.state.told) if other != place)
        self.findings.append(Finding(number, text, address, bytes.fromhex(content), tries))
        self.keep(self.findings[-1])
        self.state.findings, self.state.finding_at = len(self.findings), time.monotonic()

    def take_shorter(self, _, content, text):
        for finding in self.findings:
            made = bytes.fromhex(content)
            if finding.text == text and len(made) <= len(finding.content):
                finding.content = made
                self.keep(finding)

    def take_fault(self, _, text, said):
        fault = Fault(text)
        fault.said = said
        raise fault

    def keep(self, finding: Finding):
        """Writes the files of a finding. Its report is asked of a session of its own."""
        path = os.path.join(self.room, "finding")
        with open(path, "wb") as file:
            file.write(finding.content)
        report = report_of(path, self.options, self.options.step)
        self.folder.write(finding, session_lines(self.seeds[0][1], finding.content, self.options.step), report)

    # ---- what is printed

    def tell(self, covered):
        options = self.options
        names = [os.path.basename(options.file), *([os.path.basename(self.seeds[0][0])] if self.seeds[0][0] else [])]
        found = sorted(self.findings, key=lambda finding: finding.number)
        lines = summary(" with ".join(map(shown_name, names)), self, found, SourceLines(os.path.abspath(options.file)))
        write("".join(f"{line}\n" for line in [*lines, *([executed_told(covered)] if covered else [])]))

    def interrupted(self):
        """Prints what was found up to a signal, as far as anybody reads it."""
        with contextlib.suppress(Fault, Interrupted, OSError):
            self.state.write(is_last=True)
            self.state.end()
            if self.options.lcov is None:
                self.tell(None)
                flush()

    def end(self, lcov_file) -> int:
        """Prints what was found. Returns the status."""
        self.reached.look_at_all()
        covered = Covered(self.options.file, self.code, self.reached.sides.all(), self.places) if self.places else None
        self.state.write(is_last=True)
        self.state.end()
        if lcov_file and covered:
            lcov_file.write(lcov.text_of(covered).encode("utf-8", "surrogateescape"))
            lcov_file.end()
        if self.options.lcov != "-":
            self.tell(covered)
        flush()
        return int(bool(self.findings))


def check_output(options):
    """Rejects an info file that would overwrite a file that is read."""
    read = [("the program", options.file), ("the suppressions", options.supp), ("the tokens", options.tokens),
            *(("an input", name) for name in options.input)]
    for what, path in read:
        if options.lcov not in (None, "-") and path is not None and is_one(options.lcov, path):
            raise Fault(f"--lcov {shown_name(options.lcov)}: it would overwrite {what}")


@contextlib.contextmanager
def output_of(options, room):
    """The info file, where one is asked for."""
    output = None if options.lcov is None else Output(options.lcov, room)
    try:
        yield output
    finally:
        if output:
            output.clear()


def search(options) -> int:
    check_output(options)
    with Room() as room, output_of(options, room) as output:
        search = Search(options, room)
        try:
            search.work()
        except Interrupted:
            search.interrupted()
            raise
        return search.end(output)
