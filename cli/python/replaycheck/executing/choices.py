"""What a command line of `exec` asks for. What reads it is apart: the log of a quiet run needs no parser."""
from __future__ import annotations

from dataclasses import dataclass, field

from replaycheck.endings import Fault
from replaycheck.guest.regions import USUAL_REGIONS, Regions
from replaycheck.programs import USUAL
from replaycheck.verdicts import LEAK_KINDS

FAILED = 125


class Usage(Fault):
    """A fault of the command line."""

    status = FAILED


@dataclass(repr=False, eq=False)
class Choices:
    """What a command line asks for."""

    file: str = ""
    arguments: list[str] = field(default_factory=list)
    input: str | None = None
    report: str | None = None
    log_file: str | None = None
    log_fd: int | None = None
    log_format: str = "valgrind"
    quiet: bool = False
    verbose: bool = False
    full_paths: bool = False
    ends_line: bool = False
    strip_prefix: str | None = None
    demangle: bool = True
    asks_for_help: bool = False
    # Whether an unseen heap is a failure; None is the program's own default.
    require_heap: bool | None = None
    not_heap: list[str] = field(default_factory=list)
    error_exitcode: int = 0
    suppressions: list[str] = field(default_factory=list)
    patches: list[str] = field(default_factory=list)
    # Options of Valgrind that change nothing here, with their values.
    unused: list[str] = field(default_factory=list)
    isa: str = USUAL
    heap_region: int | None = None
    stack_region: tuple[int, int] | None = None
    most_moved: int | None = None
    most_output: str | int | None = None
    regions: Regions = USUAL_REGIONS
    # Options of the program, by their names there.
    passed: dict[str, str] = field(default_factory=dict)

    @property
    def needs_heap(self) -> bool:
        """Whether an unseen heap is a failure."""
        return bool(self.error_exitcode) if self.require_heap is None else self.require_heap

    @property
    def log_goes_to_error(self) -> bool:
        """Whether the log goes to standard error, after what the program has written there."""
        return self.log_file is None and self.log_fd in (None, 2)

    @property
    def counted(self) -> frozenset[str]:
        """The kinds of leak that count as errors."""
        kinds = self.passed.get("count", "definite,possible").split(",")
        return frozenset(LEAK_KINDS.values()) if "all" in kinds else frozenset(kinds) - {"none"}
