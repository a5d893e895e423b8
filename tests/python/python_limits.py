"""Runs with a limit beyond the usual last step, by `import replaycheck`, for tests/python/test-python."""
from __future__ import annotations

import replaycheck
from guest_files import ENTRY, elf
from limit_rows import BOOT, READS, USES
from python_patches import differs, refusal
from replaycheck.guest.assembly import assemble
from rows import Rows

# Of READS after TURNS turns: the step that reads the byte, and the one at which the program has ended. Of the use of USES the step.
TURNS, READ, END, USE, LIMIT = 3000000, 6000007, 6000011, 6000007, 6100000
TURN, EXIT = ENTRY + 8, ENTRY + 48


def usage(limit: object) -> str:
    """What is said of a limit that there isn't."""
    try:
        replaycheck.Run(b"", limit=limit).close()  # type: ignore[arg-type]
    except replaycheck.Usage as fault:
        return str(fault)
    return ""


def test_limits(rows: Rows) -> None:
    data = elf(assemble(READS.format(TURNS)))
    with replaycheck.Run(data, input=b"a") as run:
        found = (run.limit, run.end, run.report().step, run.next("run", EXIT, 4), refusal(lambda: run.skip(run.limit + 1)))
        rows.row("the usual limit", differs("steps", found, (replaycheck.LAST_STEP, replaycheck.LAST_STEP, replaycheck.LAST_STEP, None, 5)))
    with replaycheck.Run(data, input=b"a", limit=LIMIT) as run:
        found = (run.limit, run.end, run.report().step, str(run.report().state), str(run.certify()).partition(":")[0])
        rows.row("a greater limit", differs("run", found, (LIMIT, END, LIMIT, "exited 97", f"clean to step {LIMIT}")))
        steps = (run.next("run", EXIT, 4), run.last("run", TURN, 4), run.last_write(run.at(END).sp), next(run.calls(EXIT)),
                 [(it.step, it.count) for it in run.happened()])
        rows.row("steps beyond the usual limit", differs("steps", steps, (END - 1, 2 * TURNS, READ, END - 1, [(READ, 1)])))
        rows.row("the limit", differs("numbers", [refusal(lambda: run.at(LIMIT + it).pc) for it in (0, 1)], [None, 5]))
        with run.edited("input 0 98", f"skip {LIMIT}"):
            rows.row("an edit after a boot", differs("state", str(run.report(END).state), "exited 98"))
        with run.edited(f"set {READ - 100} x5 1"):
            rows.row("an alteration in a boot", differs("end", run.end, END - 92))
        rows.row("edits that are taken back", differs("state", (str(run.report(END).state), run.end), ("exited 97", END)))
    with replaycheck.Run(elf(assemble(USES)), limit=LIMIT) as run:
        rows.row("a use after a boot", differs("step", (run.certify().first_use, run.next("error")), (USE, USE)))
    with replaycheck.Run(elf(assemble(BOOT.format(5) + "ebreak")), limit=10) as run:
        found = (run.end, run.report().step, str(run.report().state).partition(" ")[0], refusal(lambda: run.report(11)))
        rows.row("a limit below the usual one", differs("run", found, (10, 10, "running", 5)))
    said = [usage(it) for it in (0, 1 << 31, 1.5)]
    wanted = ["limit: 0: not a number from 1 to 2147483647", "limit: 2147483648: not a number from 1 to 2147483647",
              "limit: no whole number: 1.5"]
    rows.row("no limits", differs("faults", said, wanted))
