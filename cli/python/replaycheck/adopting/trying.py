"""Which instructions reach a device, as runs show."""
import os
import tempfile

from replaycheck.looking import Run
from replaycheck.options import LAST_STEP

from .devices import spans


def reaching(path, given, elf, isa, known, can_be):
    """Loads and stores that reach a device in a run and aren't known yet. A register that is polled hides those that come
    after it, which another run finds once the first is answered."""
    run, found = Run(path, given, None, isa, elf.regions), set()
    for span in spans(elf):
        for kind in ("read", "write"):
            step = 0
            while (step := run.search("next", kind, span, step, LAST_STEP)) is not None:
                run.step = step
                site = run.registers().pc
                if site in found or site in known or not can_be(site):
                    break
                found.add(site)
                step += 1
    run.session.end()
    return found


def tried(elf, isa, inputs, begun, can_be, content_for):
    """Some sites, and those that runs on inputs for an instruction set add to them: `can_be` says of an address whether it can be one.
    `content_for` makes a file in which sites are answered for. Returns the sites and how many runs there were."""
    known, runs = set(begun), 0
    with tempfile.TemporaryDirectory(prefix="adopt-") as folder:
        for given in inputs:
            more = True
            while more:
                path = os.path.join(folder, str(runs))
                with open(path, "wb") as file:
                    file.write(content_for(sorted(known)))
                more = reaching(path, given, elf, isa, known, can_be)
                known |= more
                runs += 1
    return sorted(known), runs
