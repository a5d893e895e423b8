"""The twin (tests/twin), a plain interpreter with nothing proved."""
import subprocess
import sys

from checkout import TOP

TWIN = TOP / "tests" / "twin"


def build_twin(tool):
    """The path of the twin, which is built where its sources changed."""
    try:
        subprocess.run(["cargo", "build", "--release", "--offline", "--quiet"], cwd=TWIN, check=True)
    except (OSError, subprocess.CalledProcessError) as fault:
        print(f"{tool}: cannot build the twin: {fault}", file=sys.stderr)
        sys.exit(2)
    return TWIN / "target" / "release" / "twin"
