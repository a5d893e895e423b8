"""Scripts by which others run the parts of a sweep."""
import shlex

from replaycheck.endings import Fault
from replaycheck.guest.lines import shown_name
from replaycheck.programs import isa_words

PARTS = 64
SLURM = """#!/bin/bash
#SBATCH --array=1-{parts}
#SBATCH --job-name=sweep
# Makes the parts of a sweep, each as a task of its own, into the folder {folder}: sbatch THIS-SCRIPT
# When all are done:
#   {told}
{note}set -eu
folder={folder}
table=$folder/part-$SLURM_ARRAY_TASK_ID-of-$SLURM_ARRAY_TASK_COUNT
mkdir -p -- "$folder"
[ ! -e "$table" ] || exit 0
replaycheck {words} \\
  --part "$SLURM_ARRAY_TASK_ID/$SLURM_ARRAY_TASK_COUNT" >"$table.new"
mv -- "$table.new" "$table"
"""


def slurm(options, request):
    """A job script for an array of tasks."""
    for name in filter(None, (options.file, options.input, options.supp, options.keep)):
        if "\n" in name or name == "-" or name.startswith("/dev/"):
            raise Fault(f"--script: the tasks can't read {shown_name(name)}")
    folder = options.keep or "sweep-parts"
    count = options.parts or min(PARTS, max(1, request.places))
    files = [f"--input={options.input}"] if options.input is not None else []
    files += [f"--supp={options.supp}"] if options.supp is not None else []
    words = request.words()
    own = [word for word in words[:-1] if not word.startswith(("--input=", "--supp="))]
    told = ["replaycheck", "explore", options.file, *files, *isa_words(request.isa), *request.regions.words]
    note = f"# {request.step_note}\n" if request.step_note else ""
    return SLURM.format(parts=count, folder=shlex.quote(folder), words=shlex.join([*own, *files, words[-1]]), note=note,
                        told=f"{shlex.join(told)} --from {shlex.quote(folder)}/part-*-of-{count}")
