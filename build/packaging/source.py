"""What a release is made from: a commit, and the program that the gate has passed."""
import hashlib
import os
import pathlib
import re
import shutil
import subprocess

from checkout import TOP
from replaycheck.endings import Fault

PROGRAM = TOP / "crates" / "replaycheck" / "out" / "replaycheck"
# What the gate leaves where all passed: the commit, and the SHA-256 of the program.
PASSED = TOP / "out" / "passed"


def output(*words, given=b"", **how):
    """What a command prints on standard output, which is given this on standard input."""
    if not shutil.which(words[0]):
        raise Fault(f"cannot run {pathlib.Path(words[0]).name}: not on the path")
    done = subprocess.run([str(word) for word in words], input=given, stdout=subprocess.PIPE, stderr=subprocess.PIPE, **how)
    if done.returncode:
        last = done.stderr.decode(errors="replace").strip().splitlines()[-1:]
        raise Fault(f"{pathlib.Path(words[0]).name} ended with status {done.returncode}{': ' if last else ''}{''.join(last)}")
    return done.stdout


def git(*words):
    return output("git", "-C", TOP, *words).decode()


class Source:
    """A clean checkout with its commit and the time of it, its program and the version of that."""

    def __init__(self, program=None):
        if git("status", "--porcelain").strip():
            raise Fault("the checkout isn't clean: commit what was changed, or take a new clone")
        self.commit = git("rev-parse", "HEAD").strip()
        epoch = os.environ.get("SOURCE_DATE_EPOCH", "") or git("show", "-s", "--format=%ct", "HEAD").strip()
        if not epoch.isdigit():
            raise Fault(f"SOURCE_DATE_EPOCH: not a number of seconds: {epoch}")
        self.time = int(epoch)
        self.program = pathlib.Path(program) if program else passed(self.commit)
        told = output(self.program, "--version").decode()
        found = re.fullmatch(r"replaycheck (\d+\.\d+\.\d+)\n", told)
        if not found:
            raise Fault(f"{self.program}: prints no version")
        self.version = found[1]
        self.maintainer = maintainer()
        self.files = git("ls-files", "-z").split("\0")[:-1]


def maintainer():
    """Who answers for the package: who made the commit, or whom Debian's own tools are told of."""
    name, address = git("show", "-s", "--format=%an%n%ae", "HEAD").splitlines()
    return f"{os.environ.get('DEBFULLNAME') or name} <{os.environ.get('DEBEMAIL') or address}>"


def passed(commit):
    """The program that the gate has passed at a commit."""
    said = PASSED.read_text().split() if PASSED.exists() else []
    if said[:1] != [commit]:
        raise Fault("tests/gate has not passed this commit in this checkout")
    if not PROGRAM.exists() or said[1:] != [hashlib.sha256(PROGRAM.read_bytes()).hexdigest()]:
        raise Fault("the program isn't the one that the gate has passed")
    return PROGRAM
