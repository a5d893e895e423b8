"""The workflows of examples/ci/, for test-manual: whether the chapter on CI quotes one as it is, and what their shell commands do."""
import pathlib
import re
import subprocess
import textwrap
from collections.abc import Iterator

from checkout import TOP

CHAPTER = TOP / "docs" / "manual" / "ci.md"
YAML = re.compile(r"^```yaml\n((?:.*\n)*?)```$", re.M)
# A step's shell commands, in GitHub's form and in GitLab's: after the key on one line, or below it on several.
STEP = re.compile(r"^( *)(?:run:|-) (?!\w+: )(.*)\n((?:\1 .*\n)*)", re.M)
# Each workflow, with the place of an error in the report that it writes.
WORKFLOWS = {"github.yml": '"uri": "src/station.c"', "gitlab.yml": "station.c:34"}
FAILING = 9


def text_of(name: str) -> str:
    return (TOP / "examples" / "ci" / name).read_text()


def steps(text: str) -> list[str]:
    """The shell commands of each step of a workflow, without those that install something."""
    found = [textwrap.dedent(more) if first == "|" else first for _, first, more in STEP.findall(text)]
    return [it for it in found if "apt-get" not in it]


def copies() -> Iterator[str]:
    """Whether the chapter quotes the first of the workflows otherwise than it is, or another one."""
    shown = YAML.findall(CHAPTER.read_text())
    if shown != [text_of(next(iter(WORKFLOWS)))]:
        yield f"not as in examples/ci/{next(iter(WORKFLOWS))}"


def typed(project: pathlib.Path, text: str) -> tuple[str, int, str]:
    """Types the steps of a workflow in a project, up to the first that fails. Returns the last step, its status, and what it printed on
    standard error."""
    step, status, said = "", 0, ""
    for step in steps(text):
        run = subprocess.run(["bash", "-e", "-c", step], cwd=project, stdin=subprocess.DEVNULL, stdout=subprocess.DEVNULL,
                             stderr=subprocess.PIPE, text=True)
        status, said = run.returncode, run.stderr
        if status:
            break
    return step, status, said


def outcomes(project: pathlib.Path, name: str) -> Iterator[str]:
    """Where a workflow does something else than the chapter says. In the chapter's project it passes. With a name of eight letters in the
    input the check fails, and its report names the place."""
    text, given = text_of(name), project / "test" / "station.input"
    step, status, said = typed(project, text)
    if status:
        yield f"status {status}: {step}: {said}"
    whole = given.read_bytes()
    given.write_bytes(whole[:1] + b"\x08" + whole[2:])
    step, status, said = typed(project, text)
    given.write_bytes(whole)
    if status != FAILING or "--error-exitcode" not in step:
        yield f"with an error: status {status}: {step}: {said}"
    elif WORKFLOWS[name] not in (project / step.split(">")[1].strip()).read_text():
        yield f"no {WORKFLOWS[name]} in its report"
