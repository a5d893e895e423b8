"""The pages of help that the program and its tools have, of which man pages and completions are made."""
import os
import re
from typing import NamedTuple

from packaging.source import output

COMMAND = re.compile(r"^  (\w+) +(\S.*)$", re.M)
OF_ANOTHER = re.compile(r"`(\w+) --[a-z-]+`")  # an option, with the command that has it


class Help(NamedTuple):
    """A command or a tool: what it is called, what it does, in a line, and its page."""

    name: str
    summary: str
    text: str
    is_tool: bool

    @property
    def options(self):
        """The options that its page names, in order, without those of another command, such as `sweep --values`."""
        own = OF_ANOTHER.sub(lambda found: found[0] if found[1] == self.name else "", self.text)
        return sorted(set(re.findall(r"(?<![\w-])--[a-z][a-z-]*", own)))


def helps(home, program=""):
    """Those of a launcher, with its own program or this one: the commands of the program, and then the tools."""
    launcher = home / "cli" / "replaycheck"
    calm = {**os.environ, "PATH": "/usr/bin:/bin", "COLUMNS": "100", "REPLAYCHECK": str(program)}
    ask = lambda *words: output(launcher, *words, "--help", env=calm).decode()  # noqa: E731
    listed = ask()
    commands = listed.partition("Commands:\n")[2].partition("\n\n")[0]
    found = [Help(name, summary, ask(name), False) for name, summary in COMMAND.findall(commands) if name != "help"]
    tools = re.findall(r"^  replaycheck (\w+) +(\S.*)$", listed, re.M)
    return [Help("", listed.partition("\n")[0], listed, False), *found, *(Help(name, summary, ask(name), True) for name, summary in tools)]
