"""Starts a tool. SIGINT ends it while its modules are imported, unless the caller ignores that signal. The launcher ignores it until then,
and gives the option `interrupts` for leave to obey it."""
import _signal  # what the module signal has, and nothing else to be imported first
import sys

if "interrupts" in sys._xoptions or callable(_signal.getsignal(_signal.SIGINT)):
    _signal.signal(_signal.SIGINT, _signal.SIG_DFL)
from importlib import import_module  # noqa: E402

from replaycheck.endings import end, write  # noqa: E402


def start(name: str) -> None:
    """Runs the tool of a name, a module of replaycheck/commands, and ends with its status. For its page nothing is imported that it needs
    for its work: that is the module's text, unless the module has a `show_page`. Lines of errors name it `NAME`, if the module has that."""
    tool = import_module(f"replaycheck.commands.{name.replace('-', '_')}")
    show_page = getattr(tool, "show_page", lambda: write(str(tool.__doc__).strip() + "\n"))
    end(getattr(tool, "NAME", name), show_page if sys.argv[1:] in (["-h"], ["--help"]) else tool.main)
