"""A tool that a signal meets at a chosen place, for test-search and test-explore.

usage: python3 signalled.py HOW SIGNAL MODULE FUNCTION TOOL [ARG ..]

The signal comes each time before the tool calls a function: `before`, or `dropped`, in a `__del__`, so that Python drops what it raises. It
comes `after` the call, or reaches the process that the function makes, before that executes anything: `in-child`."""
import importlib
import os
import pathlib
import runpy
import signal
import sys

sys.dont_write_bytecode = True
sys.path.insert(0, str(pathlib.Path(__file__).resolve().parents[2] / "cli" / "python"))


class Signals:
    """Sends this process a signal when it ends."""

    def __init__(self, number):
        self.number = number

    def __del__(self):
        os.kill(os.getpid(), self.number)


def before(action, number):
    def done(*given):
        os.kill(os.getpid(), number)
        return action(*given)
    return done


def after(action, number):
    def done(*given):
        made = action(*given)
        os.kill(os.getpid(), number)
        return made
    return done


def dropped(action, number):
    def done(*given):
        Signals(number)
        return action(*given)
    return done


def in_child(action, number):
    os.sched_setaffinity(0, [min(os.sched_getaffinity(0))])  # the parent continues first

    def done(*given):
        child = action(*given)
        if child:
            os.kill(child, number)
        return child
    return done


def main(how, name_of_signal, module, function, tool, *words):
    owner = importlib.import_module(module)
    *outer, name = function.split(".")
    for it in outer:
        owner = getattr(owner, it)
    makes = {"before": before, "after": after, "dropped": dropped, "in-child": in_child}[how]
    setattr(owner, name, makes(getattr(owner, name), signal.Signals[name_of_signal]))
    sys.argv = [tool, *words]
    runpy.run_path(tool, run_name="__main__")


if __name__ == "__main__":
    main(*sys.argv[1:])
