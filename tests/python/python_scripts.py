"""Scripts of test-python that need a process of their own, typed in examples/firmware. Each prints nothing and ends with 0 where all is
right."""
import sys

PLAIN = [sys.executable, "-W", "error", "-X", "dev"]
FEW = ["bash", "-c", 'ulimit -n 256; exec "$@"', "bash", *PLAIN[:3]]

MANY_SESSIONS = """
from replaycheck.endings import children
from replaycheck.sessions import Session
for _ in range(300):
    session = Session("station.elf", "station.input")
    assert session.ask("worked") == ["worked 0"]
    session.end()
assert not children, children
"""
MANY_FAULTS = """
import os
from replaycheck.endings import Fault, children
from replaycheck.sessions import Session
for _ in range(300):
    try:
        Session("station.c").ask("report")
    except Fault:
        pass
os.environ["REPLAYCHECK"] = "/no/such/program"
for _ in range(300):
    try:
        Session("station.elf")
    except Fault:
        pass
assert not children, children
"""
MANY_RUNS = """
import replaycheck
for turn in range(1000):
    with replaycheck.Run("station.elf", input="station.input") as run:
        assert run.at(100).memory("records", 1).data == b"\\x01"
for turn in range(130):
    try:
        replaycheck.Run("station.c")
    except replaycheck.Refused as fault:
        assert fault.number == 20
    next(replaycheck.sweep("station.elf", "station.input", bytes=1, values="flips"))
"""
ALL_OF_IT = """
import replaycheck, signal, threading
def handlers():
    return [signal.getsignal(it) for it in signal.valid_signals() if it not in (signal.SIGKILL, signal.SIGSTOP)]
before = handlers()
with replaycheck.Run("station.elf", input="station.input") as run:
    with run.edited("input 37 5"):
        assert run.report().errors and run.at(684).undefined.a1 and not run.certify()
    list(run.calls("add_level"))
    for line in ("input 99 1", "report"):
        try:
            run.edit(line)
        except replaycheck.Error:
            pass
assert len(list(replaycheck.sweep("station.elf", "station.input", bytes=1))) == 255
assert handlers() == before and threading.active_count() == 1
"""
UNCLOSED = """
import gc, replaycheck, warnings
from replaycheck.endings import children
with warnings.catch_warnings(record=True) as met:
    warnings.simplefilter("always")
    run = replaycheck.Run("station.elf")
    del run
    gc.collect()
assert [(it.category, str(it.message)) for it in met] == [(ResourceWarning, "unclosed run: <Run of station.elf>")], met
assert not children
"""
IN_GLOBALS = """
import replaycheck
run = replaycheck.Run("station.elf", input="station.input")
assert run.report().errors == []
edits = replaycheck.sweep("station.elf", "station.input", bytes=1)
next(edits)
def uses():
    return run, edits
"""
THREADS = """
import replaycheck, threading
wanted = {}
def work(byte):
    with replaycheck.Run("station.elf", input="station.input") as run:
        for value in range(30):
            with run.edited(f"input {byte} {value}"):
                found = run.report().text
            assert wanted.setdefault((byte, value), found) == found
def sweep():
    assert len(list(replaycheck.sweep("station.elf", "station.input", bytes="0..9", values="edges"))) > 50
for turn in range(2):
    faults = []
    threading.excepthook = lambda it: faults.append(it)
    threads = [threading.Thread(target=work, args=(byte,)) for byte in (1, 15, 27, 32)] + [threading.Thread(target=sweep)]
    for it in threads:
        it.start()
    for it in threads:
        it.join()
    assert not faults, faults
"""
FORKED = """
import os, replaycheck
with replaycheck.Run("station.elf", input="station.input") as run:
    before = run.report().text
    child = os.fork()
    if child == 0:
        try:
            run.report()
            os._exit(1)
        except replaycheck.Usage:
            pass
        run.close()
        os._exit(0)
    assert os.waitpid(child, 0)[1] == 0
    assert run.report().text == before
"""
INTERRUPTED = """
import os, replaycheck, signal, threading
signal.signal(signal.SIGINT, signal.default_int_handler)  # a shell's job in the background begins without it
with replaycheck.Run("station.elf", input="station.input") as run:
    before = run.report().text
    for turn in range(40):
        interrupted = False
        try:
            threading.Timer(0.001 + turn * 0.0005, os.kill, (os.getpid(), signal.SIGINT)).start()
            for _ in range(100000):
                with run.edited("input 27 2", "mark 0 0x20000 4 undefined", "option callers 1"):
                    run.report()
        except KeyboardInterrupt:
            interrupted = True
        assert interrupted and run.report().text == before, turn
"""
IGNORED_CHILDREN = """
import replaycheck, signal
signal.signal(signal.SIGCHLD, signal.SIG_IGN)
for _ in range(3):
    with replaycheck.Run("station.elf", input="station.input") as run:
        run.report()
assert len(list(replaycheck.sweep("station.elf", "station.input", bytes=1))) == 255
"""
LAZY = """
import sys, replaycheck
assert not [it for it in sys.modules if it.startswith("replaycheck.") or it in ("typing", "dataclasses", "subprocess")], "too much"
assert sorted(replaycheck.__all__) == [it for it in dir(replaycheck) if it in replaycheck.__all__]
for name in replaycheck.__all__:
    getattr(replaycheck, name)
try:
    replaycheck.nothing
except AttributeError:
    pass
"""
SCRIPTS = [
    ("300 sessions with 256 files", FEW, MANY_SESSIONS),
    ("300 sessions that fail, of each sort, with 256 files", FEW, MANY_FAULTS),
    ("1,000 runs with 256 files, and 130 that fail, and sweeps", FEW, MANY_RUNS),
    ("no warning, no handler of a signal, no thread, nothing printed", PLAIN, ALL_OF_IT),
    ("a run that isn't closed is reported, and ended", PLAIN, UNCLOSED),
    ("a run and a sweep that the script's end finds", PLAIN[:1], IN_GLOBALS),
    ("runs and sweeps in threads", PLAIN, THREADS),
    ("a process that was forked", PLAIN, FORKED),
    ("an interrupt in a block", PLAIN, INTERRUPTED),
    ("children that are ignored", PLAIN, IGNORED_CHILDREN),
    ("an import costs nothing", [*PLAIN[:1], "-S"], LAZY),
]
