"""What `try-bodies` and `time-proofs` share: checks of crates by the toolchain's own words, over the libraries that are built, in a folder
of their own that ends with them."""
import importlib.machinery
import importlib.util
import os
import pathlib
import shutil
import signal
import subprocess
import sys
import tempfile
import threading
import time

from checkout import TOP

OUT = TOP / "out"
# Bears the time at which the last `rt ci` of the gate began that passed.
LEFT = OUT / "left-by-gate"
TOOL = os.path.basename(sys.argv[0])


def refuse(why):
    print(f"{TOOL}: {why}", file=sys.stderr)
    sys.exit(2)


def stop_on_no_crate(names):
    for name in names:
        if not (TOP / "crates" / name / "src").is_dir():
            refuse(f"no crate {name}")


def toolchain():
    """The module of `rt` that knows how a crate is checked."""
    command = shutil.which("rt")
    if not command:
        refuse("it needs the toolchain of Rattle, and its command rt is not on the path")
    path = str(pathlib.Path(command).resolve().parent / "rtlib.py")
    if not os.path.exists(path):
        refuse("the toolchain's rt has no rtlib.py beside it: this tool is not for that version")
    loader = importlib.machinery.SourceFileLoader("rtlib", path)
    module = importlib.util.module_from_spec(importlib.util.spec_from_loader("rtlib", loader))
    sys.modules["rtlib"] = module
    loader.exec_module(module)
    # Its first call takes the main thread.
    module.guarded()
    return module


class Work:
    """The copies and the checks of this run, which end with it."""

    def __init__(self):
        OUT.mkdir(exist_ok=True)
        self.room = tempfile.mkdtemp(prefix=f"{TOOL}-{os.getpid()}-", dir=OUT)
        self.children, self.printing, self.is_stopped = set(), threading.Lock(), False

    def __enter__(self):
        for number in (signal.SIGTERM, signal.SIGHUP, signal.SIGINT):
            signal.signal(number, self.stop)
        return self

    def __exit__(self, *_):
        self.clear()

    def run(self, words, folder):
        """A command's status, its words, and its processor seconds."""
        with subprocess.Popen(words, cwd=folder, stdin=subprocess.DEVNULL, stdout=subprocess.PIPE, stderr=subprocess.STDOUT) as child:
            self.children.add(child.pid)
            told = child.stdout.read().decode(errors="replace")
            _, status, used = os.wait4(child.pid, 0)
            self.children.discard(child.pid)
            child.returncode = os.waitstatus_to_exitcode(status)
        return child.returncode, told, used.ru_utime + used.ru_stime

    def tell(self, *lines):
        if not self.is_stopped:
            with self.printing:
                print(*lines, sep="\n", flush=True)

    def clear(self):
        for child in [*self.children]:
            try:
                # A check has a group of its own, but for its first moments in this run's.
                group = os.getpgid(child)
                os.kill(child, signal.SIGKILL)
                if group != os.getpgid(0):
                    os.killpg(group, signal.SIGKILL)
            except OSError:
                pass
        # Threads that have just lost their check remove folders too.
        for _ in range(100):
            shutil.rmtree(self.room, ignore_errors=True)
            if not os.path.exists(self.room):
                break
            time.sleep(0.02)

    def stop(self, number, _):
        self.is_stopped = True
        self.clear()
        signal.signal(number, signal.SIG_DFL)
        os.kill(os.getpid(), number)


class Libraries:
    """What the crates stand on: as `rt` keeps it, or as `rt ci` leaves it."""

    def __init__(self, rtlib):
        self.rtlib, self.built = rtlib, {}

    def crate(self, name):
        return self.rtlib.Crate(str(TOP / "crates" / name), str(TOP), {})

    def are_left_by_gate(self, below):
        """Whether the gate's `rt ci` has left them, which builds them without the stamps of other commands and may take them from an
        earlier run, with the times of that; and whether no source was changed since it began."""
        try:
            begun = LEFT.stat().st_mtime
        except FileNotFoundError:
            return False
        for it in below:
            if os.path.exists(f"{it.folder}/out/rlib/stamp") or not os.path.exists(f"{it.rlib}/format"):
                return False
            parts = (file for part in self.rtlib.PARTS for file in pathlib.Path(it.folder, part).rglob("*") if file.is_file())
            if any(file.stat().st_mtime > begun for file in parts):
                return False
        return True

    def make(self, name):
        """Builds what a crate stands on, where that isn't built; whether it is now."""
        below = self.crate(name).below()
        if self.are_left_by_gate(below):
            return True
        for it in below:
            if it.name not in self.built:
                self.built[it.name] = it.is_built() or self.build(it)
            if not self.built[it.name]:
                return False
        return True

    def build(self, library):
        print(f"{TOOL}: builds {library.name}", file=sys.stderr, flush=True)
        ran = subprocess.run([*self.rtlib.guarded(), "rt", "lib"], cwd=library.folder, stdin=subprocess.DEVNULL,
                             stdout=subprocess.PIPE, stderr=subprocess.STDOUT)
        if ran.returncode:
            sys.stderr.buffer.write(ran.stdout[-2000:])
        return ran.returncode == 0
