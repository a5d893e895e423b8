"""Names of C++ and Rust as they are in the source, by one c++filt that is kept open and starts with the first name that needs it."""
from __future__ import annotations

import os

from replaycheck.children import piped
from replaycheck.endings import Fault
from replaycheck.programs import tool

PROGRAMS = ("riscv64-unknown-elf-c++filt", "riscv64-linux-gnu-c++filt", "c++filt")
NEEDS = "names as in the source need c++filt, of Debian's binutils-riscv64-unknown-elf, or the one that CXXFILT names"
LONGEST = 32000  # bytes of a name or of an answer: c++filt takes a longer name for two
AT_ONCE = 4000  # bytes of questions, as few as each pipe holds
MEMORY = 1 << 24  # bytes for c++filt: a short name can stand for a text without end
PATIENCE = 10  # seconds for an answer
PLAIN = dict.fromkeys(map(ord, "_.$"))  # characters of names that are neither letters nor digits


def is_mangled(name):
    """Whether c++filt may know a name by another one: it begins as those do and, as c++filt reads it, is one word."""
    return name.startswith(("_Z", "_R")) and len(name) <= LONGEST and name.isascii() and name.translate(PLAIN).isalnum()


class Demangler:
    """The names of functions, each of which is asked for once. Each question is followed by its number, which c++filt repeats: so no
    answer is taken for another one's. If it fails, `fault` says why, and names stay as they are."""

    def __init__(self, is_on=True):
        self.known, self.is_on, self.child, self.fault, self.rest = {}, is_on, None, None, b""

    def name(self, symbol):
        """A function's name in the source, of a name of the symbol table, or that one."""
        if is_mangled(symbol) and symbol not in self.known:
            self.learn([symbol])
        return self.known.get(symbol, symbol)

    def learn(self, symbols):
        """Asks for names, many at a time."""
        waiting = [symbol for symbol in dict.fromkeys(symbols) if is_mangled(symbol) and symbol not in self.known]
        try:
            while waiting and self.is_on:
                waiting = self.ask(waiting)
        except Fault as fault:
            self.fault, self.is_on = fault, False
            if self.child:
                self.child.terminate()

    def ask(self, waiting):
        """Asks for the first of some names. Returns those that are left."""
        self.child = self.child or started()
        questions, count = b"", 0
        for number, symbol in enumerate(waiting):
            question = f"{symbol}\n{number}\n".encode()
            if questions and len(questions) + len(question) > AT_ONCE:
                break
            questions, count = questions + question, number + 1
        try:
            self.child.stdin.write(questions)
            self.child.stdin.flush()
        except BrokenPipeError:
            self.ended()
        for number, symbol in enumerate(waiting[:count]):
            told = self.line()
            if self.line() != str(number):
                raise Fault(f"c++filt: no answer for {symbol}")
            self.known[symbol] = told if told.isprintable() and told else symbol
        return waiting[count:]

    def line(self):
        """The next line, or nothing in place of one that is too long."""
        import select
        waits, is_short = select.poll(), True
        waits.register(self.child.stdout, select.POLLIN)
        while b"\n" not in self.rest:
            if not waits.poll(1000 * PATIENCE):
                raise Fault(f"c++filt: no answer in {PATIENCE} seconds")
            come = os.read(self.child.stdout.fileno(), 65536)
            if not come:
                self.ended()
            is_short = is_short and len(self.rest) <= LONGEST
            self.rest = (self.rest if is_short else b"") + come
        line, _, self.rest = self.rest.partition(b"\n")
        return line.decode("utf-8", "surrogateescape") if is_short and len(line) <= LONGEST else ""

    def ended(self):
        self.child.terminate()
        self.child.wait()
        said = self.child.said().decode("utf-8", "surrogateescape").strip()
        raise Fault(f"c++filt ended{said and ': ' + said}")


def started():
    """c++filt, which reads names from a pipe. It leaves out what only a compiler wants to know, as the hashes of Rust."""
    import resource
    child = piped([tool("CXXFILT", PROGRAMS), "-i"], needs=NEEDS)
    try:
        resource.prlimit(child.pid, resource.RLIMIT_DATA, (MEMORY, MEMORY))
    except OSError:
        pass  # a system that has no such limit: PATIENCE is one, too
    return child
