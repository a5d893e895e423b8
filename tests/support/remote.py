"""The other side of gdb's serial protocol, and of its machine interface, for tests/gdb/test-gdb and bench/gdb: what is sent, what comes
back, and a limit of time."""
import subprocess
import threading


class Child:
    """A process whose standard input is written and whose standard output is read, and which is killed when it takes too long."""

    def __init__(self, words, seconds, **how):
        self.process = subprocess.Popen(words, stdin=subprocess.PIPE, stdout=subprocess.PIPE, **how)
        self.timer = threading.Timer(seconds, self.process.kill)
        self.timer.daemon = True
        self.timer.start()

    def send(self, data):
        self.process.stdin.write(data)
        self.process.stdin.flush()

    def end(self, sends=b""):
        """Sends the last bytes, and closes. Gives the status, and what else came on standard output and error."""
        try:
            out, err = self.process.communicate(sends)
        finally:
            self.timer.cancel()
        return self.process.returncode, out, err


class Remote(Child):
    """A stub of gdb's protocol."""

    def packet(self, text):
        body = text.encode("latin-1")
        self.send(b"$" + body + b"#%02x" % (sum(body) % 256))

    def reply(self):
        """The next packet that comes, and whether each was acknowledged before it. Raises ValueError where it isn't whole."""
        before = b""
        while not before.endswith(b"$"):
            before += self.byte()
        body = b""
        while not body.endswith(b"#"):
            body += self.byte()
        told = self.byte() + self.byte()
        if told != b"%02x" % (sum(body[:-1]) % 256):
            raise ValueError(f"a wrong checksum: {body!r} {told!r}")
        return before[:-1].decode(), body[:-1].decode("latin-1")

    def byte(self):
        byte = self.process.stdout.read(1)
        if not byte:
            raise ValueError("it has ended")
        return byte

    def ask(self, text):
        """The answer to a packet, and the texts that are to be shown before it."""
        self.packet(text)
        shown = ""
        while True:
            _, reply = self.reply()
            self.send(b"+")
            if not reply.startswith("O") or reply == "OK":
                return reply, shown
            shown += bytes.fromhex(reply[1:]).decode(errors="replace")


class Machine(Child):
    """gdb's machine interface."""

    def ask(self, line, until=None):
        """What it prints up to the result of a command, or further, up to a line that begins so."""
        self.send(f"{line}\n".encode())
        rows, is_done = [], False
        for row in self.process.stdout:
            rows.append(row.decode())
            is_done |= rows[-1].startswith("^")
            if is_done and (until is None or rows[-1].startswith(until)) or rows[-1].startswith("^error"):
                return "".join(rows)
        raise ValueError(f"it has ended: {''.join(rows)}")
