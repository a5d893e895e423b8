"""Packets of gdb's serial protocol (gdb's manual, appendix E)."""
import re

from replaycheck.endings import Fault

from .connections import Closed

MOST = 0x3FFF  # bytes of a packet, which the other side is told
LONGEST = 1 << 20  # a packet with more ends the connection: it may have no end
ESCAPE = 0x7D
DIGITS = re.compile(r"[0-9a-fA-F]{1,16}")


class Misread(Fault):
    """A packet isn't what its first letters say."""

    def __init__(self):
        super().__init__("a packet of gdb can't be read")


class Packets:
    """Reads packets, and sends replies. Each is acknowledged until the other side asks for none of that."""

    def __init__(self, connection):
        self.connection, self.acknowledges, self.last = connection, True, b""

    def byte(self):
        byte = self.connection.byte()
        if not byte:
            raise Closed
        return byte

    def packet(self):
        """The next packet whose checksum is right. What stands between packets is acknowledgements and interrupts: nothing
        runs while a packet is waited for."""
        while True:
            byte = self.byte()
            if byte == b"-" and self.acknowledges:
                self.connection.write(self.last)
            if byte == b"$":
                body = self.body()
                if body is not None:
                    return unescaped(body).decode("latin-1")

    def body(self):
        """What stands up to the checksum; none where that is wrong, which the other side is told. Nothing is kept of a packet that is
        longer than it was told: it is none that is known."""
        body, total, length = bytearray(), 0, 0
        while (byte := self.byte()) != b"#":
            if byte == b"$":  # another packet has begun: the first was cut
                body, total, length = bytearray(), 0, 0
                continue
            total, length = total + byte[0], length + 1
            body += byte
            if length > MOST:
                body.clear()
            if length > LONGEST:
                raise Fault(f"a packet has more than {LONGEST} bytes: gdb was asked for at most {MOST}")
        told = self.byte() + self.byte()
        if not self.acknowledges:
            return body
        is_right = told.lower() == b"%02x" % (total & 255)
        self.connection.write(b"+" if is_right else b"-")
        return body if is_right else None

    def send(self, text):
        body = escaped(text.encode("latin-1"))
        self.last = b"$" + body + b"#%02x" % (sum(body) & 255)
        self.connection.write(self.last)

    def say(self, text):
        """Has the other side show a text, while it waits for a reply."""
        data = text.encode("utf-8", "surrogateescape")
        for at in range(0, len(data), MOST // 4):
            self.send("O" + data[at:at + MOST // 4].hex())


def escaped(data):
    """Bytes in which none begins or ends a packet."""
    return b"".join(bytes([ESCAPE, byte ^ 0x20]) if byte in b"#$}*" else bytes([byte]) for byte in data)


def unescaped(data):
    found, rest = bytearray(), iter(data)
    for byte in rest:
        if byte == ESCAPE:
            byte = next(rest, None)
            if byte is None:
                break
            byte ^= 0x20
        found.append(byte)
    return bytes(found)


def numbers(text, count):
    """So many hexadecimal numbers of a packet, with commas between."""
    words = text.split(",")
    if len(words) != count or not all(map(DIGITS.fullmatch, words)):
        raise Misread
    return [int(word, 16) for word in words]
