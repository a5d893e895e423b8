"""What gdb's packets are answered."""
import sys

from replaycheck.endings import Fault
from replaycheck.looking import TOP
from replaycheck.sessions import Refused

from .altering import Unaltered
from .connections import Closed
from .packets import MOST, Misread, numbers
from .registers import PC, description, in_hexadecimal, value_of
from .stops import ACCESS, END, Point

NO_ADDRESS = "a run goes on from where it is: set pc first"
SUPPORTED = (f"PacketSize={MOST:x};qXfer:features:read+;ReverseStep+;ReverseContinue+;swbreak+;hwbreak+;"
             "QStartNoAckMode+;vContSupported+")
WORD = 4  # bytes of a register
TARGET = "qXfer:features:read:target.xml:"
FIXED = {"qC": "QC1", "qfThreadInfo": "m1", "qsThreadInfo": "l", "qAttached": "1", "vCont?": "vCont;c;C;s;S;r",
         "qSymbol::": "OK", "QStartNoAckMode": "OK"}


class Stub:
    """Answers packets, one after another, over a run."""

    def __init__(self, packets, run, goer, alterer, monitor):
        self.packets, self.run, self.goer, self.alterer, self.monitor = packets, run, goer, alterer, monitor
        self.by_name = {"bc": goer.back, "bs": goer.step_back, "c": goer.forward, "s": goer.step}
        self.by_letter = {
            "g": self.all_registers, "p": self.one_register, "m": self.memory,
            "Z": lambda text: self.point(text, goer.add), "z": lambda text: self.point(text, goer.remove),
            "M": self.write, "P": self.set_register, "G": self.set_registers, "c": self.refuse, "s": self.refuse,
            "C": lambda text: self.go("c", text), "S": lambda text: self.go("s", text),
            "H": lambda _: "OK", "T": lambda _: "OK", "D": lambda _: "OK", "?": lambda _: self.stopped()}
        self.by_words = {"qSupported": lambda _: SUPPORTED, TARGET: self.described,
                         "vCont;": self.continued, "qRcmd,": self.command}

    def serve(self):
        """Answers packets until the other side has closed, or is done."""
        try:
            while True:
                packet = self.packets.packet()
                if packet.startswith("k"):
                    return
                self.packets.send(self.answer(packet))
                if packet == "QStartNoAckMode":
                    self.packets.acknowledges = False
                if packet.startswith("D"):
                    return
        except Closed:
            pass

    def answer(self, packet):
        try:
            return self.reply(packet)
        except (Misread, Refused, Unaltered) as fault:
            return f"E.{fault}"

    def reply(self, packet):
        """The answer to a packet; an empty one to a packet that isn't known."""
        if packet in FIXED:
            return FIXED[packet]
        if packet in self.by_name:
            return self.told(self.by_name[packet]())
        for words, does in self.by_words.items():
            if packet.startswith(words):
                return does(packet[len(words):])
        return self.by_letter.get(packet[:1], lambda _: "")(packet[1:])

    # ---- going on

    def go(self, name, text):
        """Goes on by a packet with a signal, which has no effect, and not from another address."""
        return self.refuse() if ";" in text else self.told(self.by_name[name]())

    def continued(self, text):
        """Goes on by the first of the actions that a packet has for threads: there is one thread."""
        action = text.split(";")[0].split(":")[0]
        if action[:1] == "r":
            low, high = numbers(action[1:], 2)
            return self.told(self.goer.forward((low, min(high, TOP))))
        if action[:1].lower() not in ("c", "s"):
            raise Misread
        return self.told(self.by_name[action[0].lower()]())

    def stopped(self, word=""):
        return f"T05{word}thread:1;"

    def told(self, stop):
        """That the run has stopped; at its end, and at an error, in words too."""
        if stop.word == END:
            self.packets.say(f"[{self.run.registers().state} at step {stop.step}]\n")
        if stop.errs:
            self.packets.say("".join(f"[step {stop.step} makes an error: {error}]\n" for error in self.run.errors_of(stop.step)))
        return self.stopped(stop.word)

    def point(self, text, does):
        sort, address, length = numbers(text.split(";")[0], 3)
        if sort > ACCESS or address >= TOP:
            return ""
        does(Point(sort, address, max(1, length)))
        return "OK"

    # ---- what there is

    def described(self, text):
        return part(description([control.name for control in self.run.controls()]), text)

    def all_registers(self, _):
        return "".join(in_hexadecimal(value_of(number, self.run)) for number in range(PC + 1))

    def one_register(self, text):
        value = value_of(numbers(text, 1)[0], self.run)
        return "E01" if value is None else in_hexadecimal(value)

    def memory(self, text):
        address, length = numbers(text, 2)
        return self.run.memory(address, min(length, MOST // 2)).data.hex() or "E01"

    # ---- what is set

    def refuse(self, _=""):
        return f"E.{NO_ADDRESS}"

    def set_register(self, text):
        number, _, value = text.partition("=")
        number = numbers(number, 1)[0]
        if value_of(number, self.run) is None:
            return "E01"
        self.alterer.set_register(number, *words_of(value, 1))
        return "OK"

    def set_registers(self, text):
        """Sets all registers that are read by one packet."""
        for number, value in enumerate(words_of(text, PC + 1)):
            self.alterer.set_register(number, value)
        return "OK"

    def write(self, text):
        """Writes memory. gdb asks without bytes whether it may; it tells no reason why it may not, but shows what comes on standard
        error."""
        where, _, digits = text.partition(":")
        address, length = numbers(where, 2)
        data = bytes_of(digits, length)
        try:
            self.alterer.write(address, data)
        except Unaltered as fault:
            print(f"replaycheck gdb: {fault}", file=sys.stderr, flush=True)
            raise
        return "OK"

    def command(self, text):
        """A line of `monitor`."""
        try:
            line = bytes.fromhex(text).decode("utf-8", "surrogateescape")
        except ValueError:
            raise Misread from None
        try:
            said = self.monitor.answer(line)
        except Fault as fault:
            if fault.said:  # the program has ended
                raise
            said = f"{fault}\n"
        if said:
            self.packets.say(said)
        return "OK"


def bytes_of(digits, length):
    """A number of bytes, written in hexadecimal."""
    try:
        data = bytes.fromhex(digits)
    except ValueError:
        raise Misread from None
    if len(data) != length or len(digits) != 2 * length:
        raise Misread
    return data


def words_of(digits, count):
    """A number of registers, each with its lowest byte first."""
    data = bytes_of(digits, WORD * count)
    return [int.from_bytes(data[i:i + WORD], "little") for i in range(0, len(data), WORD)]


def part(text, asked):
    """A part of a text, after `l` where it is the last."""
    begin, length = numbers(asked, 2)
    return ("m" if begin + length < len(text) else "l") + text[begin:begin + length]
