"""A session with the program: a line at a time, with its reply."""
from replaycheck.children import piped
from replaycheck.guest.regions import USUAL_REGIONS
from replaycheck.options import LAST_STEP
from replaycheck.programs import ISAS, isa_words, path_of, program
from replaycheck.refusals import Ended, Refused
from replaycheck.replies import REFUSED, extent

# How many lines are sent before their replies are read: those fit into a pipe, so that neither side waits for the other one.
AT_ONCE = 1000
# The first words of lines that append to the list of marks, in which `unmark` counts.
MARKS = ("mark", "set", "write", "flip", "skip")


def limit_words(limit):
    """The greatest step of a session as arguments: none for the usual one."""
    return [] if limit == LAST_STEP else [f"--limit={limit}"]


class Session:
    """A session on a program's file with its input and its suppressions, or what another command that answers lines does there. Paths are
    texts or have the method `__fspath__`. `path` is that of the program, if it isn't the usual one, `isa` the instruction set, and
    `regions` where heap and stack are. `limit` is the greatest step, of the commands `look` and `tries`."""

    def __init__(self, file, given=None, supp=None, keeps_status=False, lends=(), command="session", path=None, isa=ISAS[0],
                 regions=USUAL_REGIONS, limit=LAST_STEP):
        words = [path or program(), command, *isa_words(isa), *regions.words, *limit_words(limit)]
        words += ["--input", path_of(given)] if given is not None else []
        words += ["--supp", path_of(supp)] if supp is not None else []
        self.keeps_status = keeps_status
        self.child = piped([*words, path_of(file)], lends)

    def ask(self, line):
        """Returns the lines of the reply to a line: one, or those of a report or of a look."""
        self.send([line])
        return self.reply(line)

    def send(self, lines):
        try:
            self.child.stdin.write("".join(line + "\n" for line in lines).encode("utf-8", "surrogateescape"))
            self.child.stdin.flush()
        except BrokenPipeError:
            raise self.ended() from None

    def reply(self, line="report"):
        """Returns the lines of the next reply, which is that to a line."""
        reply = [self.read()]
        least, ends = extent(line, reply[0])
        while len(reply) < least or ends and not reply[-1].startswith(ends):
            reply.append(self.read())
        return reply

    def accepted(self, line):
        """The reply to a line that must not be refused."""
        reply = self.ask(line)
        if reply[0].startswith(REFUSED):
            raise Refused(line, reply[0])
        return reply

    def accept_all(self, lines):
        """Sends lines, none of which may be refused and each of which is answered by one line."""
        for begin in range(0, len(lines), AT_ONCE):
            part = lines[begin:begin + AT_ONCE]
            self.send(part)
            for line in part:
                reply = self.read()
                if reply.startswith(REFUSED):
                    raise Refused(line, reply)

    def report_at(self, step):
        """The lines of the report at a step."""
        self.accepted(f"goto {step}")
        return self.accepted("report")

    def reports_at(self, steps):
        """The lines of the reports at some steps, asked for at once: no more than a pipe takes."""
        self.send([line for step in steps for line in (f"goto {step}", "report")])
        for _ in steps:
            self.read()
            yield self.reply()

    def read(self):
        line = self.child.stdout.readline()
        if not line.endswith(b"\n"):
            raise self.ended()
        return line[:-1].decode("utf-8", "surrogateescape")

    def end(self):
        """Ends the session, as nothing more is asked, whatever the program is at."""
        self.child.kill()
        self.child.leave()

    def ended(self):
        """Returns what is said of a program that has ended before it replied, and leaves nothing of it."""
        self.child.close_input()
        status, said = self.child.wait(), self.child.said()
        self.child.leave()
        return Ended(status, said, self.keeps_status)


def script_of(lines):
    """The lines of a script that ask something: without empty ones and remarks."""
    return [line for line in lines if line and not line.startswith("#")]
