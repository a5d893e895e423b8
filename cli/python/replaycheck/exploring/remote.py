"""Parts that are made by GNU parallel, here and on other machines."""
import os
import re
import shlex
import shutil
import signal
import subprocess
import time

from replaycheck.endings import Fault, heed_signal, start
from replaycheck.guest.lines import shown, shown_name

from .keeping import Room
from .running import Runner, edits_in

PLAIN = re.compile(r"[A-Za-z0-9_./-]+")
SCRIPT = """program={program}
[ -x "$program" ] || program=replaycheck
exec "$program" {words} --part="$1/{count}"
"""


def is_there():
    """Whether GNU parallel is there: moreutils has another program of that name."""
    if not shutil.which("parallel"):
        return False
    child = start(["parallel", "--plain", "--version"], stdin=subprocess.DEVNULL, stdout=subprocess.PIPE,
                  stderr=subprocess.DEVNULL)
    return child.communicate()[0].startswith(b"GNU parallel")


class Remote(Runner):
    """Makes parts by GNU parallel. `logins` are its machines; the files are copied there, under the same names."""

    logins = ":"

    def run(self, parts, progress):
        """Makes these parts. Gives their tables."""
        with Room() as room:
            if not PLAIN.fullmatch(room):
                raise Fault(f"--sshlogin: TMPDIR must have a plain name: {shown_name(room)}")
            child = self.child(room, parts)
            try:
                found = self.take(child.stdout, room, progress)
            finally:
                progress.end()
                self.stop(child)
            with open(os.path.join(room, "said"), "rb") as file:
                said = shown(file.read(1000).replace(b"\n", b" "))
        missing = sorted(set(parts) - {source.head.part[0] for source in found})
        if missing:
            raise Fault(f"part {missing[0]}/{self.count} failed twice: {said or 'it printed nothing'}")
        return found

    def child(self, room, parts):
        files = [os.path.join(room, base) for base in ("program", "input", "supp")]
        words = list(self.words)
        for path, given, option in zip(files, self.request.files, (None, "--input", "--supp")):
            with open(path, "wb") as file:
                file.write(given.content)
            words = [f"{option}={path}" if option and word.startswith(f"{option}=") else word for word in words]
        words[-1] = files[0]
        script = os.path.join(room, "part.sh")
        with open(script, "w", encoding="utf-8", errors="surrogateescape") as file:
            file.write(SCRIPT.format(program=shlex.quote(os.path.abspath(shutil.which(words[0]) or words[0])),
                                     words=shlex.join(words[1:]), count=self.count))
        jobs = ["--jobs", str(self.jobs)] if self.jobs else []
        copies = [word for copy in (*files, script) for word in ("--basefile", copy)]
        with open(os.path.join(room, "said"), "wb") as said, open(os.path.join(room, "parts"), "w+b") as numbers:
            numbers.write("".join(f"{part}\n" for part in parts).encode())
            numbers.seek(0)
            environment = {**os.environ, "TMPDIR": room}
            for name in ("PARALLEL", "POSIXLY_CORRECT"):
                environment.pop(name, None)
            words = ["--plain", "--will-cite", "--retries", "2", "--sshlogin", self.logins, *jobs, *copies, "--cleanup"]
            return start(["parallel", *words, f"sh {script} {{}}"], stdin=numbers, stdout=subprocess.PIPE, stderr=said,
                         env=environment, start_new_session=True)

    def take(self, tables, room, progress):
        """Takes tables as they come, one after another; one that isn't whole is followed by another."""
        found, path, file = {}, os.path.join(room, "table"), None
        for line in tables:
            heed_signal()
            if line.startswith(b"sweep "):
                file = open(path, "wb")
            if file:
                file.write(line)
                progress.add(edits_in(b"\n" + line))
            if file and line.startswith(b"end "):
                file.close()
                file, source = None, self.source(path)
                target = self.path(source.head.part[0])
                self.fresh.add(target + ".new")
                shutil.copyfile(path, target + ".new")
                os.replace(target + ".new", target)
                found[source.head.part[0]] = self.source(target)
        return list(found.values())

    def stop(self, child):
        """Ends GNU parallel: at the second signal it ends what it runs."""
        self.clear()
        child.stdout.close()
        for _ in range(2):
            if child.poll() is None:
                child.send_signal(signal.SIGTERM)
                time.sleep(0.2)
        child.wait()
