"""A headless Firefox for tests, by its own protocol, Marionette, over a port of this machine: pages and scripts in them."""
import json
import pathlib
import shutil
import socket
import subprocess
import tempfile
import time

from browser import PATIENCE, Asked, BrowserFault

NAMES = ("firefox-esr", "firefox")
PREFERENCES = {"marionette.port": 0, "browser.shell.checkDefaultBrowser": False, "datareporting.policy.dataSubmissionEnabled": False,
               "toolkit.telemetry.reportingpolicy.firstRun": False, "app.update.enabled": False, "browser.aboutwelcome.enabled": False,
               "network.captive-portal-service.enabled": False, "network.connectivity-service.enabled": False}


def find():
    """The path of a Firefox, or None."""
    return next(filter(None, map(shutil.which, NAMES)), None)


class Firefox(Asked):
    """A Firefox with a page, which runs while the `with` does."""

    def __init__(self, path):
        self.path, self.number, self.rest = path, 0, b""

    def __enter__(self):
        self.folder = pathlib.Path(tempfile.mkdtemp(prefix="replaycheck-firefox-"))
        lines = [f"user_pref({json.dumps(name)}, {json.dumps(value)});\n" for name, value in PREFERENCES.items()]
        (self.folder / "user.js").write_text("".join(lines))
        words = [self.path, "--headless", "--marionette", "--no-remote", "--profile", str(self.folder), "about:blank"]
        self.child = subprocess.Popen(words, stdin=subprocess.DEVNULL, stdout=subprocess.DEVNULL, stderr=subprocess.DEVNULL,
                                      start_new_session=True)
        try:
            self.connect()
        except BaseException:
            self.__exit__()
            raise
        return self

    def connect(self):
        """Connects to the port, which Firefox writes into its profile."""
        port, end = self.folder / "MarionetteActivePort", time.monotonic() + PATIENCE
        while not (port.exists() and port.read_text().strip()):
            if time.monotonic() > end or self.child.poll() is not None:
                raise BrowserFault("Firefox opens no port")
            time.sleep(0.05)
        self.socket = socket.create_connection(("127.0.0.1", int(port.read_text())), PATIENCE)
        self.receive()
        self.call("WebDriver:NewSession", capabilities={"alwaysMatch": {"timeouts": {"script": PATIENCE * 1000}}})

    def __exit__(self, *_):
        self.child.terminate()
        try:
            self.child.wait(10)
        except subprocess.TimeoutExpired:
            self.child.kill()
            self.child.wait()
        if hasattr(self, "socket"):
            self.socket.close()
        shutil.rmtree(self.folder, ignore_errors=True)

    def receive(self):
        """A message: its length, a colon, and JSON."""
        while b":" not in self.rest:
            self.take()
        length, _, self.rest = self.rest.partition(b":")
        while len(self.rest) < int(length):
            self.take()
        text, self.rest = self.rest[:int(length)], self.rest[int(length):]
        return json.loads(text)

    def take(self):
        part = self.socket.recv(1 << 16)
        if not part:
            raise BrowserFault("Firefox has ended")
        self.rest += part

    def call(self, command, **given):
        self.number += 1
        text = json.dumps([0, self.number, command, given]).encode()
        self.socket.sendall(b"%d:%s" % (len(text), text))
        _, _, fault, value = self.receive()
        if fault:
            raise BrowserFault(f"{command}: {fault.get('message')}")
        return value

    def open(self, address, ready="globalThis.replaycheck !== undefined"):
        self.call("WebDriver:Navigate", url=address)
        self.until(f"document.readyState === 'complete' && {ready}")

    def run(self, script):
        """What an expression of the page comes to, a promise too."""
        return self.call("WebDriver:ExecuteScript", script=f"return ({script});", args=[], sandbox=None)["value"]
