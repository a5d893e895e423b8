"""A headless chromium for tests, by its DevTools protocol over two pipes: pages, their scripts, keys, pointers, pictures."""
import base64
import fcntl
import functools
import http.server
import json
import os
import select
import shutil
import subprocess
import tempfile
import threading
import time

NAMES = ("chromium", "chromium-browser", "google-chrome", "google-chrome-stable")
FLAGS = ("--headless=new", "--no-sandbox", "--disable-gpu", "--no-first-run", "--disable-background-networking",
         "--disable-component-update", "--disable-default-apps", "--disable-extensions", "--disable-sync", "--mute-audio",
         "--disable-renderer-backgrounding", "--disable-background-timer-throttling", "--disable-backgrounding-occluded-windows",
         "--disable-lcd-text", "--no-proxy-server", "--hide-scrollbars", "--remote-debugging-pipe")
PATIENCE = 60  # seconds
KEYS = {"Enter": (13, "\r"), "Tab": (9, "\t"), "Escape": (27, ""), "Delete": (46, ""), "ArrowLeft": (37, ""), "ArrowUp": (38, ""),
        "ArrowRight": (39, ""), "ArrowDown": (40, ""), "Home": (36, ""), "End": (35, ""), "PageUp": (33, ""), "PageDown": (34, ""),
        " ": (32, " ")}


class BrowserFault(Exception):
    """The browser, or a script in it, has failed."""


def find():
    """The path of a chromium, or None."""
    return next(filter(None, map(shutil.which, NAMES)), None)


def pipe():
    """A pipe whose ends have numbers that a shell can name beside 3 and 4, which the protocol has."""
    ends = os.pipe()
    high = [fcntl.fcntl(it, fcntl.F_DUPFD_CLOEXEC, 10) for it in ends]
    for it in ends:
        os.close(it)
    return high


class Browser:
    """A chromium that runs while the `with` does."""

    def __init__(self, path):
        self.path, self.number, self.events, self.answers = path, 0, [], {}

    def __enter__(self):
        self.folder = tempfile.mkdtemp(prefix="replaycheck-page-")
        (given, self.to), (self.got, taken) = pipe(), pipe()
        words = [self.path, *FLAGS, f"--user-data-dir={self.folder}", "about:blank"]
        script = f'exec 3<&{given} 4>&{taken} {given}<&- {taken}>&- && exec "$@"'
        self.child = subprocess.Popen(["bash", "-c", script, "", *words], pass_fds=(given, taken), stdin=subprocess.DEVNULL,
                                      stdout=subprocess.DEVNULL, stderr=subprocess.DEVNULL, start_new_session=True)
        os.close(given), os.close(taken)
        self.rest = b""
        return self

    def __exit__(self, *_):
        try:
            self.call("Browser.close")
            self.child.wait(10)
        except (BrowserFault, OSError, subprocess.TimeoutExpired):
            self.child.kill()
            self.child.wait()
        os.close(self.to), os.close(self.got)
        shutil.rmtree(self.folder, ignore_errors=True)

    def send(self, method, session=None, **given):
        self.number += 1
        message = {"id": self.number, "method": method, "params": given, **({"sessionId": session} if session else {})}
        text = json.dumps(message).encode() + b"\0"
        while text:
            text = text[os.write(self.to, text):]
        return self.number

    def call(self, method, session=None, **given):
        """What a command answers."""
        number, end = self.send(method, session, **given), time.monotonic() + PATIENCE
        while number not in self.answers:
            self.read(end - time.monotonic())
        answer = self.answers.pop(number)
        if "error" in answer:
            raise BrowserFault(f"{method}: {answer['error'].get('message')}")
        return answer["result"]

    def read(self, seconds):
        """Takes some messages, for which it waits so long at most."""
        if not select.select([self.got], [], [], max(0, seconds))[0]:
            raise BrowserFault("the browser doesn't answer")
        part = os.read(self.got, 1 << 20)
        if not part:
            raise BrowserFault("the browser has ended")
        *whole, self.rest = (self.rest + part).split(b"\0")
        for text in whole:
            message = json.loads(text)
            if "id" in message:
                self.answers[message["id"]] = message
            else:
                self.events.append(message)

    def page(self, address, width=1280, height=900, dark=False, ready="globalThis.replaycheck !== undefined"):
        return Page(self, address, (width, height, dark), ready)


class Asked:
    """A page that is asked by expressions, which `run` gives."""

    def until(self, condition, seconds=PATIENCE):
        """Waits until an expression is true."""
        end = time.monotonic() + seconds
        while not self.run(condition):
            if time.monotonic() > end:
                raise BrowserFault(f"it never came: {condition}")
            time.sleep(0.02)

    def text(self, identifier):
        return self.run(f"document.getElementById({json.dumps(identifier)}).textContent")


class Page(Asked):
    """A page in a tab of its own, which is there when `ready` is true in it."""

    def __init__(self, browser, address, shape, ready):
        self.browser = browser
        self.target = browser.call("Target.createTarget", url="about:blank")["targetId"]
        self.session = browser.call("Target.attachToTarget", targetId=self.target, flatten=True)["sessionId"]
        for domain in ("Page", "Runtime", "Log"):
            self.call(f"{domain}.enable")
        self.shape(*shape)
        self.call("Page.navigate", url=address)
        self.until(f"document.readyState === 'complete' && {ready}")

    def __enter__(self):
        return self

    def __exit__(self, *_):
        self.browser.call("Target.closeTarget", targetId=self.target)

    def call(self, method, **given):
        return self.browser.call(method, self.session, **given)

    def shape(self, width, height, dark=False):
        self.call("Emulation.setDeviceMetricsOverride", width=width, height=height, deviceScaleFactor=1, mobile=False)
        self.call("Emulation.setEmulatedMedia", features=[{"name": "prefers-color-scheme", "value": "dark" if dark else "light"}])

    def run(self, script):
        """What an expression comes to, a promise too."""
        answer = self.call("Runtime.evaluate", expression=script, awaitPromise=True, returnByValue=True, userGesture=True)
        if "exceptionDetails" in answer:
            told = answer["exceptionDetails"]
            raise BrowserFault(told.get("exception", {}).get("description") or told["text"])
        return answer["result"].get("value")

    def click_on(self, selector, index=0):
        """Clicks an element as a script does, wherever it stands."""
        self.run(f"document.querySelectorAll({json.dumps(selector)})[{index}].click()")

    def set(self, identifier, value, *events):
        """Gives a field a value, and then tells it of events."""
        self.run(f"""(() => {{ const it = document.getElementById({json.dumps(identifier)}); it.value = {json.dumps(value)};
          for (const event of {json.dumps(events)}) it.dispatchEvent(new Event(event)); }})()""")

    def focus(self, identifier):
        self.run(f"document.getElementById({json.dumps(identifier)}).focus()")

    def press(self, *keys, modifiers=0):
        """Presses keys, one after another: names, or characters."""
        for key in keys:
            code, text = KEYS.get(key, (ord(key.upper()) if len(key) == 1 else 0, key))
            given = {"key": key, "windowsVirtualKeyCode": code, "modifiers": modifiers}
            text = "" if modifiers & 6 else text
            self.call("Input.dispatchKeyEvent", type="keyDown" if text else "rawKeyDown", text=text, **given)
            self.call("Input.dispatchKeyEvent", type="keyUp", **given)

    def point(self, kind, x, y, button="none"):
        self.call("Input.dispatchMouseEvent", type=kind, x=x, y=y, button=button, clickCount=int(button != "none"))

    def click(self, x, y):
        self.point("mouseMoved", x, y)
        self.point("mousePressed", x, y, "left")
        self.point("mouseReleased", x, y, "left")

    def give_files(self, identifier, *paths):
        """Chooses files in a field."""
        found = self.call("Runtime.evaluate", expression=f"document.getElementById({json.dumps(identifier)})")["result"]
        self.call("DOM.setFileInputFiles", objectId=found["objectId"], files=[str(it) for it in paths])

    def picture(self, height=None, scale=1):
        """The page as PNG: so many pixels of it from the top, or all."""
        size = self.call("Page.getLayoutMetrics")["cssContentSize"]
        clip = {"x": 0, "y": 0, "width": size["width"], "height": height or size["height"], "scale": scale}
        return base64.b64decode(self.call("Page.captureScreenshot", format="png", captureBeyondViewport=True, clip=clip)["data"])

    def complaints(self):
        """What the page's scripts and its policy complained of."""
        told = []
        for it in self.browser.events:
            if it.get("sessionId") != self.session:
                continue
            if it["method"] == "Runtime.exceptionThrown":
                details = it["params"]["exceptionDetails"]
                told.append(details.get("exception", {}).get("description") or details["text"])
            elif it["method"] == "Log.entryAdded" and it["params"]["entry"]["level"] == "error":
                told.append(it["params"]["entry"]["text"])
        return told


class Quiet(http.server.SimpleHTTPRequestHandler):
    extensions_map = {**http.server.SimpleHTTPRequestHandler.extensions_map, ".js": "text/javascript", ".wasm": "application/wasm"}

    def log_message(self, *_):
        pass


class Served:
    """A folder on a port of this machine."""

    def __init__(self, folder):
        handler = functools.partial(Quiet, directory=str(folder))
        self.server = http.server.ThreadingHTTPServer(("127.0.0.1", 0), handler)
        self.server.daemon_threads = True
        self.address = f"http://127.0.0.1:{self.server.server_address[1]}/"

    def __enter__(self):
        threading.Thread(target=self.server.serve_forever, daemon=True).start()
        return self

    def __exit__(self, *_):
        self.server.shutdown()
        self.server.server_close()
