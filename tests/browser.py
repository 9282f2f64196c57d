"""A headless Chromium that tests of pages ask, over the two pipes of its debugging protocol."""
import base64
import contextlib
import fcntl
import json
import os
import select
import shutil
import struct
import subprocess
import tempfile
import time
import zlib

NAMES = ("chromium", "chromium-browser", "google-chrome", "chromium-headless-shell")
SECONDS = 30
# The numbers under which Chromium seeks its pipes, and one above which no pipe is in their way.
READS, WRITES, ABOVE = 3, 4, 10
KEY_CODES = {"Enter": 13, "ArrowDown": 40, "ArrowUp": 38, "ArrowLeft": 37, "ArrowRight": 39, "End": 35, "Home": 36}


def found():
    """The browser of this machine, or None."""
    return next(filter(None, map(shutil.which, NAMES)), None)


class Browser:
    """A page of a browser: it is asked one thing at a time, and keeps the errors that it told of."""

    def __init__(self, process, reading, writing):
        self.process, self.reading, self.writing = process, reading, writing
        self.rest, self.number, self.session, self.errors, self.loads, self.opens = b"", 0, None, [], 0, 0

    def message(self):
        """The next message of the browser."""
        until = time.monotonic() + SECONDS
        while b"\0" not in self.rest:
            if not select.select([self.reading], [], [], max(0, until - time.monotonic()))[0]:
                raise TimeoutError(f"no word of the browser within {SECONDS} seconds")
            piece = os.read(self.reading, 1 << 20)
            if not piece:
                raise EOFError("the browser ended")
            self.rest += piece
        one, _, self.rest = self.rest.partition(b"\0")
        return json.loads(one)

    def note(self, message):
        """Keeps what a message of its own accord says of errors, and of a page that was loaded."""
        method, told = message.get("method"), message.get("params", {})
        if method == "Runtime.exceptionThrown":
            detail = told["exceptionDetails"]
            self.errors.append(detail.get("exception", {}).get("description", detail["text"]))
        if method == "Log.entryAdded" and told["entry"]["level"] == "error":
            self.errors.append(told["entry"]["text"])
        if method == "Page.loadEventFired":
            self.loads += 1

    def ask(self, method, **words):
        """What the browser answers."""
        self.number += 1
        asked = {"id": self.number, "method": method, "params": words}
        if self.session:
            asked["sessionId"] = self.session
        os.write(self.writing, json.dumps(asked).encode() + b"\0")
        while (message := self.message()).get("id") != self.number:
            self.note(message)
        if "error" in message:
            raise RuntimeError(f"{method}: {message['error']}")
        return message["result"]

    def attach(self):
        """Opens a page."""
        target = self.ask("Target.createTarget", url="about:blank")["targetId"]
        self.session = self.ask("Target.attachToTarget", targetId=target, flatten=True)["sessionId"]
        for domain in ("Page", "Runtime", "Log"):
            self.ask(f"{domain}.enable")

    def open(self, url, width=1280, height=800, dark=False):
        """Loads an address in a window of a size."""
        self.ask("Emulation.setDeviceMetricsOverride", width=width, height=height, deviceScaleFactor=1, mobile=False)
        scheme = {"name": "prefers-color-scheme", "value": "dark" if dark else "light"}
        self.ask("Emulation.setEmulatedMedia", features=[scheme])
        # With a number of its own each address is loaded, also where it differs behind the `#` alone.
        self.opens += 1
        place, mark, words = url.partition("#")
        loads = self.loads
        self.ask("Page.navigate", url=f"{place}?{self.opens}{mark}{words}")
        while self.loads == loads:
            self.note(self.message())
        self.settle()

    def settle(self):
        """Waits until the page has drawn, and told what it shows."""
        self.value("new Promise(it => setTimeout(() => requestAnimationFrame(() => requestAnimationFrame(it)), 350))")

    def value(self, script):
        """The value of an expression of the page's."""
        told = self.ask("Runtime.evaluate", expression=script, returnByValue=True, awaitPromise=True)
        if "exceptionDetails" in told:
            raise RuntimeError(f"{script}: {told['exceptionDetails']}")
        return told["result"].get("value")

    def key(self, key, text=None):
        """Presses and lets go a key."""
        code = KEY_CODES.get(key, 0)
        words = {"key": key, "windowsVirtualKeyCode": code}
        self.ask("Input.dispatchKeyEvent", type="keyDown", **words, **({"text": text} if text else {}))
        self.ask("Input.dispatchKeyEvent", type="keyUp", **words)

    def picture(self, *place):
        """A picture of the window, or of a place in it (left, top, width, height), as the bytes of a PNG file."""
        clip = {"clip": dict(zip(("x", "y", "width", "height"), place), scale=1)} if place else {}
        return base64.b64decode(self.ask("Page.captureScreenshot", format="png", **clip)["data"])


@contextlib.contextmanager
def profile():
    """A folder for what the browser keeps, which may still write there while it is removed."""
    folder = tempfile.mkdtemp()
    try:
        yield folder
    finally:
        shutil.rmtree(folder, ignore_errors=True)


@contextlib.contextmanager
def started(program):
    """A browser of its own, with nothing of a user's, that ends with the block."""
    here_reads, it_writes = os.pipe()
    it_reads, here_writes = os.pipe()
    ends = [fcntl.fcntl(it, fcntl.F_DUPFD, ABOVE) for it in (it_reads, it_writes)]

    def put_pipes():
        os.dup2(ends[0], READS)
        os.dup2(ends[1], WRITES)

    with profile() as keep:
        words = [program, "--headless=new", "--remote-debugging-pipe", f"--user-data-dir={keep}", "--no-sandbox",
                 "--disable-gpu", "--disable-dev-shm-usage", "--no-first-run", "--hide-scrollbars",
                 "--disable-background-networking", "--allow-file-access-from-files"]
        process = subprocess.Popen(words, stdin=subprocess.DEVNULL, stdout=subprocess.DEVNULL,
                                   stderr=subprocess.DEVNULL, preexec_fn=put_pipes, pass_fds=(READS, WRITES))
        for it in (it_reads, it_writes, *ends):
            os.close(it)
        try:
            page = Browser(process, here_reads, here_writes)
            page.attach()
            yield page
        finally:
            with contextlib.suppress(Exception):
                page.session = None
                page.ask("Browser.close")
            try:
                process.wait(SECONDS)
            except subprocess.TimeoutExpired:
                process.kill()
                process.wait()
            os.close(here_reads)
            os.close(here_writes)


# ---- pictures

def pixels_of(data):
    """A PNG file of 8 bits a colour: how many bytes a pixel has, and the bytes of each row."""
    at, packed, head = 8, b"", None
    while at < len(data):
        length, name = struct.unpack(">I4s", data[at:at + 8])
        if name == b"IHDR":
            head = struct.unpack(">IIBBBBB", data[at + 8:at + 21])
        if name == b"IDAT":
            packed += data[at + 8:at + 8 + length]
        at += 12 + length
    size = {2: 3, 6: 4}[head[3]]
    raw, width = zlib.decompress(packed), head[0] * size
    rows, above = [], bytes(width)
    for row in range(head[1]):
        start = row * (width + 1)
        above = unfiltered(raw[start], raw[start + 1:start + 1 + width], above, size)
        rows.append(above)
    return size, rows


def paeth(left, above, corner):
    """Which of three bytes is closest to the first two less the third."""
    guess = left + above - corner
    return min((abs(guess - left), 0, left), (abs(guess - above), 1, above), (abs(guess - corner), 2, corner))[2]


def unfiltered(kind, line, above, size):
    """A row of a PNG file as it was before it was filtered."""
    row = bytearray(line)
    for i, byte in enumerate(line):
        left, corner = (row[i - size], above[i - size]) if i >= size else (0, 0)
        add = (0, left, above[i], (left + above[i]) // 2, paeth(left, above[i], corner))[kind]
        row[i] = (byte + add) % 256
    return bytes(row)
