"""A headless Chromium for tests, driven by its DevTools protocol over a web socket, with Python's own library alone."""
import base64
import json
import os
import shutil
import socket
import struct
import subprocess
import tempfile
import time
import urllib.request

from checks import WAIT

NAMES = ("chromium", "chromium-browser", "google-chrome", "google-chrome-stable")


def installed():
    """The path of a browser, or None."""
    return next(filter(None, map(shutil.which, NAMES)), None)


class WebSocket:
    """The client's end of a web socket (RFC 6455) for texts."""

    def __init__(self, host, port, path):
        self.link = socket.create_connection((host, port), timeout=WAIT)
        key = base64.b64encode(os.urandom(16)).decode()
        self.link.sendall((f"GET {path} HTTP/1.1\r\nHost: {host}:{port}\r\nUpgrade: websocket\r\nConnection: Upgrade\r\n"
                           f"Sec-WebSocket-Key: {key}\r\nSec-WebSocket-Version: 13\r\n\r\n").encode())
        self.input = self.link.makefile("rb")
        status = self.input.readline()
        if b" 101 " not in status:
            raise ConnectionError(status.decode(errors="replace"))
        while self.input.readline().strip():
            pass

    def send(self, text, kind=1):
        data, mask = text.encode(), os.urandom(4)
        size = len(data)
        if size < 126:
            head = struct.pack("!BB", 0x80 | kind, 0x80 | size)
        elif size < 65_536:
            head = struct.pack("!BBH", 0x80 | kind, 0x80 | 126, size)
        else:
            head = struct.pack("!BBQ", 0x80 | kind, 0x80 | 127, size)
        self.link.sendall(head + mask + bytes(byte ^ mask[k % 4] for k, byte in enumerate(data)))

    def take(self):
        """The next text."""
        whole = b""
        while True:
            first, second = self.input.read(2)
            size = second & 127
            if size > 125:
                size = int.from_bytes(self.input.read(2 if size == 126 else 8), "big")
            data = self.input.read(size)
            if first & 15 == 8:
                raise ConnectionError("the browser closed the web socket")
            if first & 15 in (0, 1):
                whole += data
                if first & 128:
                    return whole.decode()

    def close(self):
        self.link.close()


class Browser:
    """One browser with one page. `events` are the events that the page has told, in their order."""

    def __init__(self, path):
        self.folder = tempfile.mkdtemp(prefix="browser-")
        # Without a sandbox, as tests may run as root; the page comes from this machine.
        self.process = subprocess.Popen(
            [path, "--headless", "--no-sandbox", "--disable-gpu", "--no-first-run", "--hide-scrollbars", "--disable-extensions",
             "--disable-background-networking", "--disable-component-update", "--disable-sync", "--remote-debugging-port=0",
             f"--user-data-dir={self.folder}", "about:blank"], stdout=subprocess.DEVNULL, stderr=subprocess.DEVNULL)
        self.events, self.number = [], 0
        try:
            self.socket = WebSocket("127.0.0.1", *self.page())
        except BaseException:
            self.close()
            raise
        for domain in "Page", "Runtime", "Log", "Network":
            self.call(f"{domain}.enable")

    def page(self):
        """(port, path) of the page's web socket."""
        end = time.monotonic() + WAIT
        while time.monotonic() < end:
            try:
                with open(os.path.join(self.folder, "DevToolsActivePort")) as told:
                    port = int(told.readline())
                with urllib.request.urlopen(f"http://127.0.0.1:{port}/json/list", timeout=WAIT) as answer:
                    pages = [target for target in json.load(answer) if target["type"] == "page"]
                return port, pages[0]["webSocketDebuggerUrl"].split(str(port), 1)[1]
            except (OSError, ValueError, IndexError):
                time.sleep(0.05)
        raise TimeoutError("the browser did not start")

    def call(self, method, **words):
        self.number += 1
        self.socket.send(json.dumps({"id": self.number, "method": method, "params": words}))
        while True:
            told = json.loads(self.socket.take())
            if told.get("id") == self.number:
                if "error" in told:
                    raise RuntimeError(f"{method}: {told['error']}")
                return told["result"]
            self.events.append(told)

    def value(self, expression):
        """What a JavaScript expression gives in the page."""
        result = self.call("Runtime.evaluate", expression=expression, returnByValue=True)
        return result["result"].get("value", result.get("exceptionDetails"))

    def wait(self, expression, wanted, seconds=WAIT):
        """The value of an expression once it is the wanted one, or the last one when the time is over."""
        end = time.monotonic() + seconds
        while (found := self.value(expression)) != wanted and time.monotonic() < end:
            time.sleep(0.05)
        return found

    def size(self, width, height):
        self.call("Emulation.setDeviceMetricsOverride", width=width, height=height, deviceScaleFactor=1, mobile=min(width, height) < 600)

    def downloads(self, folder):
        """From here on what is downloaded goes to this folder."""
        self.call("Browser.setDownloadBehavior", behavior="allow", downloadPath=folder)

    def prefer(self, **features):
        """Media features, as color_scheme="dark"."""
        told = [{"name": "prefers-" + name.replace("_", "-"), "value": value} for name, value in features.items()]
        self.call("Emulation.setEmulatedMedia", features=told)

    def press(self, key, code):
        """Presses and releases a key; one that writes a character is given as that character."""
        character = {"text": key} if len(key) == 1 else {}
        for kind in "keyDown", "keyUp":
            self.call("Input.dispatchKeyEvent", type=kind, key=key, windowsVirtualKeyCode=code, **(character if kind == "keyDown" else {}))

    def screenshot(self, path, whole=True):
        """The whole page as a PNG, or what the screen shows of it."""
        shot = self.call("Page.captureScreenshot", captureBeyondViewport=whole)
        with open(path, "wb") as out:
            out.write(base64.b64decode(shot["data"]))

    def told(self, method):
        """The parameters of the events of one kind."""
        self.value("0")
        return [event["params"] for event in self.events if event.get("method") == method]

    def close(self):
        self.process.terminate()
        try:
            self.process.wait(WAIT)
        except subprocess.TimeoutExpired:
            self.process.kill()
            self.process.wait()
        shutil.rmtree(self.folder, ignore_errors=True)
