"""A Chromium without a window, for the tests: opens pages, presses keys, clicks, and takes pictures, by its debugging protocol."""

from __future__ import annotations

import base64
import contextlib
import json
import os
import re
import shutil
import socket
import struct
import subprocess
import tempfile
import time
from typing import Iterator

NAMES = ["chromium", "chromium-browser", "google-chrome"]
TIMEOUT = 30
# names of keys whose letters are not what they are called
CODES = {"ArrowLeft": 37, "ArrowUp": 38, "ArrowRight": 39, "ArrowDown": 40, "PageUp": 33, "PageDown": 34, "End": 35, "Home": 36,
         "Escape": 27, "Tab": 9, "Enter": 13, " ": 32}


def found() -> str | None:
    """The browser that is installed; None where there is none."""
    return next(filter(None, map(shutil.which, NAMES)), None)


class Socket:
    """A WebSocket, as RFC 6455 has it, with text alone."""

    def __init__(self, port: int, path: str):
        self.stream = socket.create_connection(("127.0.0.1", port), TIMEOUT)
        self.file = self.stream.makefile("rb")
        self.stream.sendall(f"GET {path} HTTP/1.1\r\nHost: 127.0.0.1:{port}\r\nUpgrade: websocket\r\nConnection: Upgrade\r\n"
                            "Sec-WebSocket-Key: AAAAAAAAAAAAAAAAAAAAAA==\r\nSec-WebSocket-Version: 13\r\n\r\n".encode())
        status = self.file.readline()
        if b" 101 " not in status:
            raise OSError(f"the browser answers {status!r}")
        while self.file.readline().strip():
            pass

    def send(self, text: str) -> None:
        """Sends a text; its mask is zero."""
        content = text.encode()
        size = len(content)
        head = bytes([129, 128 | size]) if size < 126 else struct.pack(">BBQ", 129, 255, size)
        self.stream.sendall(head + bytes(4) + content)

    def receive(self) -> str:
        """The next text."""
        whole = b""
        while True:
            first, size = self.file.read(2)
            if size >= 126:
                size = struct.unpack(">H" if size == 126 else ">Q", self.file.read(2 if size == 126 else 8))[0]
            part = self.file.read(size)
            if first & 15 in (0, 1):
                whole += part
                if first & 128:
                    return whole.decode()


class Browser:
    """A page of the browser."""

    def __init__(self, port: int, path: str):
        self.socket = Socket(port, path)
        self.count = 0
        self.faults: list[str] = []
        for name in ("Page", "Runtime", "Network"):
            self.call(name + ".enable")

    def call(self, method: str, **words: object) -> dict:
        """Calls a method of the protocol; what it answers."""
        self.count += 1
        self.socket.send(json.dumps({"id": self.count, "method": method, "params": words}))
        while True:
            told = json.loads(self.socket.receive())
            if told.get("method") == "Runtime.exceptionThrown":
                self.faults.append(str(told["params"]["exceptionDetails"]))
            if told.get("method") == "Network.requestWillBeSent" and re.match("(http|ws|ftp)", told["params"]["request"]["url"]):
                self.faults.append("a request: " + told["params"]["request"]["url"])
            if told.get("id") == self.count:
                if "error" in told:
                    raise OSError(f"{method}: {told['error']}")
                return told["result"]

    def size(self, width: int, height: int) -> None:
        """Gives the window a size."""
        self.call("Emulation.setDeviceMetricsOverride", width=width, height=height, deviceScaleFactor=1, mobile=False)

    def open(self, address: str, width: int, height: int, dark: bool = False) -> None:
        """Opens a page, and waits until it is ready."""
        self.size(width, height)
        self.call("Emulation.setEmulatedMedia", features=[{"name": "prefers-color-scheme", "value": "dark" if dark else "light"}])
        self.call("Page.navigate", url="about:blank")
        self.call("Page.navigate", url=address)
        self.wait("document.documentElement?.dataset.ready === 'yes' || document.querySelector('[role=alert]') !== null")

    def value(self, words: str) -> object:
        """The value of an expression."""
        told = self.call("Runtime.evaluate", expression=words, returnByValue=True, awaitPromise=True)
        if "exceptionDetails" in told:
            raise OSError(f"{words}: {told['exceptionDetails']}")
        return told["result"].get("value")

    def wait(self, words: str, seconds: float = 30) -> None:
        """Waits until an expression is true."""
        end = time.monotonic() + seconds
        while not self.value(words):
            if time.monotonic() > end:
                raise OSError(f"after {seconds} seconds it is not so that {words}")
            time.sleep(0.02)

    def text(self, name: str) -> str:
        """The text of an element."""
        return str(self.value(f"document.getElementById({json.dumps(name)}).innerText"))

    def press(self, key: str, shift: bool = False) -> None:
        """Presses a key."""
        letter = {"text": key} if len(key) == 1 else {}
        code = CODES.get(key, ord(key.upper()) if key.isalnum() and len(key) == 1 else 0)
        for kind in ("keyDown", "keyUp"):
            self.call("Input.dispatchKeyEvent", type=kind, key=key, windowsVirtualKeyCode=code, modifiers=8 if shift else 0,
                      **(letter if kind == "keyDown" else {}))

    def mouse(self, kind: str, x: float, y: float, **more: object) -> None:
        """An event of the pointer: mouseMoved, mousePressed, mouseReleased or mouseWheel."""
        button = {} if kind in ("mouseMoved", "mouseWheel") else {"button": "left", "clickCount": 1}
        self.call("Input.dispatchMouseEvent", type=kind, x=x, y=y, **button, **more)

    def click(self, x: float, y: float) -> None:
        """Clicks at a point."""
        for kind in ("mouseMoved", "mousePressed", "mouseReleased"):
            self.mouse(kind, x, y)

    def click_on(self, name: str) -> None:
        """Clicks on the middle of an element."""
        x, y = self.value("(it => [it.left + it.width / 2, it.top + it.height / 2])"
                          f"(document.getElementById({json.dumps(name)}).getBoundingClientRect())")
        self.click(x, y)

    def picture(self) -> bytes:
        """A picture of what is seen, as PNG."""
        return base64.b64decode(self.call("Page.captureScreenshot", format="png")["data"])


def page_of(port: int) -> str:
    """The path of the socket of the first page."""
    with socket.create_connection(("127.0.0.1", port), TIMEOUT) as stream:
        stream.sendall(f"GET /json/list HTTP/1.1\r\nHost: 127.0.0.1:{port}\r\n\r\n".encode())
        file = stream.makefile("rb")
        size = 0
        for line in iter(file.readline, b"\r\n"):
            name, _, value = line.decode().partition(":")
            size = int(value) if name.lower() == "content-length" else size
        pages = [it for it in json.loads(file.read(size)) if it["type"] == "page"]
    return re.sub(r"ws://[^/]*", "", pages[0]["webSocketDebuggerUrl"])


@contextlib.contextmanager
def opened(program: str) -> Iterator[Browser]:
    """The first page of a new browser, with a profile of its own."""
    profile = tempfile.mkdtemp()
    words = ["--headless=new", "--remote-debugging-port=0", f"--user-data-dir={profile}", "--no-first-run", "--disable-gpu",
             "--disable-dev-shm-usage", "--hide-scrollbars", "--force-color-profile=srgb", "--disable-background-networking"]
    if hasattr(os, "getuid") and os.getuid() == 0:
        words.append("--no-sandbox")
    process = subprocess.Popen([program, *words, "about:blank"], stdin=subprocess.DEVNULL, stdout=subprocess.DEVNULL,
                               stderr=subprocess.DEVNULL)
    try:
        name, end = os.path.join(profile, "DevToolsActivePort"), time.monotonic() + TIMEOUT
        while not (os.path.exists(name) and os.path.getsize(name)):
            if time.monotonic() > end or process.poll() is not None:
                raise OSError(f"{program} does not start")
            time.sleep(0.02)
        with open(name, encoding="ascii") as file:
            port = int(file.readline())
        page = Browser(port, page_of(port))
        with page.socket.stream, page.socket.file:
            yield page
    finally:
        process.terminate()
        try:
            process.wait(10)
        except subprocess.TimeoutExpired:
            process.kill()
            process.wait()
        shutil.rmtree(profile, ignore_errors=True)
