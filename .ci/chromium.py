"""Headless Chromium by its debugging port, from Python alone: pages that are clicked, typed into, asked and pictured."""
import base64
import http.client
import json
import os
import pathlib
import shutil
import socket
import subprocess
import tempfile
import time

NAMES = ("chromium", "chromium-browser", "google-chrome")
SECONDS = 300
# The keys that aren't letters, with their codes.
KEYS = {"Enter": 13, "Escape": 27, "Tab": 9, "ArrowLeft": 37, "ArrowUp": 38, "ArrowRight": 39, "ArrowDown": 40, "End": 35, "Home": 36,
        "PageDown": 34}


def program():
    """Where Chromium is, or `None`."""
    return next((path for path in map(shutil.which, NAMES) if path), None)


class Socket:
    """The client's side of a WebSocket."""

    def __init__(self, port, path, host="127.0.0.1", **fields):
        self.socket = socket.create_connection((host, port), SECONDS)
        self.left = b""
        fields = {"Host": f"{host}:{port}", "Upgrade": "websocket", "Connection": "Upgrade", "Sec-WebSocket-Version": "13",
                  "Sec-WebSocket-Key": base64.b64encode(os.urandom(16)).decode()} | fields
        head = "".join(f"{name.replace('_', '-')}: {value}\r\n" for name, value in fields.items())
        self.socket.sendall(f"GET {path} HTTP/1.1\r\n{head}\r\n".encode())
        while b"\r\n\r\n" not in self.left:
            self.more()
        self.status = int(self.left.split(b" ", 2)[1])
        self.left = self.left.partition(b"\r\n\r\n")[2]

    def more(self):
        piece = self.socket.recv(1 << 16)
        if not piece:
            raise EOFError
        self.left += piece

    def exactly(self, count):
        while len(self.left) < count:
            self.more()
        taken, self.left = self.left[:count], self.left[count:]
        return taken

    def send(self, text):
        body, mask = text.encode(), os.urandom(4)
        size = len(body)
        head = bytes([0x80 | size]) if size < 126 else b"\xfe" + size.to_bytes(2, "big") if size < 65536 else b"\xff" + size.to_bytes(8, "big")
        self.socket.sendall(b"\x81" + head + mask + bytes(byte ^ mask[k % 4] for k, byte in enumerate(body)))

    def receive(self):
        """The next text; raises `EOFError` at a close."""
        whole = b""
        while True:
            first, size = self.exactly(2)
            size = int.from_bytes(self.exactly(2), "big") if size == 126 else int.from_bytes(self.exactly(8), "big") if size == 127 else size
            body = self.exactly(size)
            if first & 15 == 8:
                raise EOFError(body)
            if first & 15 in (0, 1):
                whole += body
                if first & 0x80:
                    return whole.decode()


class Browser:
    """A Chromium with a folder of its own."""

    def __init__(self):
        self.folder = tempfile.TemporaryDirectory(ignore_cleanup_errors=True)
        words = [program(), "--headless=new", "--no-sandbox", "--disable-gpu", "--no-first-run", "--disable-dev-shm-usage",
                 "--disable-background-networking", "--disable-extensions",
                 "--disable-background-timer-throttling", "--disable-backgrounding-occluded-windows", "--disable-renderer-backgrounding", "--hide-scrollbars", "--remote-debugging-port=0",
                 f"--user-data-dir={self.folder.name}", "about:blank"]
        self.run = subprocess.Popen(words, stdout=subprocess.DEVNULL, stderr=subprocess.DEVNULL)
        told = pathlib.Path(self.folder.name, "DevToolsActivePort")
        deadline = time.monotonic() + SECONDS
        while not (told.exists() and "\n" in told.read_text()):
            if time.monotonic() > deadline:
                raise TimeoutError("Chromium doesn't open its port")
            time.sleep(0.05)
        self.port = int(told.read_text().splitlines()[0])

    def page(self, address, wide=1440, high=900):
        """A new page, opened at an address."""
        ask = http.client.HTTPConnection("127.0.0.1", self.port, timeout=SECONDS)
        ask.request("PUT", "/json/new?about:blank")
        path = json.load(ask.getresponse())["webSocketDebuggerUrl"].split("/", 3)[3]
        page = Page(Socket(self.port, f"/{path}"))
        page.size(wide, high)
        page.call("Page.enable")
        page.call("Runtime.enable")
        page.call("Page.navigate", url=address)
        page.wait("location.href !== 'about:blank' && document.readyState === 'complete'", SECONDS)
        return page

    def end(self):
        self.run.terminate()
        self.run.wait(SECONDS)
        self.folder.cleanup()


class Page:
    """One page of a browser."""

    def __init__(self, link):
        self.link, self.count, self.faults = link, 0, []

    def call(self, method, **parameters):
        """Calls the browser and answers its result. What the page's script throws meanwhile is kept in `faults`."""
        self.count += 1
        self.link.send(json.dumps({"id": self.count, "method": method, "params": parameters}))
        while True:
            told = json.loads(self.link.receive())
            if told.get("method") == "Runtime.exceptionThrown":
                self.faults.append(told["params"]["exceptionDetails"].get("exception", {}).get("description", "a fault"))
            if told.get("id") == self.count:
                if "error" in told:
                    raise RuntimeError(f"{method}: {told['error']}")
                return told["result"]

    def ask(self, script):
        """The value of an expression on the page."""
        told = self.call("Runtime.evaluate", expression=script, returnByValue=True, awaitPromise=True)
        if "exceptionDetails" in told:
            raise RuntimeError(f"{script}: {told['exceptionDetails'].get('exception', {}).get('description')}")
        return told["result"].get("value")

    def wait(self, script, seconds=10):
        """Whether an expression comes to hold, looked at every 10 ms. One of something that isn't there yet doesn't hold."""
        deadline = time.monotonic() + seconds
        while time.monotonic() < deadline:
            if self.ask(f"(() => {{ try {{ return {script}; }} catch (fault) {{ if (fault instanceof TypeError) return false; throw fault; }} }})()"):
                return True
            time.sleep(0.01)
        return False

    def size(self, wide, high):
        self.call("Emulation.setDeviceMetricsOverride", width=wide, height=high, deviceScaleFactor=1, mobile=False)

    def click(self, script):
        """Clicks the middle of the element that an expression names, by the mouse."""
        x, y = self.ask(f"(() => {{ const it = {script}; it.scrollIntoView({{block: 'nearest'}}); const box = it.getBoundingClientRect();"
                        " return [box.x + box.width / 2, box.y + box.height / 2]; })()")
        for kind in ("mousePressed", "mouseReleased"):
            self.call("Input.dispatchMouseEvent", type=kind, x=x, y=y, button="left", clickCount=1)

    def keys(self, *names):
        """Presses keys one after the other: names of KEYS, or letters."""
        for name in names:
            more = {"windowsVirtualKeyCode": KEYS[name]} if name in KEYS else {}
            text = "\r" if name == "Enter" else "" if name in KEYS else name
            self.call("Input.dispatchKeyEvent", type="keyDown", key=name, code=name if name in KEYS else "", text=text, **more)
            self.call("Input.dispatchKeyEvent", type="keyUp", key=name, code=name if name in KEYS else "", **more)

    def picture(self, path):
        """Writes what is seen as a PNG."""
        path.write_bytes(base64.b64decode(self.call("Page.captureScreenshot", format="png")["data"]))
