"""A headless Chromium that is driven over a pipe, by the protocol of its developer tools."""

import base64
import json
import os
import re
import select
import shutil
import subprocess
import tempfile
import time

NAMES = ["chromium", "chromium-browser", "google-chrome", "google-chrome-stable"]
# The first version whose WebAssembly has 64-bit memory unless it is asked not to
LEAST = 133
SECONDS = 120
FLAGS = [
    "--headless=new", "--no-sandbox", "--disable-gpu", "--no-first-run", "--disable-extensions",
    "--disable-background-networking", "--disable-sync", "--disable-dev-shm-usage", "--hide-scrollbars",
    "--force-color-profile=srgb", "--enable-precise-memory-info", "--remote-debugging-pipe",
]


class Failed(Exception):
    """The browser did not do what it was asked."""


def found():
    """Returns the path of a browser, and why there is none if that is None."""
    path = next(filter(None, map(shutil.which, NAMES)), None)
    if path is None:
        return None, "chromium is not on this machine"
    said = subprocess.run([path, "--version"], capture_output=True, text=True).stdout
    version = re.search(r"(\d+)\.", said)
    if version is None or int(version[1]) < LEAST:
        return None, f"chromium is older than {LEAST}"
    return path, None


class Browser:
    """A browser with one page."""

    def __init__(self, path):
        self.folder = tempfile.mkdtemp()
        inward, to_browser = os.pipe()
        from_browser, outward = os.pipe()
        # The browser reads its descriptor 3, and writes to 4.
        command = f'exec "$@" 3<&{inward} 4>&{outward}'
        words = [path, *FLAGS, f"--user-data-dir={self.folder}", "about:blank"]
        self.process = subprocess.Popen(
            ["bash", "-c", command, "bash", *words], pass_fds=[inward, outward],
            stdin=subprocess.DEVNULL, stdout=subprocess.DEVNULL, stderr=subprocess.DEVNULL)
        os.close(inward)
        os.close(outward)
        self.output, self.input, self.rest, self.count = to_browser, from_browser, b"", 0
        self.session, self.errors, self.events = None, [], []
        target = self.call("Target.createTarget", url="about:blank")["targetId"]
        self.session = self.call("Target.attachToTarget", targetId=target, flatten=True)["sessionId"]
        for domain in ("Page", "Runtime", "Log", "DOM"):
            self.call(f"{domain}.enable")
        self.call("Performance.enable", timeDomain="threadTicks")

    def close(self):
        """Ends the browser."""
        self.process.kill()
        self.process.wait()
        os.close(self.output)
        os.close(self.input)
        shutil.rmtree(self.folder, ignore_errors=True)

    # ---- the protocol

    def send(self, message):
        """Sends a message."""
        content = memoryview(json.dumps(message).encode() + b"\0")
        while content:
            content = content[os.write(self.output, content):]

    def receive(self, until):
        """Returns the next message. An error if none comes before a time."""
        while b"\0" not in self.rest:
            ready, _, _ = select.select([self.input], [], [], max(0, until - time.monotonic()))
            piece = os.read(self.input, 1 << 20) if ready else b""
            if not piece:
                raise Failed("the browser does not answer")
            self.rest += piece
        message, _, self.rest = self.rest.partition(b"\0")
        return json.loads(message)

    def call(self, method, **params):
        """Calls a method, and returns its result."""
        self.count += 1
        number, until = self.count, time.monotonic() + SECONDS
        session = {} if self.session is None else {"sessionId": self.session}
        self.send({"id": number, "method": method, "params": params, **session})
        while True:
            message = self.receive(until)
            if message.get("id") == number:
                if "error" in message:
                    raise Failed(f"{method}: {message['error']['message']}")
                return message["result"]
            self.take(message)

    def take(self, message):
        """Takes an event."""
        method, params = message.get("method"), message.get("params", {})
        self.events.append(method)
        if method == "Runtime.exceptionThrown":
            details = params["exceptionDetails"]
            self.errors.append(details.get("exception", {}).get("description", details["text"]))
        elif method == "Runtime.consoleAPICalled" and params["type"] in ("error", "assert"):
            self.errors.append(str(params["args"]))
        elif method == "Log.entryAdded" and params["entry"]["level"] == "error":
            self.errors.append(params["entry"]["text"])

    # ---- the page

    def open(self, path):
        """Opens a file, and waits until it is loaded. Returns the errors of the page before."""
        errors, self.errors, self.events = self.errors, [], []
        self.call("Page.navigate", url=f"file://{path}")
        until = time.monotonic() + SECONDS
        while "Page.loadEventFired" not in self.events:
            self.take(self.receive(until))
        return errors

    def value(self, expression):
        """Returns the value of an expression in the page, or of its promise."""
        result = self.call(
            "Runtime.evaluate", expression=expression, awaitPromise=True, returnByValue=True)
        if "exceptionDetails" in result:
            details = result["exceptionDetails"]
            raise Failed(details.get("exception", {}).get("description", details["text"]))
        return result["result"].get("value")

    def metric(self, name):
        """Returns a number that the browser has of the page."""
        metrics = self.call("Performance.getMetrics")["metrics"]
        return next(it["value"] for it in metrics if it["name"] == name)

    def wait(self, expression):
        """Waits until an expression is true in the page."""
        until = time.monotonic() + SECONDS
        while not self.value(expression):
            if time.monotonic() > until:
                raise Failed(f"it stays false: {expression}")
            time.sleep(0.02)

    def choose(self, selector, paths):
        """Gives a field the files that it is to have."""
        root = self.call("DOM.getDocument")["root"]["nodeId"]
        node = self.call("DOM.querySelector", nodeId=root, selector=selector)["nodeId"]
        self.call("DOM.setFileInputFiles", nodeId=node, files=paths)

    def drag(self, x, y, *paths):
        """Drags files to a point of the page, and drops them there."""
        data = {"items": [], "files": paths, "dragOperationsMask": 1}
        for kind in ("dragEnter", "dragOver", "drop"):
            self.call("Input.dispatchDragEvent", type=kind, x=x, y=y, data=data)

    def key(self, name):
        """Presses a key, by its name or letter."""
        text = {"Enter": "\r"}.get(name, name if len(name) == 1 else "")
        codes = {"Enter": 13, "Tab": 9, "Escape": 27, "Backspace": 8, "ArrowDown": 40, "ArrowUp": 38}
        key = {"key": name, "windowsVirtualKeyCode": codes.get(name, ord(name[0].upper()))}
        self.call("Input.dispatchKeyEvent", type="keyDown" if text else "rawKeyDown", text=text, **key)
        self.call("Input.dispatchKeyEvent", type="keyUp", **key)

    def screen(self, width, height, scheme, scale=1):
        """Makes the page this large, and light or dark."""
        self.call("Emulation.setDeviceMetricsOverride",
                  width=width, height=height, deviceScaleFactor=scale, mobile=False)
        features = [{"name": "prefers-color-scheme", "value": scheme}]
        self.call("Emulation.setEmulatedMedia", features=features)

    def picture(self, **options):
        """Returns a picture of what is seen of the page, as PNG. `clip` says of which part."""
        return base64.b64decode(self.call("Page.captureScreenshot", format="png", **options)["data"])
