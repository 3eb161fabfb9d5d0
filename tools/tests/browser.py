"""A headless Chromium, driven by its own protocol over two pipes."""
import base64
import json
import os
import shutil
import subprocess
import tempfile
import time

NAMES = ("chromium", "chromium-browser", "google-chrome", "chrome")
# of keys that are no letters
NUMBERS = {"ArrowRight": 39, "ArrowLeft": 37, "End": 35, "Home": 36, "Tab": 9}
PATIENCE = 40  # seconds for one answer


def path_of_chromium():
    return next((path for path in map(shutil.which, NAMES) if path), None)


class Browser:
    """One page of a browser. `complaints` are the errors of its console and of its scripts."""

    def __init__(self, width=1280, height=800):
        self.folder = tempfile.mkdtemp()
        into, self.out = os.pipe()
        self.into, out = os.pipe()
        # the browser reads at 3 and writes at 4; --no-sandbox, since tests may be run by root in a container
        words = ["--headless", "--no-sandbox", "--disable-gpu", "--remote-debugging-pipe", f"--user-data-dir={self.folder}", "about:blank"]
        script = f'exec "$0" "$@" 3<&{into} 4>&{out}'
        self.process = subprocess.Popen(["bash", "-c", script, path_of_chromium(), *words], pass_fds=(into, out),
                                        stdin=subprocess.DEVNULL, stdout=subprocess.DEVNULL, stderr=subprocess.DEVNULL)
        os.close(into)
        os.close(out)
        self.held, self.number, self.session, self.complaints, self.events = b"", 0, None, [], set()
        targets = self.call("Target.getTargets")["targetInfos"]
        page = next(it["targetId"] for it in targets if it["type"] == "page")
        self.session = self.call("Target.attachToTarget", targetId=page, flatten=True)["sessionId"]
        for domain in ("Page", "Runtime", "Log"):
            self.call(f"{domain}.enable")
        self.resize(width, height)

    def resize(self, width, height):
        self.call("Emulation.setDeviceMetricsOverride", width=width, height=height, deviceScaleFactor=1, mobile=width < 600)

    def read(self):
        """Returns the next message."""
        limit = time.monotonic() + PATIENCE
        while b"\0" not in self.held:
            piece = os.read(self.into, 1 << 16)
            if not piece or time.monotonic() > limit:
                raise RuntimeError("the browser does not answer")
            self.held += piece
        message, _, self.held = self.held.partition(b"\0")
        return json.loads(message.decode())

    def note(self, message):
        method, about = message.get("method"), message.get("params", {})
        self.events.add(method)
        if method == "Runtime.exceptionThrown":
            self.complaints.append(about["exceptionDetails"].get("exception", {}).get("description", "an exception"))
        if method == "Runtime.consoleAPICalled" and about["type"] in ("error", "warning"):
            self.complaints.append(str(about["args"]))
        if method == "Log.entryAdded" and about["entry"]["level"] in ("error", "warning"):
            self.complaints.append(about["entry"]["text"])

    def call(self, method, **params):
        self.number += 1
        message = {"id": self.number, "method": method, "params": params}
        if self.session:
            message["sessionId"] = self.session
        os.write(self.out, json.dumps(message).encode() + b"\0")
        while True:
            answer = self.read()
            if answer.get("id") == self.number:
                if "error" in answer:
                    raise RuntimeError(f"{method}: {answer['error']}")
                return answer["result"]
            self.note(answer)

    def open(self, path):
        """Opens a file, and returns the seconds until its scripts have run."""
        self.events.discard("Page.loadEventFired")
        start = time.monotonic()
        self.call("Page.navigate", url=f"file://{path}")
        while "Page.loadEventFired" not in self.events:
            self.note(self.read())
        return time.monotonic() - start

    def value(self, expression):
        result = self.call("Runtime.evaluate", expression=expression, returnByValue=True)
        if "exceptionDetails" in result:
            raise RuntimeError(str(result["exceptionDetails"]))
        return result["result"].get("value")

    def press(self, key, code=None, text=None):
        about = {"key": key, "code": code or key, "windowsVirtualKeyCode": NUMBERS.get(key, 0)}
        if text:
            about["text"] = text
        self.call("Input.dispatchKeyEvent", type="keyDown", **about)
        self.call("Input.dispatchKeyEvent", type="keyUp", **about)

    def picture(self, path):
        data = self.call("Page.captureScreenshot", format="png")["data"]
        with open(path, "wb") as file:
            file.write(base64.b64decode(data))

    def close(self):
        self.process.terminate()
        self.process.wait()
        os.close(self.into)
        os.close(self.out)
        shutil.rmtree(self.folder, ignore_errors=True)
