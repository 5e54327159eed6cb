"""Drives a headless Chromium by the DevTools protocol, over the two pipes of --remote-debugging-pipe."""
import base64
import json
import os
import shutil
import subprocess
import tempfile
import time

NAMES = ("chromium", "chromium-browser", "google-chrome")
SECONDS = 120


def program():
    """Returns the path of the browser, or None."""
    return next(filter(None, map(shutil.which, NAMES)), None)


class Browser:
    """A browser with one page."""

    def __init__(self, url, width=1280, height=1000):
        self.profile = tempfile.mkdtemp()
        self.last, self.session, self.said = 0, None, []
        commands, self.to = os.pipe()
        self.got, answers = os.pipe()
        # The browser reads commands from its file 3 and writes answers to its file 4.
        words = ["bash", "-c", f'exec "$0" "$@" 3<&{commands} 4>&{answers}', program(), "--headless=new", "--no-sandbox", "--disable-gpu", "--disable-dev-shm-usage"]
        words += ["--hide-scrollbars", "--remote-debugging-pipe", f"--user-data-dir={self.profile}", f"--window-size={width},{height}", "about:blank"]
        self.child = subprocess.Popen(words, pass_fds=(commands, answers), stdout=subprocess.DEVNULL, stderr=subprocess.DEVNULL)
        os.close(commands)
        os.close(answers)
        self.buffer = b""
        target = self.call("Target.createTarget", url="about:blank")["targetId"]
        self.session = self.call("Target.attachToTarget", targetId=target, flatten=True)["sessionId"]
        for domain in ("Page", "Runtime", "Log", "DOM"):
            self.call(f"{domain}.enable")
        self.call("Page.navigate", url=url)

    def message(self):
        """Returns the next message of the browser."""
        while b"\0" not in self.buffer:
            piece = os.read(self.got, 1 << 20)
            if not piece:
                raise RuntimeError("the browser ended")
            self.buffer += piece
        text, self.buffer = self.buffer.split(b"\0", 1)
        return json.loads(text)

    def call(self, method, **words):
        """Calls a method of the protocol. What the page complains of meanwhile is kept in `said`."""
        self.last += 1
        asked = {"id": self.last, "method": method, "params": words, **({"sessionId": self.session} if self.session else {})}
        os.write(self.to, json.dumps(asked).encode() + b"\0")
        while True:
            message = self.message()
            if message.get("id") == self.last:
                if "error" in message:
                    raise RuntimeError(f"{method}: {message['error']}")
                return message["result"]
            if message.get("method") in ("Runtime.exceptionThrown", "Log.entryAdded"):
                self.said.append(json.dumps(message["params"])[:400])

    def value(self, expression):
        """Returns the value of an expression of JavaScript in the page."""
        told = self.call("Runtime.evaluate", expression=expression, awaitPromise=True, returnByValue=True)
        if "exceptionDetails" in told:
            raise RuntimeError(json.dumps(told["exceptionDetails"])[:600])
        return told["result"].get("value")

    def until(self, condition):
        """Waits until an expression is true."""
        end = time.monotonic() + SECONDS
        while not self.value(f"Boolean({condition})"):
            if time.monotonic() > end:
                raise RuntimeError(f"not within {SECONDS} seconds: {condition}")
            time.sleep(0.02)

    def choose(self, selector, files):
        """Chooses files, as a person does."""
        root = self.call("DOM.getDocument")["root"]["nodeId"]
        node = self.call("DOM.querySelector", nodeId=root, selector=selector)["nodeId"]
        self.call("DOM.setFileInputFiles", files=list(map(os.path.abspath, files)), nodeId=node)

    def picture(self, path, width, dark=False, height=4000):
        """Writes a picture of the whole page at a width."""
        self.call("Emulation.setEmulatedMedia", features=[{"name": "prefers-color-scheme", "value": "dark" if dark else "light"}])
        self.call("Emulation.setDeviceMetricsOverride", width=width, height=1000, deviceScaleFactor=1, mobile=False)
        size = self.call("Page.getLayoutMetrics")["cssContentSize"]
        clip = {"x": 0, "y": 0, "width": width, "height": min(size["height"], height), "scale": 1}
        shot = self.call("Page.captureScreenshot", format="png", captureBeyondViewport=True, clip=clip)
        with open(path, "wb") as file:
            file.write(base64.b64decode(shot["data"]))
        return size["width"]

    def close(self):
        """Ends the browser."""
        self.child.terminate()
        self.child.wait()
        os.close(self.to)
        os.close(self.got)
        shutil.rmtree(self.profile, ignore_errors=True)

    def __enter__(self):
        return self

    def __exit__(self, *_):
        self.close()
