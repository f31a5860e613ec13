# SPDX-License-Identifier: Apache-2.0
"""Chromium without a window, driven over a pipe by the protocol of its developer tools."""
import base64
import fcntl
import json
import os
import select
import shutil
import signal
import subprocess
import tempfile
import time

CHROMIUM = shutil.which("chromium")
FLAGS = (
    "--headless", "--remote-debugging-pipe", "--no-first-run", "--disable-background-networking", "--disable-component-update",
    "--disable-dev-shm-usage", "--use-gl=angle", "--use-angle=swiftshader", "--enable-unsafe-swiftshader", "--force-device-scale-factor=1",
    "--window-size=1280,800",
)  # fmt: skip
SECONDS = 120


class Browser:
    """A browser with one page. It is a context, and ends with its profile and all its processes."""

    def __enter__(self):
        self.profile = tempfile.TemporaryDirectory(ignore_cleanup_errors=True)
        ours, theirs = os.pipe(), os.pipe()
        given = [fcntl.fcntl(it, fcntl.F_DUPFD, 10) for it in (ours[0], theirs[1])]
        root = ["--no-sandbox"] if not os.geteuid() else []

        def place():
            os.dup2(given[0], 3)
            os.dup2(given[1], 4)

        self.process = subprocess.Popen(
            [CHROMIUM, *FLAGS, *root, f"--user-data-dir={self.profile.name}", "about:blank"], pass_fds=(3, 4), preexec_fn=place,
            stdin=subprocess.DEVNULL, stdout=subprocess.DEVNULL, stderr=subprocess.DEVNULL, start_new_session=True,
            env={**os.environ, "HOME": self.profile.name},
        )  # fmt: skip
        for it in (*given, ours[0], theirs[1]):
            os.close(it)
        self.out, self.back, self.read, self.number, self.told = ours[1], theirs[0], b"", 0, []
        target = self.call("Target.createTarget", url="about:blank")["targetId"]
        self.session = self.call("Target.attachToTarget", targetId=target, flatten=True)["sessionId"]
        for part in ("Page", "Runtime", "Log"):
            self.call(f"{part}.enable")
        return self

    def __exit__(self, *_):
        os.killpg(self.process.pid, signal.SIGKILL)
        self.process.wait()
        os.close(self.out)
        os.close(self.back)
        self.profile.cleanup()

    session = None

    def call(self, method, **parameters):
        """Calls a method of the protocol, of the page if there is one. Returns its result."""
        self.number += 1
        asked = {"id": self.number, "method": method, "params": parameters, **({"sessionId": self.session} if self.session else {})}
        os.write(self.out, json.dumps(asked).encode() + b"\0")
        while True:
            said = self.message()
            if said.get("id") == self.number:
                if "error" in said:
                    raise RuntimeError(f"{method}: {said['error']}")
                return said["result"]

    def message(self):
        """Returns the next message of the browser. What the page has said to the console, and its errors, are noted in `told`."""
        end = time.monotonic() + SECONDS
        while b"\0" not in self.read:
            if not select.select([self.back], [], [], max(0, end - time.monotonic()))[0]:
                raise TimeoutError("the browser says nothing")
            part = os.read(self.back, 1 << 16)
            if not part:
                raise EOFError("the browser has ended")
            self.read += part
        text, _, self.read = self.read.partition(b"\0")
        said = json.loads(text)
        if said.get("method") in ("Runtime.consoleAPICalled", "Runtime.exceptionThrown", "Log.entryAdded"):
            self.told.append(json.dumps(said["params"]))
        return said

    def value(self, expression):
        """Returns the value of an expression of JavaScript in the page."""
        found = self.call("Runtime.evaluate", expression=expression, returnByValue=True, awaitPromise=True)
        if "exceptionDetails" in found:
            raise RuntimeError(f"{expression}: {found['exceptionDetails']}")
        return found["result"].get("value")

    def wait(self, expression):
        """Waits until an expression is true."""
        end = time.monotonic() + SECONDS
        while not self.value(expression):
            if time.monotonic() > end:
                raise TimeoutError(expression)
            time.sleep(0.02)

    def mouse(self, kind, x, y, **more):
        """Sends an event of the mouse, such as mousePressed, at a place of the window in pixels."""
        self.call("Input.dispatchMouseEvent", type=kind, x=x, y=y, **more)

    def click(self, x, y):
        """Presses and releases the left button."""
        for kind, buttons in (("mousePressed", 1), ("mouseReleased", 0)):
            self.mouse(kind, x, y, button="left", buttons=buttons, clickCount=1)

    def key(self, name):
        """Presses a key by its name."""
        for kind in ("keyDown", "keyUp"):
            self.call("Input.dispatchKeyEvent", type=kind, key=name)

    def screenshot(self):
        """Returns a PNG of the window."""
        return base64.b64decode(self.call("Page.captureScreenshot", format="png")["data"])
