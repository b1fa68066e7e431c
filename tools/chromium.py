"""Drives chromium without a window, by the DevTools protocol over two pipes: no network and no other package."""

import base64
import json
import os
import select
import shutil
import subprocess
import tempfile
import time

NAMES = ("chromium", "chromium-browser", "google-chrome")
WAIT = 300


def program():
    """The browser, or None."""
    return next((path for path in map(shutil.which, NAMES) if path), None)


class Browser:
    """A running browser with one page. What goes wrong in the page's scripts is kept."""

    def __init__(self, width=1280, height=800):
        self.room = tempfile.TemporaryDirectory(ignore_cleanup_errors=True)
        theirs_in, self.out = os.pipe()
        self.inp, theirs_out = os.pipe()
        flags = ["--headless", "--no-sandbox", "--disable-gpu", "--hide-scrollbars", "--no-first-run", "--disable-extensions", "--disable-dev-shm-usage"]
        flags += ["--disable-background-networking", "--remote-debugging-pipe", f"--user-data-dir={self.room.name}", f"--window-size={width},{height}"]
        # the browser reads at 3 and writes at 4
        shell = 'exec 3<&"$0" 4>&"$1"; shift; exec "$@"'
        self.process = subprocess.Popen(
            ["bash", "-c", shell, str(theirs_in), str(theirs_out), program(), *flags, "about:blank"],
            pass_fds=(theirs_in, theirs_out),
            stdout=subprocess.DEVNULL,
            stderr=subprocess.DEVNULL,
        )
        os.close(theirs_in)
        os.close(theirs_out)
        self.number, self.rest, self.events, self.faults = 0, b"", [], []
        target = self.call("Target.createTarget", url="about:blank")["targetId"]
        self.session = self.call("Target.attachToTarget", targetId=target, flatten=True)["sessionId"]
        for domain in ("Page", "Runtime"):
            self.do(f"{domain}.enable")
        self.do("Emulation.setDeviceMetricsOverride", width=width, height=height, deviceScaleFactor=1, mobile=False)

    def close(self):
        try:
            self.call("Browser.close")
            self.process.wait(20)
        except (OSError, subprocess.TimeoutExpired):
            self.process.kill()
            self.process.wait()
        os.close(self.inp)
        os.close(self.out)
        self.room.cleanup()

    def __enter__(self):
        return self

    def __exit__(self, *_):
        self.close()

    def call(self, method, session=None, **parameters):
        """What the browser answers to a call."""
        self.number += 1
        message = {"id": self.number, "method": method, "params": parameters}
        if session:
            message["sessionId"] = session
        os.write(self.out, json.dumps(message).encode() + b"\0")
        while True:
            answer = self.message()
            if answer.get("id") == self.number:
                if "error" in answer:
                    raise OSError(f"{method}: {answer['error']['message']}")
                return answer["result"]
            self.keep(answer)

    def do(self, method, **parameters):
        """The same of the page."""
        return self.call(method, self.session, **parameters)

    def message(self):
        end = time.monotonic() + WAIT
        while b"\0" not in self.rest:
            if not select.select([self.inp], [], [], max(0, end - time.monotonic()))[0]:
                raise OSError("the browser does not answer")
            got = os.read(self.inp, 1 << 20)
            if not got:
                raise OSError("the browser ended")
            self.rest += got
        first, self.rest = self.rest.split(b"\0", 1)
        return json.loads(first)

    def keep(self, message):
        method = message.get("method")
        if method == "Runtime.exceptionThrown":
            details = message["params"]["exceptionDetails"]
            self.faults.append(details.get("exception", {}).get("description", details["text"]))
        elif method:
            self.events.append(method)

    def open(self, path):
        """Opens a file's page, and waits until it is loaded and drawn."""
        self.events.clear()
        self.faults.clear()
        self.do("Page.navigate", url=f"file://{os.path.abspath(path)}")
        while "Page.loadEventFired" not in self.events:
            self.keep(self.message())
        self.rest_of_frame()

    def rest_of_frame(self):
        """Waits for two frames."""
        self.value("new Promise(done => requestAnimationFrame(() => requestAnimationFrame(() => done(1))))")

    def value(self, expression):
        """What an expression is in the page."""
        answer = self.do("Runtime.evaluate", expression=expression, returnByValue=True, awaitPromise=True)
        if "exceptionDetails" in answer:
            raise OSError(answer["exceptionDetails"].get("exception", {}).get("description", expression))
        return answer["result"].get("value")

    def mouse(self, kind, x, y, **more):
        """What the mouse does at a place of the window."""
        self.do("Input.dispatchMouseEvent", type=kind, x=x, y=y, **more)

    def click(self, x, y):
        """A click of the mouse at a place of the window."""
        for kind in ("mouseMoved", "mousePressed", "mouseReleased"):
            self.mouse(kind, x, y, button="none" if kind == "mouseMoved" else "left", clickCount=1)
        self.rest_of_frame()

    def click_on(self, name):
        """A click in the middle of the element with an id, which is scrolled into view."""
        spot = f"(e => (e.scrollIntoView({{block: 'center'}}), e = e.getBoundingClientRect(), [e.left + Math.min(80, e.width / 2), e.top + e.height / 2]))(document.getElementById({name!r}))"
        self.click(*self.value(spot))

    def picture(self, path):
        """Puts a picture of the window into a file."""
        with open(path, "wb") as file:
            file.write(base64.b64decode(self.do("Page.captureScreenshot", format="png")["data"]))

    def clock(self):
        """The clock of the processor's time that the page's process takes, with all its threads."""
        self.do("Performance.enable")
        spent = next(row["value"] for row in self.do("Performance.getMetrics")["metrics"] if row["name"] == "ProcessTime")
        # each process has a clock by its number; the page tells its own in hundredths of a second
        clocks = [(~row["id"] << 3) | 2 for row in self.call("SystemInfo.getProcessInfo")["processInfo"] if row["type"] == "renderer"]
        return min(clocks, key=lambda clock: abs(time.clock_gettime(clock) - spent))
