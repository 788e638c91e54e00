"""A headless Chromium that a test drives, by --remote-debugging-pipe: requests and answers are JSON, a NUL behind each."""
import base64
import json
import os
import select
import shutil
import subprocess
import tempfile
import time

from harness import PATIENCE

NAMES = ("chromium", "chromium-browser", "google-chrome")


def found():
    """The path of a Chromium, or None."""
    return next((path for path in map(shutil.which, NAMES) if path), None)


class Browser:
    def __init__(self, path, width=1440, height=860):
        self.folder = tempfile.mkdtemp()
        theirs, self.requests = os.pipe()
        self.answers, ours = os.pipe()

        def place():  # the browser reads from descriptor 3 and writes to 4
            first, second = os.dup(theirs), os.dup(ours)
            os.dup2(first, 3)
            os.dup2(second, 4)

        words = [path, "--headless=new", "--remote-debugging-pipe", "--no-sandbox", "--disable-gpu", "--hide-scrollbars", "--no-first-run",
                 "--disable-extensions", "--disable-dev-shm-usage", "--user-data-dir=" + self.folder, f"--window-size={width},{height}", "about:blank"]  # fmt: skip
        self.process = subprocess.Popen(words, pass_fds=(3, 4, theirs, ours), preexec_fn=place, stdin=subprocess.DEVNULL, stdout=subprocess.DEVNULL, stderr=subprocess.DEVNULL)
        os.close(theirs)
        os.close(ours)
        self.number, self.kept, self.events, self.session = 0, b"", [], None
        target = self.ask("Target.createTarget", url="about:blank")["targetId"]
        self.session = self.ask("Target.attachToTarget", targetId=target, flatten=True)["sessionId"]
        for domain in "Page", "Runtime", "Log":
            self.ask(domain + ".enable")
        self.ask("Emulation.setDeviceMetricsOverride", width=width, height=height, deviceScaleFactor=1, mobile=False)

    def message(self, until):
        """The next message, or None once the time is over."""
        while b"\0" not in self.kept:
            if not select.select([self.answers], [], [], max(until - time.monotonic(), 0))[0]:
                return None
            got = os.read(self.answers, 1 << 20)
            if not got:
                raise RuntimeError("the browser is gone")
            self.kept += got
        text, _, self.kept = self.kept.partition(b"\0")
        return json.loads(text)

    def ask(self, method, **words):
        self.number += 1
        request = {"id": self.number, "method": method, "params": words}
        if self.session:
            request["sessionId"] = self.session
        data = json.dumps(request).encode() + b"\0"
        while data:
            data = data[os.write(self.requests, data) :]
        until = time.monotonic() + PATIENCE
        while (message := self.message(until)) is not None:
            if message.get("id") == self.number:
                if "error" in message:
                    raise RuntimeError(f"{method}: {message['error']['message']}")
                return message["result"]
            self.events.append(message)
        raise RuntimeError(f"{method}: no answer")

    def wait_for(self, method):
        until = time.monotonic() + PATIENCE
        while True:
            for k, event in enumerate(self.events):
                if event.get("method") == method:
                    return self.events.pop(k)["params"]
            event = self.message(until)
            if event is None:
                raise RuntimeError(f"{method} never came")
            self.events.append(event)

    def value(self, expression):
        """What an expression comes to in the page; a promise is waited for."""
        result = self.ask("Runtime.evaluate", expression=expression, returnByValue=True, awaitPromise=True)
        if "exceptionDetails" in result:
            raise RuntimeError(result["exceptionDetails"].get("exception", {}).get("description", "an exception"))
        return result["result"].get("value")

    def until(self, expression):
        """Waits until an expression is true in the page."""
        end = time.monotonic() + PATIENCE
        while not self.value(expression):
            if time.monotonic() > end:
                raise RuntimeError(f"never so: {expression}")
            time.sleep(0.02)

    def open(self, path):
        self.ask("Page.navigate", url="file://" + os.path.abspath(path))
        self.until("document.readyState === 'complete' && document.documentElement.dataset.opened !== undefined")

    def key(self, key, shift=False):
        text = key if len(key) == 1 else {"Enter": "\r"}.get(key, "")
        words = {"key": key, "text": text, "modifiers": 8 if shift else 0, "windowsVirtualKeyCode": {"Enter": 13, "Tab": 9, "Escape": 27}.get(key, 0)}
        self.ask("Input.dispatchKeyEvent", type="keyDown", **words)
        self.ask("Input.dispatchKeyEvent", type="keyUp", **{**words, "text": ""})

    def mouse(self, kind, x, y, **more):
        self.ask("Input.dispatchMouseEvent", type=kind, x=x, y=y, **more)

    def click(self, x, y):
        self.mouse("mousePressed", x, y, button="left", clickCount=1)
        self.mouse("mouseReleased", x, y, button="left", clickCount=1)

    def touch(self, kind, *points):
        self.ask("Input.dispatchTouchEvent", type=kind, touchPoints=[{"x": x, "y": y, "id": k} for k, (x, y) in enumerate(points)])

    def screenshot(self, path):
        data = base64.b64decode(self.ask("Page.captureScreenshot", format="png")["data"])
        with open(path, "wb") as file:
            file.write(data)

    def opened(self):
        """After how many milliseconds a page was there that says so."""
        return self.value("Number(document.documentElement.dataset.opened)")

    def while_it_zooms(self, seconds):
        """How many frames a second are shown while the wheel turns over a page of iovad-view, in and out by turns, and how many
        milliseconds of a processor each frame takes of the page's thread, rising: by the browser's own trace."""
        self.events = [event for event in self.events if event.get("method") != "Tracing.dataCollected"]
        self.ask("Tracing.start", categories="devtools.timeline,disabled-by-default-devtools.timeline.frame", transferMode="ReportEvents")
        self.value(f"""new Promise((done) => {{
          const begun = performance.now();
          (function turn() {{
            const now = performance.now() - begun;
            canvas.dispatchEvent(new WheelEvent("wheel", {{ deltaY: now % 1000 < 500 ? -40 : 40, clientX: 600, clientY: 400, cancelable: true }}));
            now < {seconds} * 1000 ? requestAnimationFrame(turn) : done();
          }})();
        }})""")
        self.ask("Tracing.end")
        self.wait_for("Tracing.tracingComplete")
        events = [event for told in self.events if told.get("method") == "Tracing.dataCollected" for event in told["params"]["value"]]
        took = sorted(event["tdur"] / 1000 for event in events if event["name"] == "FireAnimationFrame" and "tdur" in event)
        return sum(event["name"] == "DrawFrame" for event in events) / seconds, took

    def complaints(self):
        """Errors and warnings of the console so far, and exceptions."""
        told = []
        for event in self.events:
            words = event.get("params", {})
            if event.get("method") == "Runtime.exceptionThrown":
                told.append(words["exceptionDetails"].get("exception", {}).get("description", words["exceptionDetails"].get("text")))
            elif event.get("method") == "Runtime.consoleAPICalled" and words["type"] in ("error", "warning", "assert"):
                told.append(" ".join(str(word.get("value")) for word in words["args"]))
            elif event.get("method") == "Log.entryAdded" and words["entry"]["level"] in ("error", "warning"):
                told.append(words["entry"]["text"])
        return told

    def close(self):
        try:
            self.ask("Browser.close")
        except (RuntimeError, OSError):
            pass
        os.close(self.requests)
        os.close(self.answers)
        try:
            self.process.wait(10)
        except subprocess.TimeoutExpired:
            self.process.kill()
            self.process.wait()
        shutil.rmtree(self.folder, ignore_errors=True)
