"""Drives a headless Chromium through its debugging pipe."""
import itertools
import json
import os
import select
import shutil
import subprocess
import tempfile
import time


class Chromium:
    """A running browser. Its commands are those of the Chrome DevTools Protocol."""

    def __init__(self, seconds=120):
        self.folder = tempfile.mkdtemp(prefix="chromium-")
        self.deadline = seconds
        to_read, self.writes = os.pipe()
        self.reads, to_write = os.pipe()
        options = ["--headless=new", "--no-sandbox", "--disable-gpu", "--disable-dev-shm-usage", "--hide-scrollbars", "--no-first-run",
                   "--disable-extensions", "--disable-background-networking", "--font-render-hinting=none",
                   f"--user-data-dir={self.folder}", "--remote-debugging-pipe"]

        def pass_pipes():  # the browser reads commands from descriptor 3, and writes answers to descriptor 4
            copies = os.dup(to_read), os.dup(to_write)
            high = [os.dup2(copy, 100 + place, inheritable=True) for place, copy in enumerate(copies)]
            os.dup2(high[0], 3)
            os.dup2(high[1], 4)

        self.process = subprocess.Popen(["chromium", *options, "about:blank"], stdin=subprocess.DEVNULL, stdout=subprocess.DEVNULL,
                                        stderr=subprocess.DEVNULL, close_fds=False, preexec_fn=pass_pipes)
        os.close(to_read)
        os.close(to_write)
        self.numbers, self.rest, self.events, self.session = itertools.count(1), b"", [], None
        self.session = self.call("Target.attachToTarget", targetId=self.first_page(), flatten=True)["sessionId"]
        for domain in ("Page", "Runtime", "Log", "Network"):
            self.call(f"{domain}.enable")
        self.call("Page.setLifecycleEventsEnabled", enabled=True)

    def __enter__(self):
        return self

    def __exit__(self, *_):
        self.process.kill()
        self.process.wait()
        os.close(self.writes)
        os.close(self.reads)
        shutil.rmtree(self.folder, ignore_errors=True)

    def first_page(self):
        """Returns the id of the page that the browser opens at its start, once it is there."""
        until = time.monotonic() + self.deadline
        while time.monotonic() < until:
            for target in self.call("Target.getTargets")["targetInfos"]:
                if target["type"] == "page":
                    return target["targetId"]
            time.sleep(.05)
        raise TimeoutError("the browser opens no page")

    def receive(self, until):
        while b"\0" not in self.rest:
            if not select.select([self.reads], [], [], max(0, until - time.monotonic()))[0]:
                raise TimeoutError("the browser doesn't answer")
            chunk = os.read(self.reads, 1 << 20)
            if not chunk:
                raise EOFError("the browser ended")
            self.rest += chunk
        message, self.rest = self.rest.split(b"\0", 1)
        return json.loads(message)

    def call(self, method, **parameters):
        number, until = next(self.numbers), time.monotonic() + self.deadline
        command = {"id": number, "method": method, "params": parameters, **({"sessionId": self.session} if self.session else {})}
        os.write(self.writes, json.dumps(command).encode() + b"\0")
        while True:
            message = self.receive(until)
            if message.get("id") == number:
                if "error" in message:
                    raise ValueError(f"{method}: {message['error']['message']}")
                return message["result"]
            self.events.append(message)

    def wait_for(self, method, **parameters):
        until = time.monotonic() + self.deadline
        while True:
            for place, event in enumerate(self.events):
                if event.get("method") == method and parameters.items() <= event["params"].items():
                    return self.events.pop(place)
            self.events.append(self.receive(until))

    def go(self, url):
        """Goes to a page, and waits until this page is loaded. A busy browser may report the end of an earlier one meanwhile."""
        loader = self.call("Page.navigate", url=url)["loaderId"]
        self.wait_for("Page.lifecycleEvent", loaderId=loader, name="load")

    def load(self, url, width=1280, height=900, dark=False):
        """Loads a page in a window of this size. Returns what the browser reported meanwhile: errors, warnings and requests."""
        self.call("Emulation.setDeviceMetricsOverride", width=width, height=height, deviceScaleFactor=1, mobile=False)
        self.call("Emulation.setEmulatedMedia", features=[{"name": "prefers-color-scheme", "value": "dark" if dark else "light"}])
        self.go("about:blank")
        self.events.clear()
        self.go(url)
        reports = [event for event in self.events if event.get("method") in ("Log.entryAdded", "Runtime.exceptionThrown", "Runtime.consoleAPICalled")]
        requests = [event["params"]["request"]["url"] for event in self.events if event.get("method") == "Network.requestWillBeSent"]
        self.events.clear()
        return reports, requests

    def evaluate(self, script):
        """Returns the value of an expression in the page. The page's own policy doesn't apply to it."""
        answer = self.call("Runtime.evaluate", expression=script, returnByValue=True, awaitPromise=True)
        if "exceptionDetails" in answer:
            raise ValueError(answer["exceptionDetails"]["exception"].get("description", answer))
        return answer["result"].get("value")

    def click(self, x, y):
        """Clicks at this place of the window."""
        for kind in ("mousePressed", "mouseReleased"):
            self.call("Input.dispatchMouseEvent", type=kind, x=x, y=y, button="left", clickCount=1)

    def key(self, name):
        """Presses a key: Tab or Enter."""
        code, text = {"Tab": (9, ""), "Enter": (13, "\r")}[name]
        for kind in ("keyDown", "keyUp"):
            self.call("Input.dispatchKeyEvent", type=kind, key=name, code=name, windowsVirtualKeyCode=code, **({"text": text} if kind == "keyDown" else {}))

    def screenshot(self, path, whole=False):
        import base64
        with open(path, "wb") as file:
            file.write(base64.b64decode(self.call("Page.captureScreenshot", captureBeyondViewport=whole)["data"]))
