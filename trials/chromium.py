"""Chromium without a window, for trials of pages: it is spoken to over a pipe, with python's own library alone."""
import base64
import json
import os
import pathlib
import select
import shutil
import subprocess
import time

# Seconds for an answer of the browser.
PATIENCE = 60
NAMES = ["chromium", "chromium-browser", "google-chrome", "google-chrome-stable", "chrome"]
KEYS = {"ArrowLeft": 37, "ArrowRight": 39, "End": 35, "Tab": 9}


def installed():
    """The path of a Chromium, or None."""
    return next(filter(None, map(shutil.which, NAMES)), None)


class Failed(Exception):
    """What is wrong with the page, or with the browser."""


class Browser:
    """Chromium, spoken to over a pipe: a message is JSON with a null byte after it."""

    def __init__(self, program, folder):
        to_it, self.out = os.pipe()
        self.read_from, from_it = os.pipe()

        def pipes():
            # It reads from 3 and writes to 4; copies first, for one of the pipes may stand there already.
            low, high = os.dup(to_it), os.dup(from_it)
            os.dup2(low, 3)
            os.dup2(high, 4)

        words = [program, "--headless", "--remote-debugging-pipe", "--no-sandbox", "--disable-gpu", "--no-first-run",
                 "--disable-dev-shm-usage", "--hide-scrollbars", f"--user-data-dir={folder}", "about:blank"]
        self.process = subprocess.Popen(words, preexec_fn=pipes, close_fds=False, stdout=subprocess.DEVNULL,
                                        stderr=subprocess.DEVNULL)
        os.close(to_it)
        os.close(from_it)
        self.number = 0
        self.buffer = b""
        self.errors = []
        self.loaded = False
        self.session = None
        target = self.ask("Target.createTarget", url="about:blank")["targetId"]
        self.session = self.ask("Target.attachToTarget", targetId=target, flatten=True)["sessionId"]
        for domain in ["Page", "Runtime", "Log", "Network"]:
            self.ask(f"{domain}.enable")

    def ask(self, method, **arguments):
        """Sends a command and waits for its result; what happens meanwhile is noted."""
        self.number += 1
        message = {"id": self.number, "method": method, "params": arguments}
        if self.session:
            message["sessionId"] = self.session
        os.write(self.out, json.dumps(message).encode() + b"\0")
        while True:
            answer = self.receive()
            if answer.get("id") == self.number:
                if "error" in answer:
                    raise Failed(f"{method}: {answer['error']['message']}")
                return answer["result"]

    def receive(self):
        while b"\0" not in self.buffer:
            if not select.select([self.read_from], [], [], PATIENCE)[0]:
                raise Failed(f"Chromium has not answered for {PATIENCE} seconds")
            piece = os.read(self.read_from, 1 << 16)
            if not piece:
                raise Failed("Chromium has ended")
            self.buffer += piece
        text, self.buffer = self.buffer.split(b"\0", 1)
        message = json.loads(text)
        self.note(message.get("method", ""), message.get("params", {}))
        return message

    def note(self, event, told):
        if event == "Runtime.exceptionThrown":
            self.errors.append(told["exceptionDetails"].get("exception", {}).get("description", "an exception"))
        elif event == "Runtime.consoleAPICalled" and told["type"] in ("error", "warning", "assert"):
            self.errors.append(f"console.{told['type']}")
        elif event == "Log.entryAdded" and told["entry"]["level"] in ("error", "warning"):
            self.errors.append(told["entry"]["text"])
        elif event == "Network.requestWillBeSent":
            address = told["request"]["url"]
            if not address.startswith(("file:", "data:", "about:")):
                self.errors.append(f"the network was asked for {address}")
        elif event == "Page.loadEventFired":
            self.loaded = True

    def open(self, path, width, height, phone=False):
        self.ask("Emulation.setDeviceMetricsOverride", width=width, height=height, deviceScaleFactor=1, mobile=phone)
        self.ask("Emulation.setTouchEmulationEnabled", enabled=phone)
        self.loaded = False
        self.ask("Page.navigate", url=pathlib.Path(path).resolve().as_uri())
        while not self.loaded:
            self.receive()

    def value(self, expression):
        found = self.ask("Runtime.evaluate", expression=expression, returnByValue=True)
        if "exceptionDetails" in found:
            raise Failed(f"{expression}: {found['exceptionDetails'].get('text')}")
        return found["result"].get("value")

    def place(self, selector):
        """The middle of an element, scrolled into view."""
        found = self.value(f"""(() => {{
            const element = document.querySelector({json.dumps(selector)});
            if (!element) return null;
            element.scrollIntoView({{block: "center"}});
            const box = element.getBoundingClientRect();
            return [box.x + box.width / 2, box.y + box.height / 2];
        }})()""")
        if not found:
            raise Failed(f"there is no {selector}")
        return {"x": found[0], "y": found[1]}

    def point(self, selector):
        self.ask("Input.dispatchMouseEvent", type="mouseMoved", **self.place(selector))

    def click(self, selector):
        where = self.place(selector)
        for kind in ["mousePressed", "mouseReleased"]:
            self.ask("Input.dispatchMouseEvent", type=kind, button="left", clickCount=1, **where)

    def tap(self, selector):
        self.ask("Input.dispatchTouchEvent", type="touchStart", touchPoints=[self.place(selector)])
        self.ask("Input.dispatchTouchEvent", type="touchEnd", touchPoints=[])

    def key(self, name, shift=False):
        """A key of KEYS, pressed and let go."""
        for kind in ["rawKeyDown", "keyUp"]:
            self.ask("Input.dispatchKeyEvent", type=kind, key=name, code=name, modifiers=8 if shift else 0,
                     windowsVirtualKeyCode=KEYS[name])

    def picture(self, path, whole=False):
        data = self.ask("Page.captureScreenshot", captureBeyondViewport=whole)["data"]
        pathlib.Path(path).write_bytes(base64.b64decode(data))

    def close(self):
        """Asked to end, so that its other processes end too; stopped where it does not."""
        self.session = None
        try:
            self.ask("Browser.close")
            self.process.wait(10)
        except (Failed, OSError, subprocess.TimeoutExpired):
            self.process.kill()
            self.process.wait()


def remove(folder):
    """Processes of the browser may write to their profile for a moment after it has ended."""
    for _ in range(50):
        shutil.rmtree(folder, ignore_errors=True)
        if not os.path.exists(folder):
            return
        time.sleep(0.1)
