"""Drives Chromium without a screen: opens pages, runs scripts in them, and gives mouse, touch and keys to them."""

from __future__ import annotations

import base64
import json
import os
import select
import shutil
import subprocess
import tempfile
import time
from pathlib import Path
from typing import Any, Callable

NAMES = ("chromium", "chromium-browser", "google-chrome")
IS_WANTED = "DRILLOLIVE_NO_BROWSER" not in os.environ
CHROMIUM = next(filter(None, map(shutil.which, NAMES)), None) if IS_WANTED else None

FLAGS = (
    "--headless", "--no-sandbox", "--no-first-run", "--disable-background-networking", "--disable-component-update",
    "--disable-sync", "--disable-extensions", "--hide-scrollbars", "--remote-debugging-pipe",
)  # fmt: skip
WEBGL = ("--use-gl=angle", "--use-angle=swiftshader", "--enable-unsafe-swiftshader")
# A script that makes a browser without WebGL of one that has it.
NO_WEBGL = """{
  const { getContext } = HTMLCanvasElement.prototype;
  HTMLCanvasElement.prototype.getContext = function (kind, ...rest) {
    return kind.startsWith("webgl") ? null : getContext.call(this, kind, ...rest);
  };
}"""
TIMEOUT = 180.0  # of one answer, in seconds: machines are busy at times
SIZE = (900, 640)
SHIFT = 8  # among the modifiers of a key
CODES = {"Tab": 9, "Escape": 27}  # of keys that the browser itself hears

# What each script has at hand beside the page's own `drillolive`.
HELPERS = """
  const page = drillolive.page;
  const view = document.getElementById("view");
  const part = (id) => document.getElementById(id);
  const wait = (time) => new Promise((done) => setTimeout(done, time));
  const hash = (canvas) => [...canvas.toDataURL()].reduce((sum, letter) => (sum * 31 + letter.charCodeAt(0)) | 0, 7);
  const picture = () => { page.view.drawNow(); return hash(view); };
  const look = () => {
    const { yaw, pitch, distance, target } = page.state.camera;
    return [yaw, pitch, distance, ...target];
  };
  const placeOf = (point) => {
    const { left, top } = view.getBoundingClientRect();
    const places = page.picker.project().places;
    return [left + places[3 * point], top + places[3 * point + 1]];
  };
  const fractions = () => [...document.querySelectorAll("#point-panel [data-axis]")].map((cell) => cell.textContent);
"""


class Browser:
    """A browser without a screen. Messages go through pipes, so that no port is open."""

    def __init__(self, *flags: str) -> None:
        """Starts the browser."""
        self.folder = tempfile.mkdtemp()
        self.number, self.rest = 0, b""
        self.listeners: dict[str, Callable[[str, dict[str, Any]], None]] = {}
        reads, self.writer = os.pipe()
        self.reader, writes = os.pipe()
        words = [str(CHROMIUM), *FLAGS, *flags, f"--user-data-dir={self.folder}", "about:blank"]
        # The browser reads messages at its file 3, and writes them at its file 4.
        begin = f'exec "$@" 3<&{reads} 4>&{writes}'
        self.process = subprocess.Popen(
            ["bash", "-c", begin, "bash", *words], pass_fds=(reads, writes),
            stdout=subprocess.DEVNULL, stderr=subprocess.DEVNULL,
        )  # fmt: skip
        os.close(reads)
        os.close(writes)

    def close(self) -> None:
        """Ends the browser."""
        try:
            self.call("Browser.close")
            self.process.wait(20)
        except (AssertionError, OSError, subprocess.TimeoutExpired):
            self.process.kill()
            self.process.wait()
        os.close(self.reader)
        os.close(self.writer)
        shutil.rmtree(self.folder, ignore_errors=True)

    def call(self, method: str, session: str | None = None, **parameters: Any) -> dict[str, Any]:
        """Returns the answer to a message. AssertionError: it is an error, or does not come."""
        self.number += 1
        number = self.number
        message = {"id": number, "method": method, "params": parameters, **({"sessionId": session} if session else {})}
        os.write(self.writer, json.dumps(message).encode() + b"\0")
        answer = self.wait_for(lambda held: held.get("id") == number)
        if "error" in answer:
            raise AssertionError(f"{method}: {answer['error']}")
        result: dict[str, Any] = answer["result"]
        return result

    def wait_for(self, is_wanted: Callable[[dict[str, Any]], bool]) -> dict[str, Any]:
        """Returns the next message that is wanted. All others go to the listeners of their pages."""
        end = time.monotonic() + TIMEOUT
        while True:
            message = self.next_message(end)
            listener = self.listeners.get(message.get("sessionId", ""))
            if listener and "method" in message:
                listener(message["method"], message["params"])
            if is_wanted(message):
                return message

    def next_message(self, end: float) -> dict[str, Any]:
        """Returns the next message. AssertionError: none comes until then."""
        while b"\0" not in self.rest:
            ready, _, _ = select.select([self.reader], [], [], max(0.0, end - time.monotonic()))
            data = os.read(self.reader, 1 << 20) if ready else b""
            if not data:
                raise AssertionError("the browser does not answer")
            self.rest += data
        first, _, self.rest = self.rest.partition(b"\0")
        message: dict[str, Any] = json.loads(first)
        return message


class Tab:
    """A page in a browser. `problems` are its errors, and `requests` what it asked for beside itself."""

    def __init__(
        self, browser: Browser, path: Path, fragment: str = "", size: tuple[int, int] = SIZE, scale: float = 1,
        theme: str = "light", is_still: bool = False, before: str = "",
    ) -> None:  # fmt: skip
        """Opens a file of a page, in a window of this size, for a reader who likes this theme, and motion or not.

        `before` is a script that runs before those of the page.
        """
        self.browser = browser
        self.problems: list[str] = []
        self.requests: list[str] = []
        self.target = browser.call("Target.createTarget", url="about:blank")["targetId"]
        self.session = browser.call("Target.attachToTarget", targetId=self.target, flatten=True)["sessionId"]
        browser.listeners[self.session] = self.hear
        for part in ("Page", "Runtime", "Log", "Network"):
            self.call(f"{part}.enable")
        features = [{"name": "prefers-color-scheme", "value": theme}]
        features += [{"name": "prefers-reduced-motion", "value": "reduce"}] if is_still else []
        self.call("Emulation.setEmulatedMedia", features=features)
        self.call("Page.addScriptToEvaluateOnNewDocument", source=before)
        width, height = size
        sizes = {"width": width, "height": height, "deviceScaleFactor": scale, "mobile": False}
        self.call("Emulation.setDeviceMetricsOverride", **sizes)
        self.address = path.as_uri() + (f"#{fragment}" if fragment else "")
        self.call("Page.navigate", url=self.address)
        loaded = ("Page.loadEventFired", self.session)
        browser.wait_for(lambda held: (held.get("method"), held.get("sessionId")) == loaded)

    def call(self, method: str, **parameters: Any) -> dict[str, Any]:
        """Returns the answer of the page to a message."""
        return self.browser.call(method, self.session, **parameters)

    def hear(self, method: str, parameters: dict[str, Any]) -> None:
        """Notes errors and requests."""
        if method == "Runtime.exceptionThrown":
            self.problems.append(str(parameters["exceptionDetails"]))
        elif method == "Log.entryAdded" and parameters["entry"]["level"] == "error":
            self.problems.append(parameters["entry"]["text"])
        elif method == "Network.requestWillBeSent" and parameters["type"] != "Document":
            self.requests.append(parameters["request"]["url"])

    def run(self, script: str) -> Any:
        """Returns what a script returns, which may wait. AssertionError: it fails."""
        code = f"(async () => {{{HELPERS}{script}}})()"
        done = self.call("Runtime.evaluate", expression=code, awaitPromise=True, returnByValue=True)
        if "exceptionDetails" in done:
            raise AssertionError(done["exceptionDetails"]["exception"].get("description"))
        return done["result"].get("value")

    # ---- What a reader does ----

    def key(self, key: str, modifiers: int = 0) -> None:
        """Presses a key, such as ArrowLeft or n. `modifiers` may be SHIFT."""
        more: dict[str, Any] = {"text": key} if len(key) == 1 else {"windowsVirtualKeyCode": CODES.get(key, 0)}
        self.call("Input.dispatchKeyEvent", type="keyDown", key=key, modifiers=modifiers, **more)
        self.call("Input.dispatchKeyEvent", type="keyUp", key=key, modifiers=modifiers)

    def mouse(self, kind: str, x: float, y: float, button: str = "none", **more: Any) -> None:
        """Gives an event of the mouse: mouseMoved, mousePressed, mouseReleased or mouseWheel."""
        buttons = {"none": 0, "left": 1, "right": 2}[button]
        self.call("Input.dispatchMouseEvent", type=kind, x=x, y=y, button=button, buttons=buttons, clickCount=1, **more)

    def drag(self, begin: tuple[float, float], end: tuple[float, float], button: str = "left") -> None:
        """Drags with a button of the mouse."""
        self.mouse("mouseMoved", *begin)
        self.mouse("mousePressed", *begin, button)
        for part in (0.3, 0.6, 1.0):
            self.mouse("mouseMoved", *(one + part * (other - one) for one, other in zip(begin, end)), button)
        self.mouse("mouseReleased", *end, button)

    def touch(self, *steps: list[tuple[float, float]]) -> None:
        """Touches the screen at the places of the first step, moves the fingers on to the others, and lifts them."""
        for number, places in enumerate(steps):
            points = [{"x": x, "y": y, "id": finger} for finger, (x, y) in enumerate(places)]
            self.call("Input.dispatchTouchEvent", type="touchMove" if number else "touchStart", touchPoints=points)
        self.call("Input.dispatchTouchEvent", type="touchEnd", touchPoints=[])

    def screenshot(self) -> bytes:
        """Returns a picture of the page as PNG."""
        return base64.b64decode(self.call("Page.captureScreenshot", format="png")["data"])

    def close(self) -> None:
        """Closes the page."""
        self.browser.listeners.pop(self.session, None)
        self.browser.call("Target.closeTarget", targetId=self.target)
