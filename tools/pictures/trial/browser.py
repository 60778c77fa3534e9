"""Drives a headless Chromium by its DevTools protocol, over two pipes: JSON texts, each ended by an octet 0."""

from __future__ import annotations

import base64
import itertools
import json
import os
import select
import shutil
import subprocess
import tempfile
import time
from typing import Any

NAMES = ("chromium-headless-shell", "chromium", "chromium-browser", "google-chrome")
SECONDS = 60


class Failed(Exception):
    """The browser failed, or a page threw an error."""


def program() -> str | None:
    """The path of a browser, or None."""
    paths = (shutil.which(it) for it in NAMES)
    return next((path for path in paths if path), None)


class Browser:
    """A browser with one page."""

    events: list[Any]
    session: str | None

    def __init__(self, path: str) -> None:
        self.folder, self.serials, self.waiting, self.events = tempfile.mkdtemp(), itertools.count(1), b"", []
        (his_in, self.sink), (self.source, his_out) = os.pipe(), os.pipe()
        words = [
            "--headless",
            "--remote-debugging-pipe",
            "--no-sandbox",
            "--disable-gpu",
            "--disable-dev-shm-usage",
            "--hide-scrollbars",
        ]
        quiet = [
            "--no-first-run",
            "--disable-extensions",
            "--disable-background-networking",
            "--disable-component-update",
        ]

        def pipes() -> None:
            # The browser reads from 3 and writes to 4.
            one, other = os.dup(his_in), os.dup(his_out)
            os.dup2(one, 3)
            os.dup2(other, 4)

        self.process = subprocess.Popen(
            [path, *words, *quiet, f"--user-data-dir={self.folder}", "about:blank"],
            stdin=subprocess.DEVNULL,
            stdout=subprocess.DEVNULL,
            stderr=subprocess.DEVNULL,
            preexec_fn=pipes,
            close_fds=False,
        )
        os.close(his_in)
        os.close(his_out)
        self.session = None
        targets = self.ask("Target.getTargets")["targetInfos"]
        target = next(it["targetId"] for it in targets if it["type"] == "page")
        self.session = self.ask("Target.attachToTarget", targetId=target, flatten=True)["sessionId"]
        for domain in ("Page", "Runtime", "Log", "Network"):
            self.ask(f"{domain}.enable")

    def ask(self, method: str, **words: object) -> Any:
        """Asks for something, and returns the answer."""
        serial = next(self.serials)
        asked = {"id": serial, "method": method, "params": words} | (
            {"sessionId": self.session} if self.session else {}
        )
        os.write(self.sink, json.dumps(asked).encode() + b"\0")
        until = time.monotonic() + SECONDS
        while True:
            said = self.next(until)
            if said.get("id") == serial:
                if "error" in said:
                    raise Failed(f"{method}: {said['error']}")
                return said["result"]
            self.events.append(said)

    def next(self, until: float) -> Any:
        """The next text that the browser says."""
        while b"\0" not in self.waiting:
            if not select.select([self.source], [], [], max(0, until - time.monotonic()))[0]:
                raise Failed("the browser does not answer")
            octets = os.read(self.source, 1 << 20)
            if not octets:
                raise Failed("the browser ended")
            self.waiting += octets
        said, _, self.waiting = self.waiting.partition(b"\0")
        return json.loads(said)

    def wait(self, method: str) -> None:
        """Waits for an event."""
        until = time.monotonic() + SECONDS
        while not any(it.get("method") == method for it in self.events):
            self.events.append(self.next(until))
        self.events = [it for it in self.events if it.get("method") != method]

    def open(self, url: str) -> None:
        """Opens a page, and waits until it is there."""
        self.events = []
        self.ask("Page.navigate", url=url)
        self.wait("Page.loadEventFired")

    def run(self, script: str) -> Any:
        """What a script gives in the page."""
        said = self.ask("Runtime.evaluate", expression=script, returnByValue=True, awaitPromise=True)
        if "exceptionDetails" in said:
            raise Failed(
                said["exceptionDetails"].get("exception", {}).get("description", said["exceptionDetails"]["text"])
            )
        return said["result"].get("value")

    def press(self, key: str, text: str = "") -> None:
        """Presses a key."""
        self.ask("Input.dispatchKeyEvent", **({"type": "keyDown", "key": key, "text": text} | CODES.get(key, {})))
        self.ask("Input.dispatchKeyEvent", type="keyUp", key=key)

    def faults(self) -> list[str]:
        """The errors that the page threw or was refused, and the addresses that it asked for, but its own."""
        found: list[str] = []
        for it in self.events:
            said = it.get("params", {})
            if it.get("method") == "Runtime.exceptionThrown":
                details = said["exceptionDetails"]
                found.append(details.get("exception", {}).get("description", details["text"]))
            elif it.get("method") == "Log.entryAdded" and said["entry"]["level"] == "error":
                found.append(said["entry"]["text"])
            elif it.get("method") == "Network.requestWillBeSent" and not said["request"]["url"].startswith(
                ("file:", "data:")
            ):
                found.append(f"it asks for {said['request']['url']}")
        return found

    def shape(self, width: int, height: int, is_dark: bool = False) -> None:
        """Makes the window so wide and high, light or dark."""
        self.ask(
            "Emulation.setDeviceMetricsOverride", width=width, height=height, deviceScaleFactor=1, mobile=width < 600
        )
        self.ask(
            "Emulation.setEmulatedMedia",
            features=[{"name": "prefers-color-scheme", "value": "dark" if is_dark else "light"}],
        )

    def picture(self, path: str) -> None:
        """Keeps a picture of the window as a PNG."""
        octets = base64.b64decode(self.ask("Page.captureScreenshot", format="png")["data"])
        with open(path, "wb") as it:
            it.write(octets)

    def close(self) -> None:
        """Ends the browser."""
        try:
            self.session = None
            self.ask("Browser.close")
            self.process.wait(10)
        except (Failed, OSError, subprocess.TimeoutExpired):
            self.process.kill()
            self.process.wait()
        os.close(self.sink)
        os.close(self.source)
        shutil.rmtree(self.folder, ignore_errors=True)


CODES: dict[str, dict[str, object]] = {
    "ArrowRight": {"code": "ArrowRight", "windowsVirtualKeyCode": 39},
    "ArrowLeft": {"code": "ArrowLeft", "windowsVirtualKeyCode": 37},
    "Home": {"code": "Home", "windowsVirtualKeyCode": 36},
    "End": {"code": "End", "windowsVirtualKeyCode": 35},
    "Escape": {"code": "Escape", "windowsVirtualKeyCode": 27},
    "Enter": {"code": "Enter", "windowsVirtualKeyCode": 13, "text": "\r"},
}
