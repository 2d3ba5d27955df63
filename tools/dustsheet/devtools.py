"""Chromium driven over its DevTools protocol by two pipes, for tests and pictures of the page that routes: no network is needed, and nothing
besides the standard library."""
from __future__ import annotations

import base64
import json
import os
import select
import subprocess
import time
from typing import Dict, Optional


class PageFailed(Exception):
    """What a page threw, or that it didn't answer."""


class Tab:
    """One page in a browser of its own, without a window. `with Tab(browser, folder, width, height) as tab`."""

    def __init__(self, browser: str, folder: str, width: int, height: int) -> None:
        to_read, self.out = os.pipe()
        self.inward, to_write = os.pipe()

        def hand_on() -> None:  # the browser reads commands from 3 and writes answers to 4
            high_read, high_write = os.dup2(to_read, 103), os.dup2(to_write, 104)  # out of the way: either may be 3 or 4 itself
            os.dup2(high_read, 3)
            os.dup2(high_write, 4)

        words = [browser, "--headless", "--disable-gpu", "--remote-debugging-pipe", "--hide-scrollbars", "--no-first-run",
                 "--user-data-dir=" + os.path.join(folder, "profile"), "--window-size=%d,%d" % (width, height)]
        if os.geteuid() == 0:
            words.append("--no-sandbox")  # Chromium's sandbox refuses root
        self.process = subprocess.Popen([*words, "about:blank"], preexec_fn=hand_on, close_fds=False, stdout=subprocess.DEVNULL,
                                        stderr=subprocess.DEVNULL, stdin=subprocess.DEVNULL)
        os.close(to_read)
        os.close(to_write)
        self.held, self.asked, self.session, self.events = b"", 0, None, []  # type: ignore[var-annotated]
        try:
            self.session = self._attach(width, height)
        except BaseException:
            self.process.kill()
            raise

    def __enter__(self) -> "Tab":
        return self

    def __exit__(self, *_: object) -> None:
        self.session = None
        try:
            self.send("Browser.close")
            self.process.wait(10)
        except (PageFailed, OSError, subprocess.TimeoutExpired):
            self.process.kill()
            self.process.wait()
        os.close(self.out)
        os.close(self.inward)

    def _attach(self, width: int, height: int) -> str:
        target = self.send("Target.createTarget", url="about:blank")["targetId"]
        session = self.send("Target.attachToTarget", targetId=target, flatten=True)["sessionId"]
        self.session = session
        self.send("Page.enable")
        self.send("Runtime.enable")
        self.size(width, height)
        return session

    # ---- messages: JSON, each with a zero byte behind it

    def send(self, method: str, **words: object) -> Dict:
        self.asked += 1
        message: Dict[str, object] = {"id": self.asked, "method": method, "params": words}
        if self.session:
            message["sessionId"] = self.session
        os.write(self.out, json.dumps(message).encode() + b"\0")
        while True:
            told = self._next(60)
            if told.get("id") == self.asked:
                if "error" in told:
                    raise PageFailed("%s: %s" % (method, told["error"]["message"]))
                return told["result"]
            self.events.append(told)

    def _next(self, seconds: float) -> Dict:
        end = time.monotonic() + seconds
        while b"\0" not in self.held:
            ready, _, _ = select.select([self.inward], [], [], max(0.0, end - time.monotonic()))
            part = os.read(self.inward, 1 << 20) if ready else b""
            if not part:
                raise PageFailed("the browser doesn't answer")
            self.held += part
        one, self.held = self.held.split(b"\0", 1)
        return json.loads(one)

    # ---- what is done with a page

    def size(self, width: int, height: int) -> None:
        self.send("Emulation.setDeviceMetricsOverride", width=width, height=height, deviceScaleFactor=1, mobile=False)

    def open(self, file: str) -> None:
        self.send("Page.navigate", url="file://" + os.path.abspath(file))
        self.until("document.readyState === 'complete'")

    def value(self, script: str) -> object:
        """What an expression comes to, in the page; a promise is waited for."""
        told = self.send("Runtime.evaluate", expression=script, returnByValue=True, awaitPromise=True)
        if "exceptionDetails" in told:
            raise PageFailed(json.dumps(told["exceptionDetails"])[:2000])
        return told["result"].get("value")

    def until(self, script: str, seconds: float = 60) -> None:
        end = time.monotonic() + seconds
        while not self.value(script):
            if time.monotonic() > end:
                raise PageFailed("not so after %d seconds: %s" % (seconds, script))
            time.sleep(0.01)

    def thrown(self) -> Optional[str]:
        """The first error that the page threw so far."""
        self.value("0")
        return next((json.dumps(event["params"])[:2000] for event in self.events if event.get("method") == "Runtime.exceptionThrown"), None)

    def press(self, key: str, code: int = 0, shift: bool = False, ctrl: bool = False) -> None:
        typed = "\r" if key == "Enter" else key
        text = {"text": typed} if len(typed) == 1 and not ctrl else {}
        for kind in ("keyDown", "keyUp"):
            self.send("Input.dispatchKeyEvent", type=kind, key=key, windowsVirtualKeyCode=code, modifiers=8 * shift + 2 * ctrl,
                      **(text if kind == "keyDown" else {}))

    def mouse(self, kind: str, x: float, y: float, shift: bool = False) -> None:
        self.send("Input.dispatchMouseEvent", type=kind, x=x, y=y, button="left", clickCount=1, modifiers=8 if shift else 0,
                  buttons=0 if kind == "mouseReleased" else 1)

    def picture(self, file: str) -> None:
        with open(file, "wb") as out:
            out.write(base64.b64decode(self.send("Page.captureScreenshot", format="png")["data"]))
