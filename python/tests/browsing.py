"""A browser without a window, which clicks and looks: Chromium, over pipes of its DevTools protocol."""
from __future__ import annotations

import base64
import contextlib
import json
import math
import os
import selectors
import shutil
import signal
import subprocess
import tempfile
import time
from collections.abc import Iterator
from pathlib import Path
from typing import IO, Any

NAMES = ("chromium", "chromium-browser", "google-chrome")
FLAGS = ["--headless", "--no-sandbox", "--disable-gpu", "--disable-dev-shm-usage", "--no-first-run", "--disable-extensions",
         "--disable-background-networking", "--disable-component-update", "--disable-sync", "--hide-scrollbars",
         "--remote-debugging-pipe"]
LONGEST = 60.0  # seconds for one answer, on a machine that is busy, and for the first picture from the start


def found() -> str | None:
    """The path of a browser, where one is installed."""
    return next(filter(None, map(shutil.which, NAMES)), None)


class Useless(Exception):
    """A browser doesn't draw on this machine."""


class Browser:
    """A page of a browser."""

    def __init__(self, process: subprocess.Popen[bytes], reads: int, writes: int) -> None:
        self.process, self.reads, self.writes = process, reads, writes
        self.number, self.rest, self.session, self.silent = 0, b"", "", False
        self.last = time.monotonic() + LONGEST  # when the first picture has to be there
        self.said: list[dict[str, Any]] = []
        self.waiting = selectors.DefaultSelector()
        self.waiting.register(reads, selectors.EVENT_READ)
        target = self.ask("Target.createTarget", url="about:blank")["targetId"]
        self.session = self.ask("Target.attachToTarget", targetId=target, flatten=True)["sessionId"]
        for part in ("Page", "Runtime", "Log", "Network"):
            self.ask(f"{part}.enable")

    def message(self, until: float) -> dict[str, Any]:
        """The next message of the browser, which has to come until a time; one that was silent once isn't waited for again."""
        while b"\0" not in self.rest:
            if self.silent or not self.waiting.select(max(0.0, until - time.monotonic())):
                self.silent = True
                raise TimeoutError("it doesn't answer in time")
            piece = os.read(self.reads, 1 << 16)
            if not piece:
                raise EOFError("it has ended")
            self.rest += piece
        text, _, self.rest = self.rest.partition(b"\0")
        found: dict[str, Any] = json.loads(text)
        return found

    def ask(self, method: str, **parameters: Any) -> dict[str, Any]:
        """The answer to a command."""
        self.number += 1
        words: dict[str, Any] = {"id": self.number, "method": method, "params": parameters}
        if self.session:
            words["sessionId"] = self.session
        data = json.dumps(words).encode() + b"\0"
        until = min(self.last, time.monotonic() + LONGEST)
        while data:
            data = data[os.write(self.writes, data):]
        while True:
            told = self.message(until)
            if told.get("id") == self.number:
                assert "error" not in told, told["error"]
                result: dict[str, Any] = told["result"]
                return result
            self.said.append(told)

    def draw(self) -> None:
        """Has a small page drawn, which shows that this browser works here; from then on there is no hurry."""
        self.ask("Page.navigate", url="data:text/html,<p>text")
        self.settle()
        assert self.ask("Page.captureScreenshot", format="png")["data"], "it gives no picture"
        self.last = math.inf
        self.said.clear()

    def faults(self) -> list[dict[str, Any]]:
        """What the page did wrong, and what it asked the network for."""
        return [told for told in self.said if told.get("method") in ("Runtime.exceptionThrown", "Log.entryAdded")
                or told.get("method") == "Network.requestWillBeSent" and told["params"]["request"]["url"][:5] not in ("file:", "about")]

    def open(self, path: Path, fragment: str = "", width: int = 1280, height: int = 900) -> None:
        """Opens a page, and waits until its script is ready."""
        self.ask("Emulation.setDeviceMetricsOverride", width=width, height=height, deviceScaleFactor=1, mobile=False)
        self.ask("Page.navigate", url="about:blank")
        self.ask("Page.navigate", url=path.as_uri() + fragment)
        self.until("document.documentElement && document.documentElement.dataset.ready === 'yes'")
        self.settle()

    def look(self, expression: str) -> Any:
        """The value of an expression on the page."""
        told = self.ask("Runtime.evaluate", expression=expression, returnByValue=True, awaitPromise=True)
        assert "exceptionDetails" not in told, told["exceptionDetails"]
        return told["result"].get("value")

    def until(self, expression: str) -> None:
        """Waits until an expression is true."""
        end = time.monotonic() + LONGEST
        while not self.look(expression):
            assert time.monotonic() < end, f"never: {expression}"
            time.sleep(0.05)

    def settle(self) -> None:
        """Waits until the page has drawn what was asked for."""
        self.look("new Promise(done => requestAnimationFrame(() => requestAnimationFrame(() => setTimeout(done, 0))))")

    def box(self, selector: str) -> tuple[float, float, float, float]:
        """Where the first element of a selector stands in the window, when it has been scrolled to: left, top, width, height."""
        text = json.dumps(selector)
        self.look(f"document.querySelector({text}).scrollIntoView({{block: 'center', behavior: 'instant'}})")
        self.settle()
        left, top, width, height = self.look(f"(({{left, top, width, height}}) => [left, top, width, height])"
                                             f"(document.querySelector({text}).getBoundingClientRect())")
        return left, top, width, height

    def middle(self, selector: str) -> tuple[float, float]:
        """The middle of an element."""
        left, top, width, height = self.box(selector)
        return left + width / 2, top + height / 2

    def mouse(self, kind: str, at: tuple[float, float], **more: Any) -> None:
        """An event of the mouse."""
        self.ask("Input.dispatchMouseEvent", type=kind, x=at[0], y=at[1], **more)

    def click(self, at: tuple[float, float], modifiers: int = 0) -> None:
        """A click."""
        for kind in ("mousePressed", "mouseReleased"):
            self.mouse(kind, at, button="left", clickCount=1, modifiers=modifiers)
        self.settle()

    def drag(self, start: tuple[float, float], end: tuple[float, float]) -> None:
        """Drags from one point to another."""
        self.mouse("mousePressed", start, button="left", clickCount=1)
        for part in (0.3, 0.7, 1.0):
            at = (start[0] + (end[0] - start[0]) * part, start[1] + (end[1] - start[1]) * part)
            self.mouse("mouseMoved", at, button="left", buttons=1)
        self.mouse("mouseReleased", end, button="left", clickCount=1)
        self.settle()

    def wheel(self, at: tuple[float, float], by: float) -> None:
        """Turns the wheel; below 0 is away from the reader."""
        self.mouse("mouseWheel", at, deltaX=0, deltaY=by)
        self.settle()

    def key(self, key: str, modifiers: int = 0) -> None:
        """Presses a key."""
        text = {"text": key} if len(key) == 1 else {"text": "\r"} if key == "Enter" else {}
        for kind in ("keyDown", "keyUp"):
            self.ask("Input.dispatchKeyEvent", type=kind, key=key, modifiers=modifiers, **(text if kind == "keyDown" else {}))
        self.settle()

    def touch(self, kind: str, *points: tuple[float, float]) -> None:
        """Fingers on the page: touchStart, touchMove, touchEnd."""
        self.ask("Input.dispatchTouchEvent", type=kind, touchPoints=[{"x": x, "y": y, "id": at} for at, (x, y) in enumerate(points)])
        self.settle()

    def picture(self, path: Path, whole: bool = True) -> None:
        """Saves what the page looks like."""
        told = self.ask("Page.captureScreenshot", format="png", captureBeyondViewport=whole)
        path.write_bytes(base64.b64decode(told["data"]))


@contextlib.contextmanager
def browser() -> Iterator[Browser]:
    """A browser that draws, and runs as long as the block does; `Useless` with what was found where it doesn't draw."""
    path = found()
    assert path, "no browser is installed"
    from_browser, to_browser = os.pipe(), os.pipe()  # each an end to read and one to write
    with tempfile.TemporaryDirectory(prefix="scicos-browser-", ignore_cleanup_errors=True) as home, tempfile.TemporaryFile() as said:
        process = started(path, home, to_browser[0], from_browser[1], said)
        os.close(to_browser[0])
        os.close(from_browser[1])
        try:
            try:
                one = Browser(process, from_browser[0], to_browser[1])
                one.draw()
            except (OSError, EOFError, AssertionError) as error:
                said.seek(0)
                last = " ".join(said.read().decode(errors="replace").split())[-300:]
                raise Useless(f"a browser that draws here: {path} is installed, and {error}" + (f"; it says: {last}" if last else "")) from None
            yield one
        finally:
            os.close(to_browser[1])
            with contextlib.suppress(ProcessLookupError):
                os.killpg(process.pid, signal.SIGKILL)
            process.wait(LONGEST)
            os.close(from_browser[0])


def started(path: str, home: str, reads: int, writes: int, said: IO[bytes]) -> subprocess.Popen[bytes]:
    """The browser's process, which reads commands from the descriptor 3 and writes answers to 4."""
    line = f'exec 200<&{reads} 201>&{writes} 3<&200 4>&201 200<&- 201>&-; exec "$0" "$@"'
    return subprocess.Popen(["bash", "-c", line, path, *FLAGS, f"--user-data-dir={home}", "about:blank"], pass_fds=(reads, writes),
                            stdin=subprocess.DEVNULL, stdout=subprocess.DEVNULL, stderr=said, start_new_session=True,
                            env={**os.environ, "HOME": home})
