#!/usr/bin/env python3
"""Drives headless Chromium by its DevTools protocol, over two pipes; and draws the pictures of the page that VIEWING shows.

    browser.py FOLDER [--abuf PATH]     writes view-pixel.png and view-compare.png there

    browser.py docs/pictures
"""

import base64
import json
import os
import select
import shutil
import subprocess
import sys
import tempfile
import time
from itertools import combinations
from typing import Any

sys.path.insert(0, os.path.dirname(os.path.dirname(os.path.abspath(__file__))))
from abuflib import program, report  # noqa: E402
from abuflib.report import Fault  # noqa: E402

NAMES = ("chromium", "chromium-browser", "google-chrome")
SECONDS = 240  # the most that an answer of a busy machine takes
LEFT: dict[str, Any] = {"button": "left", "clickCount": 1}


def chromium() -> str | None:
    """The browser, or None where none is installed."""
    return next(filter(None, map(shutil.which, NAMES)), None)


# Where the texts of an SVG lie, and what has an outline, in the units of the file.
BOXES = """(() => {
    const boxes = (selector) => [...document.querySelectorAll(selector)].map((element) => {
        const box = element.getBBox();
        return [box.x, box.y, box.x + box.width, box.y + box.height, element.textContent];
    });
    return {texts: boxes('text'), rects: boxes('rect')};
})()"""


class Browser:
    """A page of headless Chromium."""

    def __init__(self, width: int = 1180, height: int = 720) -> None:
        path = chromium()
        if path is None:
            raise Fault("Chromium isn't there: install Debian's package chromium")
        self.folder = tempfile.TemporaryDirectory(ignore_cleanup_errors=True)
        to_browser, self.writing = os.pipe()
        self.reading, from_browser = os.pipe()
        # Chromium reads its orders from descriptor 3 and writes to 4. Debian's sh knows no descriptor above 9.
        words = [path, "--headless=new", "--remote-debugging-pipe", "--no-sandbox", "--disable-gpu", "--no-first-run", "--hide-scrollbars",
                 "--disable-extensions", "--disable-background-networking", f"--user-data-dir={self.folder.name}",
                 f"--window-size={width},{height}", "about:blank"]
        self.process = subprocess.Popen(["bash", "-c", f'exec "$@" 3<&{to_browser} 4>&{from_browser}', "bash", *words],
                                        pass_fds=(to_browser, from_browser), stdin=subprocess.DEVNULL, stdout=subprocess.DEVNULL,
                                        stderr=subprocess.DEVNULL, start_new_session=True)
        os.close(to_browser)
        os.close(from_browser)
        self.number, self.rest, self.session = 0, b"", None
        targets = self.order("Target.getTargets")["targetInfos"]
        target = next(one["targetId"] for one in targets if one["type"] == "page")
        self.session = self.order("Target.attachToTarget", targetId=target, flatten=True)["sessionId"]
        self.order("Page.enable")
        self.order("Runtime.enable")
        self.order("Emulation.setDeviceMetricsOverride", width=width, height=height, deviceScaleFactor=1, mobile=False)

    def __enter__(self) -> "Browser":
        return self

    def __exit__(self, *_: object) -> None:
        try:
            self.session = None
            self.order("Browser.close")
            self.process.wait(10)
        except (Fault, OSError, subprocess.TimeoutExpired):
            os.killpg(self.process.pid, 9)
            self.process.wait()
        os.close(self.writing)
        os.close(self.reading)
        self.folder.cleanup()

    def order(self, method: str, **words: Any) -> dict[str, Any]:
        """What the browser answers to an order."""
        self.number += 1
        message: dict[str, Any] = {"id": self.number, "method": method, "params": words}
        if self.session:
            message["sessionId"] = self.session
        os.write(self.writing, json.dumps(message).encode() + b"\0")
        end = time.monotonic() + SECONDS
        while True:
            told = self.told(end)
            if told.get("id") == self.number:
                if "error" in told:
                    raise Fault(f"{method}: {told['error']['message']}")
                return told["result"]

    def told(self, end: float) -> dict[str, Any]:
        """The next message of the browser."""
        while b"\0" not in self.rest:
            if not select.select([self.reading], [], [], max(0, end - time.monotonic()))[0]:
                raise Fault(f"Chromium didn't answer within {SECONDS} seconds")
            data = os.read(self.reading, 1 << 20)
            if not data:
                raise Fault("Chromium ended")
            self.rest += data
        message, _, self.rest = self.rest.partition(b"\0")
        return json.loads(message)

    # the page

    def open(self, address: str) -> None:
        self.order("Page.navigate", url=address)

    def value(self, expression: str) -> Any:
        """The value of an expression in the page."""
        told = self.order("Runtime.evaluate", expression=expression, returnByValue=True, awaitPromise=True)
        if "exceptionDetails" in told:
            raise Fault(f"{expression}: {told['exceptionDetails'].get('exception', {}).get('description', told['exceptionDetails']['text'])}")
        return told["result"].get("value")

    def wait(self, expression: str) -> Any:
        """The value of an expression once it is true."""
        end = time.monotonic() + SECONDS
        while time.monotonic() < end:
            try:
                if found := self.value(expression):
                    return found
            except Fault:
                pass  # the page isn't there yet
            time.sleep(0.05)
        raise Fault(f"{expression} didn't become true")

    def mouse(self, kind: str, x: float, y: float, **more: Any) -> None:
        self.order("Input.dispatchMouseEvent", type=kind, x=x, y=y, **more)

    def click(self, x: float, y: float) -> None:
        self.mouse("mousePressed", x, y, **LEFT)
        self.mouse("mouseReleased", x, y, **LEFT)

    def drag(self, start: tuple[float, float], end: tuple[float, float], steps: int = 8, **more: Any) -> None:
        """Drags with the left button, in so many steps."""
        self.mouse("mousePressed", *start, **LEFT, **more)
        for k in range(1, steps + 1):
            x, y = (a + (b - a) * k / steps for a, b in zip(start, end))
            self.mouse("mouseMoved", x, y, button="left", buttons=1, **more)
        self.mouse("mouseReleased", *end, **LEFT, **more)

    def key(self, key: str) -> None:
        more = {"text": key} if len(key) == 1 else {}
        self.order("Input.dispatchKeyEvent", type="keyDown", key=key, **more)
        self.order("Input.dispatchKeyEvent", type="keyUp", key=key)

    def place(self, selector: str, x: float = 0.5, y: float = 0.5) -> tuple[float, float]:
        """A place within an element, as shares of its width and height."""
        left, top, width, height = self.value(
            f"(() => {{ const box = document.querySelector({json.dumps(selector)}).getBoundingClientRect();"
            " return [box.left, box.top, box.width, box.height]; })()")
        return left + x * width, top + y * height

    def texts_of(self, path: str) -> tuple[list[str], list[str]]:
        """The texts of an SVG in their order, and which of them are cut off, leave their boxes or lie over another."""
        self.open(f"file://{path}")
        self.wait(f"document.readyState === 'complete' && location.pathname === {json.dumps(path)}")
        found = self.value(BOXES)
        texts, outer = found["texts"], found["rects"][0]
        faults = [f"{text[4]}: is cut off" for text in texts
                  if not (outer[0] + 2 < text[0] and text[2] < outer[2] - 2 and outer[1] < text[1] and text[3] < outer[3])]
        faults += [f"{text[4]}: leaves its box" for text in texts for rect in found["rects"]
                   if overlap(text, rect, 1) and not (rect[0] < text[0] and text[2] < rect[2])]
        faults += [f"{one[4]} and {other[4]}" for one, other in combinations(texts, 2) if overlap(one, other, 3)]
        return [text[4] for text in texts], faults

    def picture(self) -> bytes:
        """The page as a PNG."""
        return base64.b64decode(self.order("Page.captureScreenshot", format="png")["data"])


def overlap(one: list[Any], other: list[Any], slack: float) -> bool:
    """Whether two boxes share more than a narrow strip."""
    return all(min(one[i + 2], other[i + 2]) - max(one[i], other[i]) > slack for i in (0, 1))


class Viewer:
    """view.py in a process of its own."""

    def __init__(self, *words: str, abuf: str, folder: str | None = None) -> None:
        self.process = subprocess.Popen([sys.executable, os.path.join(program.TOOLS, "view.py"), "--no-browser", "--abuf", abuf, *words],
                                        stdout=subprocess.PIPE, cwd=folder, text=True)
        assert self.process.stdout is not None
        self.address = self.process.stdout.readline().split(" ")[0]

    def __enter__(self) -> "Viewer":
        return self

    def __exit__(self, *_: object) -> None:
        self.process.terminate()
        self.process.wait()
        assert self.process.stdout is not None
        self.process.stdout.close()


def main() -> int:
    parser = report.words(__doc__)
    parser.add_argument("folder", metavar="FOLDER")
    program.add_option(parser)
    given = parser.parse_args()
    abuf = program.path_of(given.abuf)
    folder = os.path.abspath(given.folder)

    def save(browser: Browser, name: str) -> None:
        with open(os.path.join(folder, name), "wb") as file:
            file.write(browser.picture())

    with Browser(1240, 700) as browser:
        with Viewer("lantern.obj", "--turn=8,1,0,0", abuf=abuf, folder=program.EXAMPLES) as viewer:
            browser.open(viewer.address)
            browser.wait("shown.kind === 'whole'")
            browser.drag(browser.place("#picture"), browser.place("#picture", 0.6, 0.55))
            browser.wait("view.turn.length === 4 && view.words.turn !== state.camera.turn && isAtRest()")
            browser.click(*browser.place("#picture", 0.43, 0.45))
            browser.wait("shown.pixel")
            save(browser, "view-pixel.png")
        with tempfile.TemporaryDirectory() as images:
            found = program.find(abuf)
            with open(os.path.join(program.EXAMPLES, "crossing.obj"), "rb") as file:
                scene = file.read()
            words = ["render", "--size", "40x30", "--background", "0.92,0.94,0.97", "--turn=12,5,-5,1", "--move=0,0,-3.3", "--focal", "2.25"]
            for samples in ("1", "8"):
                with open(os.path.join(images, f"samples-{samples}.pam"), "wb") as image:
                    image.write(found.output([*words, "--samples", samples], scene, program.EXAMPLES))
            with Viewer("samples-1.pam", "samples-8.pam", abuf=abuf, folder=images) as viewer:
                browser.open(viewer.address)
                browser.wait("shown.kind === 'pair'")
                browser.key("d")
                browser.wait("shown.way === 'difference'")
                save(browser, "view-compare.png")
    return report.WELL


if __name__ == "__main__":
    report.end(main)
