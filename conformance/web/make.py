#!/usr/bin/env python3
"""Makes index.html, which tests a browser's WebGPU, from page.html and the .tri files of the suite.

    make.py             checks that index.html is current
    make.py --write     writes it anew
    make.py --run FILE  opens it in a headless chromium with SwiftShader, and keeps its results

The status is 0, or 1 where index.html isn't current, or 2 where something is missing or fails.
"""

from __future__ import annotations

import argparse
import http.server
import json
import os
import shutil
import signal
import subprocess
import sys
import tempfile
import threading

HERE = os.path.dirname(os.path.abspath(__file__))
sys.path.insert(0, os.path.dirname(HERE))

from testing.cases import SUITE, scenes  # noqa: E402
from testing.faults import Unusable, read_text  # noqa: E402

PAGE = os.path.join(HERE, "index.html")
PLACE = "/*SCENES*/{}"
SECONDS = 300  # the most that a browser may take
CHROMIUM = ["--headless=new", "--no-sandbox", "--no-first-run", "--enable-unsafe-webgpu",
            "--use-webgpu-adapter=swiftshader", "--enable-features=Vulkan"]


def page_text() -> str:
    page = read_text(os.path.join(HERE, "page.html"))
    if page.count(PLACE) != 1:
        raise Unusable("page.html has no place for the scenes")
    texts = {name: read_text(os.path.join(SUITE, name + ".tri")) for name in scenes()}
    return page.replace(PLACE, json.dumps(texts, separators=(",", ":")))


class Server(http.server.ThreadingHTTPServer):
    """Serves the page alone, and takes its results."""

    def __init__(self, page: bytes) -> None:
        super().__init__(("127.0.0.1", 0), Handler)
        self.page, self.results, self.came = page, b"", threading.Event()


class Handler(http.server.BaseHTTPRequestHandler):
    server: Server

    def do_GET(self) -> None:
        self.send_response(200)
        self.send_header("Content-Type", "text/html; charset=utf-8")
        self.end_headers()
        self.wfile.write(self.server.page)

    def do_POST(self) -> None:
        self.server.results = self.rfile.read(int(self.headers["Content-Length"]))
        self.send_response(204)
        self.end_headers()
        self.server.came.set()

    def log_message(self, *_: object) -> None:
        pass


def results_of_browser() -> bytes:
    if shutil.which("chromium") is None:
        raise Unusable("there is no chromium; install chromium")
    server = Server(page_text().encode())
    threading.Thread(target=server.serve_forever, daemon=True).start()
    with tempfile.TemporaryDirectory(ignore_cleanup_errors=True) as home:
        browser = subprocess.Popen(["chromium", *CHROMIUM, f"--user-data-dir={home}",
                                    f"http://127.0.0.1:{server.server_port}/?post"],
                                   stdout=subprocess.DEVNULL, stderr=subprocess.DEVNULL, start_new_session=True)
        came = server.came.wait(SECONDS)
        os.killpg(browser.pid, signal.SIGKILL)
        browser.wait()
    if not came:
        raise Unusable(f"the browser gave no results within {SECONDS} s")
    if why := json.loads(server.results).get("failed"):
        raise Unusable(f"the browser says: {why}")
    return server.results


def main() -> None:
    parser = argparse.ArgumentParser(description=__doc__, formatter_class=argparse.RawDescriptionHelpFormatter)
    parser.add_argument("--write", action="store_true")
    parser.add_argument("--run", metavar="FILE")
    given = parser.parse_args()
    try:
        if given.write:
            with open(PAGE, "w", encoding="utf-8") as file:
                file.write(page_text())
        elif given.run:
            results = results_of_browser()
            with open(given.run, "wb") as file:
                file.write(results)
        elif not os.path.exists(PAGE) or read_text(PAGE) != page_text():
            print("make.py: index.html isn't current; write it anew with --write")
            sys.exit(1)
    except (Unusable, OSError) as why:
        print(f"make.py: {why}", file=sys.stderr)
        sys.exit(2)


if __name__ == "__main__":
    main()
