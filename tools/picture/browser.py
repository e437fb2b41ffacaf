"""Uses pages in a browser without a window: a page of its own, served on this machine alone, has them in a frame, where
drive.js does what a user would and tells what it saw."""
import json
import os
import shutil
import subprocess
import tempfile
import threading
from http.server import BaseHTTPRequestHandler, ThreadingHTTPServer
from pathlib import Path

HERE = Path(__file__).resolve().parent
BROWSERS = ("chromium", "chromium-browser", "google-chrome", "firefox")
SECONDS, SECONDS_TO_END = 120, 10
DRIVER = b'<!DOCTYPE html><meta charset="utf-8"><iframe width="1200" height="800"></iframe><script src="/drive.js"></script>'


def browser_named():
    """The path of a browser, or None."""
    return next(filter(None, map(shutil.which, BROWSERS)), None)


def command_of(browser, room, address):
    if "firefox" in Path(browser).name:
        return [browser, "--headless", "--no-remote", "--profile", room, address]
    words = [browser, "--headless", "--disable-gpu", "--no-first-run", f"--user-data-dir={room}"]
    # A browser that runs as root takes no sandbox; the pages are this tool's own.
    return [*words, *(["--no-sandbox"] if os.geteuid() == 0 else []), address]


def served(pages, told):
    """A server of the driver and the pages, which hears what was seen."""
    files = {"/": (DRIVER, "text/html"), "/drive.js": ((HERE / "drive.js").read_bytes(), "text/javascript")}
    files.update({f"/page/{at}": (page, "text/html; charset=utf-8") for at, page in enumerate(pages)})

    class Handler(BaseHTTPRequestHandler):
        def do_GET(self):
            content, sort = files.get(self.path, (b"", "text/plain"))
            self.send_response(200 if self.path in files else 404)
            self.send_header("Content-Type", sort)
            self.end_headers()
            self.wfile.write(content)

        def do_POST(self):
            told.append(json.loads(self.rfile.read(int(self.headers["Content-Length"]))))
            self.send_response(204)
            self.end_headers()
            threading.Thread(target=self.server.shutdown).start()

        def log_message(self, *words):
            pass

    # A browser may open a connection on which it asks nothing, and another one beside it.
    return ThreadingHTTPServer(("127.0.0.1", 0), Handler)


def seen_in(browser, pages):
    """What drive.js saw of the pages."""
    told = []
    server = served(pages, told)
    room, address = tempfile.mkdtemp(), f"http://127.0.0.1:{server.server_port}/"
    ran = subprocess.Popen(command_of(browser, room, address), stdout=subprocess.DEVNULL, stderr=subprocess.DEVNULL)
    timer = threading.Timer(SECONDS, server.shutdown)
    timer.start()
    try:
        server.serve_forever()
    finally:
        timer.cancel()
        server.server_close()
        ran.terminate()
        try:
            ran.wait(SECONDS_TO_END)
        except subprocess.TimeoutExpired:
            ran.kill()
            ran.wait()
        shutil.rmtree(room, ignore_errors=True)
    assert told, f"{browser} said nothing in {SECONDS} seconds"
    return told[0]


def try_in_browser(browser, pages, markup, many):
    """A page of names with markup and one of many entities show and do what they have to."""
    seen = seen_in(browser, pages)
    assert "fault" not in seen, seen["fault"]
    marked, large = seen["pages"]
    assert marked["title"] == "A scene" and marked["strange"] == [], (marked["title"], marked["strange"])
    for name in markup:
        text = f"Name={json.dumps(name)}"
        assert any(text in line for line in marked["forest"]), f"no line of the forest has {text}"
    assert large["moments"] == [
        ["after frame 3 of 3, tick 3 (now)", f"{many} entities"], ["after frame 0 of 3, tick 0 (past)", "0 entities"],
        ["after frame 1 of 3, tick 1 (past)", f"{many} entities"], ["after frame 2 of 3, tick 2 (past)", f"{many} entities"],
    ], large["moments"]  # fmt: skip
    assert large["change"].endswith(" 77v1 Number 77 → 5"), large["change"]
    assert large["found"] == f"1 of {many} entities found" and large["lines"][-1].startswith("1234v1 "), large["lines"]
    assert large["folded"] == 1 and large["unfolded"] == 10, (large["folded"], large["unfolded"])
    assert large["last"].startswith(f"{many - 1}v1"), large["last"]
    assert 0 < large["drawn"] < 200, large["drawn"]
    assert large["chosen"].startswith(f"{many - 1}v1") and "Number (Int)" in large["chosen"], large["chosen"]
