"""The server of the page, on this machine alone, for who knows the token in its paths."""
import json
import select
import socket
import sys
from hmac import compare_digest
from http.server import BaseHTTPRequestHandler, ThreadingHTTPServer
from pathlib import Path
from urllib.parse import parse_qs

from sender import Sender, Unplayed, lines_in
from sessions import TABS
from strangers import MOST_STRANGERS, Strangers
from texts import json_text

HERE = Path(__file__).resolve().parent
EXAMPLES = HERE.parent.parent / "examples" / "levels"
SHARED = HERE.parent / "picture"
NOT_SHARED = ("page.js", "drive.js")
TYPES = {
    ".html": "text/html; charset=utf-8", ".css": "text/css; charset=utf-8", ".js": "text/javascript; charset=utf-8",
    ".svg": "image/svg+xml", ".png": "image/png", ".scene": "text/plain; charset=utf-8",
}  # fmt: skip
ALLOWED = "default-src 'none'; script-src 'self'; style-src 'self'; connect-src 'self'; img-src 'self' data:; "
ALLOWED += "base-uri 'none'; form-action 'none'; frame-ancestors 'none'"
HEADERS = {
    "Cache-Control": "no-store", "Referrer-Policy": "no-referrer", "X-Content-Type-Options": "nosniff",
    "X-Frame-Options": "DENY", "Content-Security-Policy": ALLOWED,
}  # fmt: skip
# In MiB: the longest line that a shell takes has 64.
MOST_BODY, MOST_LINES = 16, 65
MOST_TAB = 64
MOST_WORDS, MOST_FRAMES = 200, 1000
EXPORTS = ("dump", "dumpall")
MOST_DIGITS = 15
SECONDS_IDLE = 60
SECONDS_ALIVE = 10


class Refusal(Exception):
    """Why a request isn't done: a status and one line of text."""

    def __init__(self, status, words):
        super().__init__(words)
        self.status, self.words = status, words


def page_files():
    """The files of the page by their names; no other is ever read."""
    shared = [path for path in SHARED.glob("*.js") if path.name not in NOT_SHARED]
    own = [*(HERE / "page").glob("*"), *EXAMPLES.glob("*.scene")]
    files = {path.name: path for path in (*shared, *own) if path.suffix in TYPES}
    return {**files, "": files.get("index.html", HERE / "page" / "index.html")}


class Server(ThreadingHTTPServer):
    """Each connection has a thread, which doesn't keep the process from its end. It has a `hub` before it serves."""

    daemon_threads = True
    request_queue_size = MOST_STRANGERS

    def __init__(self, token, port=0):
        super().__init__(("127.0.0.1", port), Handler)
        self.hub, self.token, self.files, self.strangers = None, token, page_files(), Strangers()
        self.hosts = [f"{name}:{self.server_port}" for name in ("127.0.0.1", "localhost")]
        self.address = f"http://{self.hosts[0]}"

    def process_request(self, request, client_address):
        self.strangers.came(request)
        super().process_request(request, client_address)

    def service_actions(self):
        self.strangers.cut_off_late()

    def shutdown_request(self, request):
        self.strangers.forget(request)
        super().shutdown_request(request)

    def handle_error(self, request, client_address):
        """A browser that goes away is no error."""
        if not isinstance(sys.exc_info()[1], (ConnectionError, TimeoutError, socket.timeout)):
            super().handle_error(request, client_address)


class Handler(BaseHTTPRequestHandler):
    protocol_version = "HTTP/1.1"
    disable_nagle_algorithm = True
    timeout = SECONDS_IDLE
    sender = None

    def finish(self):
        try:
            super().finish()
        finally:
            if self.sender is not None:
                self.sender.end()

    def version_string(self):
        return "scene"

    def log_message(self, *words):
        """Nothing is logged: a path has the token."""

    def send_error(self, code, message=None, explain=None):
        """What is no request that can be read, and a method that has no name here."""
        self.answer(405 if code == 501 else code, f"{message or 'this is no good request'}\n", close=True)

    def __getattr__(self, name):
        """Other methods than GET and POST are refused alike, behind the tests of who asks."""
        if name.startswith("do_"):
            return lambda: self.answered(self.refuse_method)
        raise AttributeError(name)

    def do_GET(self):
        self.answered(self.get)

    def do_POST(self):
        self.answered(self.post)

    # Who asks

    def answered(self, call):
        try:
            call(self.name_asked())
        except Refusal as refusal:
            # What of the body wasn't read mustn't be taken for a further request.
            self.answer(refusal.status, f"{refusal.words}\n", close=True)

    def only_header(self, name):
        """A header's value, or None without one. One that stands twice is no browser's."""
        values = self.headers.get_all(name, [])
        if len(values) > 1:
            raise Refusal(403, f"the header {name} stands twice")
        return values[0] if values else None

    def name_asked(self):
        """What is asked for, behind the token; or the refusal of who may not ask."""
        token, _, name = self.path.removeprefix("/").partition("/")
        if not compare_digest(token.encode(), self.server.token.encode()) or not self.path.startswith("/"):
            raise Refusal(403, "the address has not the token")
        self.server.strangers.forget(self.connection)
        host, origin, site = map(self.only_header, ("Host", "Origin", "Sec-Fetch-Site"))
        if host not in self.server.hosts:
            raise Refusal(403, "the host is another one")
        if origin not in (None, f"http://{host}"):
            raise Refusal(403, "the origin is another one")
        if site not in (None, "same-origin", "none"):
            raise Refusal(403, "another site asks")
        return name

    def refuse_method(self, name):
        raise Refusal(405, "there are GET and POST alone")

    # What is answered

    def answer(self, status, text, sort="text/plain; charset=utf-8", close=False, more=None):
        content = text if isinstance(text, bytes) else text.encode()
        self.send_response(status)
        said = {**HEADERS, "Content-Type": sort, "Content-Length": str(len(content)), **(more or {})}
        for header, value in said.items():
            self.send_header(header, value)
        if close:
            self.send_header("Connection", "close")
            self.close_connection = True
        self.end_headers()
        if self.command != "HEAD":
            self.wfile.write(content)

    def get(self, name):
        name, _, query = name.partition("?")
        if name == "events":
            self.send_events(parse_qs(query))
            return
        if name == "export":
            self.send_export(parse_qs(query).get("what", [""])[0])
            return
        path = self.server.files.get(name)
        if path is None or not path.is_file():
            raise Refusal(404, "there is nothing of this name")
        self.answer(200, path.read_bytes(), TYPES[path.suffix])

    def post(self, name):
        name, mark, query = name.partition("?")
        if name == "lines":
            self.answer_lines(parse_qs(query, errors="surrogateescape"))
            return
        hub = self.server.hub
        calls = {
            "join": self.join, "call": self.call, "leave": self.leave, "frames": self.frames, "file": self.file,
        }  # fmt: skip
        if mark or name not in calls:
            raise Refusal(404, "there is nothing of this name")
        self.answer(200, calls[name](hub, self.body()), "application/json")

    def content(self, most):
        """The bytes that were sent, at most so many MiB."""
        length = self.only_header("Content-Length") or ""
        if not (length.isascii() and length.isdigit()):
            raise Refusal(400, "the body's length isn't said")
        # Python raises at a number of thousands of digits.
        if len(length) > MOST_DIGITS or int(length) > most * 2**20:
            raise Refusal(413, f"the body is longer than {most} MiB")
        content = self.rfile.read(int(length))
        if len(content) < int(length):
            raise Refusal(400, "the body was cut off")
        return content

    def body(self):
        """The JSON object that was sent."""
        try:
            body = json.loads(self.content(MOST_BODY))
        except (ValueError, RecursionError):
            raise Refusal(400, "the body is no JSON") from None
        if not isinstance(body, dict):
            raise Refusal(400, "the body is no object")
        return body

    def answer_lines(self, query):
        """Plays lines of a script, which the body has as they are, and answers each with a line. The connection is the
        script's own, as long as that runs: when it ends, a frame that is open is dropped."""
        if self.sender is None:
            self.sender = Sender(self.server.hub)
            self.connection.settimeout(None)
        content = self.content(MOST_LINES)
        try:
            answers = self.sender.send(query.get("store", [""])[0], lines_in(content))
        except Unplayed as why:
            raise Refusal(409, str(why)) from None
        self.answer(200, "".join(f"{answer}\n" for answer in answers))

    @staticmethod
    def join(hub, body):
        tab, wanted = body.get("tab"), body.get("session")
        if tab is not None and not (isinstance(tab, str) and 0 < len(tab) <= MOST_TAB):
            raise Refusal(400, f"tab has to be a text of 1 to {MOST_TAB} characters")
        return hub.join(tab, wanted if wanted is None else session_of(wanted))

    @staticmethod
    def call(hub, body):
        lines = body.get("lines")
        if not isinstance(lines, list) or not all(isinstance(line, str) for line in lines):
            raise Refusal(400, "lines has to be a list of texts")
        words, seen = body.get("words"), body.get("seen") or ()
        if words is not None and not (isinstance(words, str) and 0 < len(words) and "\n" not in words):
            raise Refusal(400, "words has to be a text of one line")
        if not (isinstance(seen, (list, tuple)) and all(isinstance(each, list) and len(each) == 3 for each in seen)):
            raise Refusal(400, "seen has to be a list of an entity, a kind and a tick each")
        if not all(isinstance(part, str) for entity, kind, _ in seen for part in (entity, kind)):
            raise Refusal(400, "seen has to be a list of an entity, a kind and a tick each")
        return hub.call(session_of(body.get("session")), lines, words and words[:MOST_WORDS], seen)

    @staticmethod
    def frames(hub, body):
        numbers = [body.get(name) for name in ("after", "first", "count")]
        if not all(isinstance(number, int) and not isinstance(number, bool) for number in numbers):
            raise Refusal(400, "after, first and count have to be numbers")
        after, first, count = numbers
        return hub.frames(after, first, max(0, min(count, MOST_FRAMES)))

    @staticmethod
    def file(hub, body):
        what, name = body.get("what"), body.get("name")
        if not isinstance(what, str) or not isinstance(name, str):
            raise Refusal(400, "what and name have to be texts")
        return json_text(hub.files.do(what, name))

    def send_export(self, what):
        """A scene text as a file to keep."""
        if what not in EXPORTS:
            raise Refusal(400, "what has to be dump or dumpall")
        text = self.server.hub.scene_text(what)
        if text is None:
            raise Refusal(409, "the scene has no text now")
        name = f"{self.server.hub.store.stem}.{'world' if what == 'dump' else 'scene'}.json"
        kept = "".join(letter if letter.isascii() and letter.isalnum() or letter in "._-" else "_" for letter in name)
        self.answer(200, text, "application/json", more={"Content-Disposition": f'attachment; filename="{kept}"'})

    @staticmethod
    def leave(hub, body):
        seat = body.get("seat")
        if isinstance(seat, bool) or not isinstance(seat, int):
            raise Refusal(400, "seat has to be the number that a join gave")
        hub.leave(seat)
        return "{}"

    # Events

    def send_events(self, query):
        session = session_of(whole_number(query.get("session", [""])[0]))
        cursor = whole_number(self.headers.get("Last-Event-ID") or query.get("after", ["0"])[0])
        self.send_response(200)
        for header, value in (*HEADERS.items(), ("Content-Type", "text/event-stream"), ("Connection", "close")):
            self.send_header(header, value)
        self.end_headers()
        self.close_connection = True
        seat = self.server.hub.stream_opened(session)
        try:
            self.stream(cursor)
        finally:
            self.server.hub.stream_closed(seat)

    def stream(self, cursor):
        """Sends events until the tab or the server goes. A tab that reads too slowly for its events gets all anew."""
        hub, quiet = self.server.hub, SECONDS_ALIVE
        while not hub.events.is_closed and not self.is_left():
            if quiet >= SECONDS_ALIVE:
                self.wfile.write(b": here\n\n")
                quiet = 0
            events = hub.events.after(cursor, 1)
            if events is None:
                cursor, whole = hub.whole_event()
                self.wfile.write(whole)
                continue
            cursor += len(events)
            quiet = 0 if events else quiet + 1
            self.wfile.write(b"".join(events))

    def is_left(self):
        """Whether the tab has closed the stream, which a write would tell only at the second time."""
        readable, _, _ = select.select([self.connection], [], [], 0)
        return bool(readable) and self.connection.recv(1, socket.MSG_PEEK) == b""


def whole_number(text):
    if not (text.isascii() and text.isdigit() and len(text) <= MOST_DIGITS):
        raise Refusal(400, "a number was asked for")
    return int(text)


def session_of(number):
    if isinstance(number, bool) or not isinstance(number, int) or number not in TABS:
        raise Refusal(400, "session has to be a number of 1 to 7")
    return number
