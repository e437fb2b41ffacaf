"""Asks the server of an editor as a page would, and as who may not ask."""
import http.client
import json
from urllib.parse import urlsplit

SECONDS = 60
# Texts that no line of a script says, or that look like more than a text.
TEXTS = (
    "Big House", 'a "quoted" one', "back\\slash \\n", "two\nlines\r\n", "Кузница 🔥", " ", "a -> done 0v1", "+0 0v1 begin",
    "\u2028\u202e\0\x7f", '{"do":"undo"}', "",
)  # fmt: skip


def read_told(text):
    """What a tab is told: an object, and in it its record or those of its scene, which stand on lines of their own."""
    first, *records = text.split("\n")
    told, held = json.loads(first), list(map(json.loads, records))
    scene = told.get("scene", {})
    if scene.get("text") is not None:
        scene["text"].update(undo=held[: scene["position"]], redo=held[scene["position"] :])
    elif held:
        told["record"] = held[0]
    return told


class Asker:
    """A tab that speaks to the server of an address by HTTP."""

    def __init__(self, address):
        parts = urlsplit(address)
        self.host, self.path = parts.netloc, parts.path
        self.connection = http.client.HTTPConnection(self.host, timeout=SECONDS)
        self.session, self.seat, self.scene = None, None, None

    def ask(self, method, name, body=None, headers=None, path=None):
        """The status, the headers and the content of an answer."""
        text = body if body is None or isinstance(body, bytes) else json.dumps(body).encode()
        self.connection.request(method, (self.path if path is None else path) + name, text, headers or {})
        answer = self.connection.getresponse()
        return answer.status, answer.headers, answer.read()

    def post(self, name, body):
        status, _, content = self.ask("POST", name, body)
        assert status == 200, (name, status, content)
        return read_told(content.decode())

    def join(self, **body):
        answer = self.post("join", body)
        self.session, self.seat, self.scene = map(answer.get, ("session", "seat", "scene"))
        return answer

    def leave(self):
        self.post("leave", {"seat": self.seat})

    def call(self, *lines):
        """The answers to lines, or None where the shell was gone."""
        return self.post("call", {"session": self.session, "lines": list(lines)}).get("answers")

    def told(self, *lines):
        return [answer["answer"] for answer in self.call(*lines)]

    def text(self):
        """The scene, as the program prints it."""
        return self.call("dumpall")[0]["text"]

    def events(self, after=0, headers=None):
        return Stream(self, after, headers)

    def close(self):
        self.connection.close()


class Stream:
    """A stream of events."""

    def __init__(self, asker, after, headers=None):
        self.connection = http.client.HTTPConnection(asker.host, timeout=SECONDS)
        query = f"events?session={asker.session}&after={after}"
        self.connection.request("GET", asker.path + query, headers=headers or {})
        self.answer = self.connection.getresponse()
        assert self.answer.status == 200, (self.answer.status, self.answer.read())

    def next(self):
        """The number and the data of the next event."""
        number, text = self.next_text()
        return number, read_told(text)

    def next_text(self):
        parts = {}
        while True:
            line = self.answer.readline().decode()
            assert line, "the stream has ended"
            name, _, text = line.rstrip("\n").partition(": ")
            parts.setdefault(name, []).append(text)
            if line == "\n" and "data" in parts:
                return int(parts["id"][0]), "\n".join(parts["data"])

    def until(self, *sorts):
        """The events up to the first of these sorts, which is the last."""
        found = [self.next()[1]]
        while found[-1]["sort"] not in sorts:
            found.append(self.next()[1])
        return found

    def close(self):
        self.answer.close()
        self.connection.close()
