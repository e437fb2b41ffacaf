"""Who may not ask the editor is refused, and so is what is no good call; nothing is changed by either."""
import socket

from asking import SECONDS, Asker
from editor_process import EditorProcess, saved

SCRIPT = "kind Name Text\nkind Health Int\nspawn Name=cat Health=9\n"
SPAWN = {"session": 1, "lines": ["spawn Name=dog"]}
REQUESTS = (
    ("POST", "call", SPAWN), ("POST", "join", {}), ("POST", "lines", b"spawn Name=dog\n"), ("GET", "", None), ("PUT", "call", {}),
)  # fmt: skip
HEADERS = ("Cache-Control", "Referrer-Policy", "X-Content-Type-Options", "X-Frame-Options", "Content-Security-Policy")


def strangers(asker):
    """Headers and paths that a page of the editor never has."""
    host, port = asker.host, asker.host.partition(":")[2]
    wrong = asker.path[:-2] + ("b" if asker.path[-2] != "b" else "c") + "/"
    for path in ("/", "/call", "//", wrong, asker.path[:-3] + "/", asker.path.upper(), f"/x{asker.path}"):
        yield {}, path
    for name in ("evil.example", f"evil.example:{port}", "127.0.0.1", f"127.0.0.2:{port}", "", f"{host}1"):
        yield {"Host": name}, None
    for origin in ("http://evil.example", "null", f"https://{host}", f"http://localhost:{port}", f"http://{host}.evil"):
        yield {"Origin": origin}, None
    for site in ("cross-site", "same-site", "other"):
        yield {"Sec-Fetch-Site": site}, None


def try_strangers(asker):
    count = 0
    for headers, path in strangers(asker):
        for method, name, body in REQUESTS:
            status, answered, text = asker.ask(method, name, body, headers, path)
            assert status == 403, (method, name, headers, path, status)
            assert text.endswith(b"\n") and text.count(b"\n") == 1, text
            assert all(answered[name] for name in HEADERS), answered
            count += 1
    return count


def try_friends(asker):
    """What a browser says of the editor's own page, and of an address that was typed, is answered."""
    port = asker.host.partition(":")[2]
    for host in (asker.host, f"localhost:{port}"):
        own = {"Host": host, "Origin": f"http://{host}", "Sec-Fetch-Site": "same-origin"}
        assert asker.ask("POST", "call", {"session": 1, "lines": ["get 0v1"]}, own)[0] == 200, own
        status, headers, text = asker.ask("GET", "", None, {"Host": host, "Sec-Fetch-Site": "none"})
        assert status == 200 and text.startswith(b"<!DOCTYPE html>"), (host, status)
        assert all(headers[name] for name in HEADERS) and headers["Content-Type"].startswith("text/html"), headers


BAD_BODIES = (
    b"", b"{", b"[]", b"null", b"\xff", b"[" * 100_000, {"session": 1}, {"lines": ["spawn"]},
    {"session": 0, "lines": []}, {"session": 8, "lines": ["spawn"]}, {"session": True, "lines": ["spawn"]},
    {"session": "1", "lines": ["spawn"]}, {"session": 1, "lines": "spawn"}, {"session": 1, "lines": ["spawn", 1]},
    {"session": 1, "lines": None},
)  # fmt: skip


def try_no_calls(asker):
    """What isn't a good call, though a page asks."""
    for body in BAD_BODIES:
        assert asker.ask("POST", "call", body)[0] == 400, body
    for method in ("PUT", "DELETE", "OPTIONS", "PATCH", "HEAD", "TRACE", "FROB"):
        assert asker.ask(method, "call")[0] == 405, method
    paths = ("nothing", "join", "call", "lines", "../edit.py", "page/index.html", "%2e%2e/edit.py", "index.html/", "page.js")
    for name in paths:
        assert asker.ask("GET", name)[0] == 404, name
    for name in ("", "index.html", "events", "call?session=1"):
        assert asker.ask("POST", name, SPAWN)[0] == 404, name
    for query in ("", "?session=0", "?session=9", "?session=1&after=x", "?session=-1"):
        assert asker.ask("GET", f"events{query}")[0] == 400, query
    for name in ("lines", "lines?store=", "lines?store=refuse.db", "lines?store=/refuse.db", "lines?refuse.db"):
        assert asker.ask("POST", name, b"spawn Name=dog\n")[0] == 409, name
    for name, most in (("call", 16), ("lines", 65)):
        assert asker.ask("POST", name, b"{}", {"Content-Length": str(most * 2**20 + 1)})[0] == 413
        asker.close()
    return len(BAD_BODIES) + 7 + len(paths) + 16


def try_no_http(asker):
    """Bytes that are no request, a body that never comes, and a request without a host."""
    where, port = asker.host.split(":")
    no_host = f"GET {asker.path} HTTP/1.1\r\n\r\n"
    body = f"POST {asker.path}call HTTP/1.1\r\nHost: {asker.host}\r\nContent-Length: 60\r\n\r\n{{\"session\":1"
    for text in ("\x00\x01\r\n\r\n", f"POST {asker.path}call HTTP/1.0\r\n\r\n", body, no_host):
        with socket.create_connection((where, int(port)), timeout=SECONDS) as raw:
            raw.sendall(text.encode())
            raw.shutdown(socket.SHUT_WR)
            answer = raw.recv(65536)
        assert not answer.startswith(b"HTTP/1.1 2"), (text, answer)


def try_lengths(asker):
    """Lengths of a body that no number of Python's can be, or that are said twice: the connection is closed."""
    where, port = asker.host.split(":")
    many = "1" * 5_000, "0" * 5_000, "9" * 60_000
    for status, lengths in (*((413, [length]) for length in many), (403, ["2", "2"]), (400, ["-1"]), (400, ["2 2"])):
        said = "".join(f"Content-Length: {length}\r\n" for length in lengths)
        with socket.create_connection((where, int(port)), timeout=SECONDS) as raw:
            raw.sendall(f"POST {asker.path}call HTTP/1.1\r\nHost: {asker.host}\r\n{said}\r\n".encode())
            answer = b"".join(iter(lambda: raw.recv(65536), b""))
        assert answer.startswith(f"HTTP/1.1 {status} ".encode()), (lengths[0][:9], answer)
        assert b"\r\nConnection: close\r\n" in answer, answer
    return len(many) + 3


def try_lines_not_sent(asker):
    """Lines that the hub answers itself, of which nothing comes to the shell."""
    asker.join()
    for line in ("as 3", "mark", "changed", " added ", "a\nb", "\ud800"):
        assert asker.told(line, "spawn Name=dog") == ["bad", "bad"], line
    for text in ("begin", "spawn begin spawn", "commit", "begin begin commit", "commit begin"):
        lines = text.split()
        assert asker.told(*lines) == ["bad"] * len(lines), lines
    assert asker.told("get 0v1", "mark", "as 2", "get 0v1") == ["row", "bad", "bad", "row"]
    assert asker.told("calls 5", "depth 5", "kind A Int", "load {}") == ["bad"] * 4
    drop = '{"do":"dropframe"}'
    assert asker.told("begin", "spawn Name=dog", drop, '{"do":"status"}') == ["ok", "queued", "ok", "status"]
    assert asker.told(drop, "dropframe") == ["bad", "bad"]
    for lines in (("begin", "dropframe"), ("begin", '{"do":"dropframe","x":1}'), ("begin", drop, "commit")):
        assert asker.told(*lines) == ["bad"] * len(lines), lines


def try_refusals(program, room):
    """All of these, against one server; words of how many there were."""
    script, store = room / "refuse.scene", room / "refuse.db"
    script.write_text(SCRIPT)
    with EditorProcess(program, store, script) as editor:
        asker = Asker(editor.address)
        before = asker.join()["scene"]
        try_friends(asker)
        count = try_strangers(asker)
        count += try_no_calls(asker)
        try_no_http(asker)
        count += try_lengths(asker)
        try_lines_not_sent(asker)
        after = asker.join()["scene"]
        for part in ("text", "frames", "kinds", "phases"):
            assert after[part] == before[part], f"a refused request changed {part}"
        assert "" == editor.errors(), editor.errors()
    assert saved(program, store)["tick"] == 1
    return f"{count} requests that are to be refused were"
