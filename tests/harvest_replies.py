"""harvest_replies.py WORK: bodies and replies that no server should send, and files that aren't the
harvester's; harvest.sh has the rest."""
import contextlib
import errno
import importlib.machinery
import importlib.util
import io
import json
import os
import socketserver
import ssl
import subprocess
import sys
import threading
import time
from unittest import mock

from served import BASE, Table

HARVEST = os.path.join(os.path.dirname(os.path.dirname(os.path.abspath(__file__))), "tools",
                       "harvest")
STREAM, ONE, TWO, THREE = ("/changes", "/changes?page=1", "/changes?page=2", "/changes?page=3")
MOMENT = "2024-05-01T10:00:00Z"


def harvest_module():
    """The script as a module, so that a table of many rows takes seconds."""
    loader = importlib.machinery.SourceFileLoader("harvest", HARVEST)
    module = importlib.util.module_from_spec(importlib.util.spec_from_loader("harvest", loader))
    sys.modules["harvest"] = module
    loader.exec_module(module)
    return module


class Replies(socketserver.ThreadingTCPServer):
    """Replies with the bytes that stand for a target, and then ends the connection where it is said
    so. What isn't there is a 404."""
    allow_reuse_address = True
    daemon_threads = True

    def __init__(self, secure=None):
        super().__init__(("127.0.0.1", 0), OneClient)
        self.secure = secure
        self.replies, self.closes, self.pause = {}, True, 0
        self.targets, self.heads = [], []
        threading.Thread(target=self.serve_forever, daemon=True).start()

    def get_request(self):
        """A connection, by TLS where the server has a certificate."""
        link, client = super().get_request()
        return (self.secure.wrap_socket(link, server_side=True) if self.secure else link), client


class OneClient(socketserver.StreamRequestHandler):
    def handle(self):
        with contextlib.suppress(OSError):
            while self.answer() and not self.server.closes:
                pass

    def answer(self):
        """Whether there was a request."""
        lines = self.head()
        if not lines:
            return False
        target = lines[0].split()[1]
        self.server.targets.append(target)
        self.server.heads.append(lines)
        reply = self.server.replies.get(target, replied(b"", "404 Not Found"))
        if not self.server.pause:
            self.wfile.write(reply)
            return True
        for byte in reply:
            self.wfile.write(bytes([byte]))
            time.sleep(self.server.pause)
        return True

    def head(self):
        """The lines of a request's head, or none where the connection has ended."""
        lines = []
        while (line := self.rfile.readline()) not in (b"", b"\r\n"):
            lines.append(line.decode().rstrip("\r\n"))
        return lines


def replied(body, status="200 OK", fields=()):
    """The bytes of a reply."""
    lines = [f"HTTP/1.1 {status}", *fields, f"Content-Length: {len(body)}", "", ""]
    return "\r\n".join(lines).encode() + body


def headed(*lines, body=b""):
    """The bytes of a reply with a head of these lines."""
    return "\r\n".join(["HTTP/1.1 200 OK", *lines, "", ""]).encode() + body


def written(tree):
    return tree if isinstance(tree, bytes) else json.dumps(tree).encode()


def page_at(number):
    return {"id": f"{BASE}/changes?page={number}", "type": "OrderedCollectionPage"}


def stream(total=3, last=None, **others):
    return {"totalItems": total, "last": page_at(3) if last is None else last,
            "type": "OrderedCollection", **others}


def change(name, change_type="Create", kind="Annotation", moment=MOMENT):
    return {"endTime": moment, "type": change_type,
            "object": {"id": f"{BASE}/annotations/mara/{name}", "type": kind}}


def page(start, items, prev=None, **others):
    found = {"startIndex": start, "orderedItems": items, "type": "OrderedCollectionPage", **others}
    return found if prev is None else {**found, "prev": prev}


def without(tree, *names):
    return {name: value for name, value in tree.items() if name not in names}


# A stream of three changes, on pages of one.
GOOD = {
    STREAM: stream(),
    THREE: page(2, [change("n3")], page_at(2)),
    TWO: page(1, [change("n2")], page_at(1)),
    ONE: page(0, [change("n1")]),
}
STREAM_BYTES = written(GOOD[STREAM])


def bodies_of_the_stream():
    """What `/changes` may not be: the name of the refusal, what it shows, and the body."""
    yield "total", "no totalItems", without(stream(), "totalItems")
    yield "total", "a totalItems below 0", stream(-1)
    yield "total", "a totalItems that is true", stream(True)
    yield "total", "a totalItems that is a text", stream("3")
    yield "total", "an array in place of the stream", [stream()]
    yield "total", "a text in place of the stream", b'"changes"'
    yield "fewer", "fewer changes than are known", stream(1)
    yield "last", "no last page", without(stream(), "last")
    yield "last", "a last page that is a text", stream(last=f"{BASE}/changes?page=3")
    yield "last", "a last page without an id", stream(last={"type": "OrderedCollectionPage"})
    yield "last", "a last page whose id is a number", stream(last={"id": 3})
    for iri in ("http://b.example/changes?page=3", BASE + ".org/changes", BASE, "",
                BASE + "/changes page=3", BASE + "/changes\r\nX: y", BASE + "/\u00e4",
                BASE + "@b.example/changes", "/changes?page=3"):
        yield "outside", f"a last page at {iri!r}", stream(last={"id": iri})
    yield from bodies_of_no_json()


def bodies_of_no_json():
    """What is no JSON, or is of numbers and levels that aren't taken."""
    for what, body in (("nothing", b""), ("half of an object", STREAM_BYTES[:-1]),
                       ("a page of HTML", b"<html></html>"), ("two objects", b"{}{}"),
                       ("bytes that aren't UTF-8", b'{"a":"\xff"}'),
                       ("a mark of the order of bytes", b"\xef\xbb\xbf{}"),
                       ("half of a pair of UTF-16", b'{"a":"\\ud800"}'),
                       ("a name that is half of a pair", b'{"\\udc00":1}'),
                       ("NaN", b'{"totalItems":NaN}'), ("Infinity", b"[-Infinity]")):
        yield "json", what, body
    for what, number in (("a fraction", b"3.0"), ("an exponent", b"3e0"),
                         ("2 to the 64th", b"18446744073709551616"),
                         ("a number of 100,000 digits", b"9" * 100_000),
                         ("below -2 to the 63rd", b"-9223372036854775809")):
        yield "not_whole", what, b'{"totalItems":' + number + b"}"
    for levels in (101, 500, 100_000, 4_000_000):
        yield "deep", f"{levels:,} levels", b"[" * levels + b"]" * levels


def activities():
    """What no activity is."""
    for what, item in (("a text", "Create"), ("an object without members", {}),
                       ("no type", without(change("n3"), "type")),
                       ("a type Move", change("n3", "Move")),
                       ("no moment", without(change("n3"), "endTime")),
                       ("no object", without(change("n3"), "object")),
                       ("an object that is a text", {**change("n3"), "object": "n3"}),
                       ("an object without an id",
                        {**change("n3"), "object": {"type": "Manifest"}}),
                       ("a canvas", change("n3", kind="Canvas")),
                       ("an object of several types", change("n3", kind=["Annotation"]))):
        yield what, item
    for moment in ("2024-05-01", "2024-05-01T10:00:00", "2023-02-29T10:00:00Z",
                   "2024-05-01T24:00:00Z", "2024-05-01T10:00:60Z", "2024-05-01T10:00:00+00:00",
                   "2024-13-01T10:00:00Z", 0, None):
        yield f"the moment {moment!r}", change("n3", moment=moment)


def bodies_of_pages():
    """What a page may not be: the name of the refusal, what it shows, the target, and the body."""
    for target, start, name in ((THREE, 2, "n3"), (TWO, 1, "n2")):
        good, items = GOOD[target], [change(name)]
        yield "start", "no startIndex", target, without(good, "startIndex")
        yield "start", "a startIndex below 0", target, page(-1, items, page_at(1))
        yield "start", "a startIndex that is true", target, page(True, items, page_at(1))
        yield "items", "no orderedItems", target, without(good, "orderedItems")
        yield "items", "orderedItems that are an object", target, page(start, {}, page_at(1))
        yield "start", "a page that is an array", target, [good]
        yield "end", "a page that begins too early", target, page(start - 1, items, page_at(1))
        yield "end", "a page without its change", target, page(start, [], page_at(1))
        yield "empty", "a page that is empty where it should end", target, \
            page(start + 1, [], page_at(1))
        yield "prev", "no page before", target, without(good, "prev")
        yield "prev", "a page before without an id", target, page(start, items, {})
        yield "prev", "a page before that is a text", target, page(start, items, ONE)
        yield "outside", "a page before at another server", target, \
            page(start, items, {"id": "http://b.example/changes?page=1"})
        yield "json", "no JSON", target, b"<html></html>"
        yield "deep", "too many levels", target, b"[" * 101 + b"]" * 101
    yield "end", "a page that begins too late", TWO, page(2, [change("n2")], page_at(1))
    yield "end", "a page with a change twice", TWO, \
        page(1, [change("n2"), change("n2")], page_at(1))
    yield "end", "a first page that begins at 1", ONE, page(1, [change("n1")])
    yield "grown", "a last page with more changes than the stream", THREE, \
        page(2, [change("n3"), change("n4")], page_at(2))
    for what, item in activities():
        yield "activity", f"an activity with {what}", THREE, page(2, [item], page_at(2))


def circles():
    """Pages that name themselves, each other or a later one: the refusal, what it shows, the target
    that is refused, and the bodies."""
    yield "end", "a page that names itself", THREE, {THREE: page(2, [change("n3")], page_at(3))}
    yield "end", "a page that names a later one", THREE, {TWO: page(1, [change("n2")], page_at(3))}
    yield "empty", "a page that names itself and begins at the end", THREE, {
        THREE: page(3, [], page_at(3))}
    yield "end", "two pages that name each other and begin at one place", ONE, {
        STREAM: stream(2, page_at(2)), TWO: page(1, [change("n2")], page_at(1)),
        ONE: page(1, [change("n1")], page_at(2))}
    yield "empty", "a startIndex that doesn't fall", TWO, {TWO: page(2, [], page_at(2))}


def replies():
    """What is no reply, or none that is taken: the name, what it shows, and the bytes."""
    body = STREAM_BYTES
    length = f"Content-Length: {len(body)}"
    for status in ("201 Created", "301 Moved Permanently", "401 Unauthorized", "404 Not Found",
                   "500 Internal Server Error", "503 Service Unavailable"):
        fields = ["Location: http://b.example/"] if status.startswith("3") else []
        yield "status", f"the status {status}", replied(body, status, fields)
    yield "status", "the status 204, without a length", b"HTTP/1.1 204 No Content\r\n\r\n"
    yield "length", "no length", headed("Content-Type: application/json", body=body)
    yield "length", "two lengths that are one", headed(length, length, body=body)
    yield "length", "two lengths", headed(length, "content-length: 3", body=body)
    yield "length", "a length of eleven digits", headed(f"Content-Length: {len(body):011}",
                                                        body=body)
    yield "length", "a length below 0", headed("Content-Length: -1", body=body)
    yield "length", "a length with a sign", headed(f"Content-Length: +{len(body)}", body=body)
    yield "length", "lengths in one field", headed(f"{length}, {len(body)}", body=body)
    yield "length", "a length of nothing", headed("Content-Length:", body=body)
    yield "large", "a length above 16 MiB", headed("Content-Length: 16777217", body=body)
    yield "large", "a length of ten digits", headed("Content-Length: 9999999999", body=body)
    yield "coded", "a body in pieces", headed("Transfer-Encoding: chunked", body=b"0\r\n\r\n")
    yield "coded", "a body in pieces with a length", headed(length, "Transfer-Encoding: chunked")
    yield "head", "65 fields", headed(length, *["X: y"] * 64, body=body)
    yield "head", "a head of 16,385 bytes", long_head(16_385)
    yield "head", "a head without an end", b"HTTP/1.1 200 OK\r\n" + b"X: y\r\n" * 100_000
    yield "head", "no status", b"200 OK\r\n\r\n"
    yield "head", "HTTP/2", b"HTTP/2 200\r\n\r\n"
    yield "head", "a status of four digits", b"HTTP/1.1 2000 OK\r\n\r\n"
    yield "head", "a field without a colon", headed(length, "X y", body=body)
    yield "head", "a field that goes on in the next line", headed(length, "X: y", " z", body=body)
    yield "head", "a blank before a colon", headed(length, "X : y", body=body)
    yield "head", "a carriage return in a field", headed(length, "X: y\rz", body=body)
    yield "cut", "no byte", b""
    yield "cut", "a length of one byte too many", headed(f"Content-Length: {len(body) + 1}",
                                                         body=body)


def long_head(size):
    """A reply whose head has so many bytes with its empty line."""
    body = STREAM_BYTES
    short = len(headed(f"Content-Length: {len(body)}", "X: "))
    return headed(f"Content-Length: {len(body)}", "X: " + "y" * (size - short), body=body)


class Player:
    """Runs the harvester against replies, over a file of what is known."""

    def __init__(self, work, table):
        self.module = harvest_module()
        self.server = Replies()
        self.table = table
        self.folder = os.path.join(work, "replies")
        os.mkdir(self.folder)
        self.path = os.path.join(self.folder, "known.json")
        self.at = f"http://127.0.0.1:{self.server.server_address[1]}"

    def know(self, items=0, names=()):
        """Writes what is known."""
        objects = {f"{BASE}/annotations/mara/{name}": "Annotation" for name in names}
        self.keep({"base": BASE, "items": items, "objects": objects})

    def keep(self, tree):
        with open(self.path, "wb") as file:
            file.write(written(tree))

    def serve(self, others=None, raw=None):
        """Serves the good stream but for these bodies and these replies."""
        bodies = {**GOOD, **(others or {})}
        self.server.replies = {target: replied(written(body)) for target, body in bodies.items()}
        self.server.replies.update(raw or {})
        self.server.targets, self.server.heads = [], []

    def run(self, *words):
        """The status, what is printed, and why it is refused."""
        out, why = io.StringIO(), io.StringIO()
        with contextlib.redirect_stdout(out), contextlib.redirect_stderr(why):
            try:
                status = self.module.main([*words, "--at", self.at, BASE, self.path])
            except SystemExit as ended:
                status = ended.code
        return status, out.getvalue(), why.getvalue()

    def bytes_kept(self):
        with open(self.path, "rb") as file:
            return file.read()

    def is_refused(self, status, name, target, *words):
        """Whether a run is refused so, prints nothing else, and leaves the file; and why."""
        before = self.bytes_kept()
        found, out, why = self.run(*words)
        begin = f"refused: {name} {target}".rstrip() + ": "
        is_due = found == status and why.startswith(begin) and why.count("\n") == 1
        is_kept = self.bytes_kept() == before and os.listdir(self.folder) == ["known.json"]
        return is_due and is_kept and not out, f"{found}, {why.strip()}"

    def refuse(self, what, status, name, target, *words):
        is_due, told = self.is_refused(status, name, target, *words)
        self.table.row(what, is_due, told)

    def accept(self, what, due, targets=None):
        """A run that goes well, prints these lines, and gets these targets."""
        status, out, why = self.run()
        lines = [f" {BASE}/annotations/mara/".join(line.rsplit(" ", 1)) for line in due]
        is_due = status == 0 and out.splitlines() == lines and not why
        if targets is not None:
            is_due = is_due and self.server.targets == targets
        self.table.row(what, is_due, why.strip() or f"{len(lines)} lines")


def play_bodies(player):
    for name, what, body in bodies_of_the_stream():
        player.know(2, ["n1", "n2"])
        player.serve({STREAM: body})
        player.refuse(what, 3, name, STREAM)
    for name, what, target, body in bodies_of_pages():
        player.know(0, ["n0"])
        player.serve({target: body})
        player.refuse(f"{what}, at {target}", 3, name, target)
    for name, what, target, bodies in circles():
        player.know(0, ["n0"])
        player.serve(bodies)
        player.refuse(what, 3, name, target)
    player.know()
    player.serve()
    player.refuse("more pages than are asked for", 3, "pages", ONE, "--pages", "2")


def play_replies(player):
    player.know(0, ["n0"])
    for name, what, reply in replies():
        player.serve(raw={STREAM: reply})
        player.refuse(what, 6 if name == "status" else 5, name, STREAM)
    for target in (STREAM, TWO):
        reply = replied(written(GOOD[target]))
        wrong = []
        for end in range(len(reply)):
            player.serve(raw={target: reply[:end]})
            is_due, told = player.is_refused(5, "cut", target)
            if not is_due:
                wrong.append((end, told))
        player.table.row(f"{target} cut at each of {len(reply)} bytes", not wrong, wrong or "")
    player.serve(raw={STREAM: headed("Content-Length: 16777216", body=b"[" * (1 << 24))})
    player.refuse("a body of 16 MiB that is no JSON", 3, "deep", STREAM)
    play_slow(player)


def play_slow(player):
    """A reply that comes a byte at a time ends with the time that it has."""
    player.module.SECONDS, player.server.pause = 1, 0.2
    player.serve()
    began = time.monotonic()
    player.refuse("a byte each fifth of a second", 5, "slow", STREAM)
    player.table.row("it is given up in time", time.monotonic() - began < 3)
    player.module.SECONDS, player.server.pause = 60, 0


def play_files(player):
    player.serve()
    for what, name, tree in (("another BASE", "base", {"base": "http://b.example", "items": 0,
                                                        "objects": {}}),
                             ("no JSON", "known", b"{"), ("nothing", "known", b""),
                             ("an array", "known", []), ("no objects", "known", {"items": 0}),
                             ("an object that is no text", "known", {
                                 "base": BASE, "items": 0, "objects": {"a": []}}),
                             ("a canvas", "known", {
                                 "base": BASE, "items": 0, "objects": {"a": "Canvas"}}),
                             ("a number below 0", "known", {
                                 "base": BASE, "items": -1, "objects": {}})):
        player.keep(tree)
        player.refuse(f"a file with {what}", 4, name, "")
    player.know()
    path = player.path
    for what, wrong in (("a folder that isn't there", os.path.join(player.folder, "no", "known")),
                        ("a path that is a folder", player.folder)):
        player.path = wrong
        status, _, why = player.run()
        player.table.row(what, status == 4 and why.startswith("refused: file: "), why.strip())
    player.path = path
    play_failing_disk(player)


def play_failing_disk(player):
    """A disk that is full as the file is written, and one that fails as it is put in its place."""
    for name in ("fsync", "replace"):
        player.know(1, ["n1"])
        before = player.bytes_kept()
        with mock.patch.object(os, name, side_effect=OSError(errno.ENOSPC, "No space left")):
            status, _, why = player.run()
        player.table.row(
            f"a disk that fails at {name}", status == 4 and why.startswith("refused: file: ")
            and player.bytes_kept() == before and os.listdir(player.folder) == ["known.json"],
            why.strip())


def play_words(player):
    """Words that aren't understood, none of which asks the server."""
    player.know()
    player.serve()
    empty = os.path.join(os.path.dirname(player.folder), "empty.token")
    with open(empty, "w"):
        pass
    for words in (["--pages", "0"], ["--token-file", empty], ["--token-file", empty + ".not"],
                  ["--token-variable", "NOT_THERE"], ["--at", "ftp://a.example"], ["--token", "x"],
                  ["--at", "http://a.example/"], ["--at", "http://a.example:port"],
                  ["--at", "http://"], ["more"]):
        before = player.bytes_kept()
        status, out, _ = player.run(*words)
        player.table.row(f"the words {' '.join(map(os.path.basename, words))}",
                         status == 2 and not out and player.bytes_kept() == before
                         and not player.server.targets, str(status))


def play_good(player):
    """What is taken, and which pages are got for it."""
    player.know()
    player.serve()
    player.accept("three pages from nothing", [f"new Annotation n{n}" for n in (1, 2, 3)],
                  [STREAM, THREE, TWO, ONE])
    player.serve()
    player.accept("the last page, where all is known", [], [STREAM, THREE])
    more = {STREAM: stream(5, page_at(4)), "/changes?page=4": page(
        3, [change("n1", "Delete"), change("n2", "Update")], page_at(3))}
    player.serve(more)
    player.accept("the first page that begins where all is known ends it",
                  ["gone Annotation n1", "changed Annotation n2"], [STREAM, "/changes?page=4"])
    player.know(2, ["n1", "n2"])
    player.serve({STREAM: stream(3, {"id": BASE + "/changes?page=1"}),
                  ONE: page(0, [change("n1", "Delete"), change("n2", "Delete"), change("n3")],
                            {"id": "http://b.example/"})})
    player.accept("known changes of a page are passed over, and so is a `prev` that isn't needed",
                  ["new Annotation n3"], [STREAM, ONE])
    player.know()
    player.serve({TWO: page(1, [change("n1", "Delete")], page_at(1)),
                  THREE: page(2, [change("n1")], page_at(2))})
    player.accept("of an object its last change counts", ["new Annotation n1"])
    player.know()
    player.serve({THREE: page(2, [change("n2", "Delete")], page_at(2))})
    player.accept("made and deleted since", ["new Annotation n1"])
    player.know()
    player.serve({STREAM: stream(label={"a": [1, None, True]}, first=3),
                  ONE: page(0, [{**change("n1"), "actor": {}, "endTime": "0000-02-29T00:00:00Z"}])})
    player.accept("members that it doesn't know, and the leap year 0",
                  [f"new Annotation n{n}" for n in (1, 2, 3)])


def play_good_replies(player):
    """Replies at the limits, and connections that are kept, closed, or closed without a word."""
    body = STREAM_BYTES
    lines = [f"new Annotation n{n}" for n in (1, 2, 3)]
    length = f"Content-Length: {len(body)}"
    for what, reply in (("64 fields", headed(length, *["X: y"] * 63, body=body)),
                        ("a head of 16,384 bytes", long_head(16_384)),
                        ("a length of ten digits", headed(f"CONTENT-LENGTH:{len(body):010}",
                                                          body=body)),
                        ("HTTP/1.0", headed(length, body=body).replace(b"/1.1", b"/1.0", 1)),
                        ("100 levels", replied(
                            written(stream(x=1)).replace(b"1}", b"[" * 99 + b"]" * 99 + b"}")))):
        player.know()
        player.serve(raw={STREAM: reply})
        player.accept(what, lines)
    for what, field, closes in (("connections that are kept", "X: y", False),
                                ("connections that say that they close", "Connection: close", True),
                                ("connections that close without a word", "X: y", True)):
        player.know()
        player.serve()
        player.server.closes = closes
        player.server.replies = {target: reply.replace(b"\r\n", f"\r\n{field}\r\n".encode(), 1)
                                 for target, reply in player.server.replies.items()}
        player.accept(what, lines)
    player.server.closes = False
    player.know()
    player.serve(raw={STREAM: replied(body) + replied(written(GOOD[THREE])), THREE: b""})
    player.accept("bytes behind a reply begin the next one", lines)
    player.server.closes = True


def play_secure(player):
    """By TLS the server has to show a certificate of its name."""
    folder = os.path.dirname(player.folder)
    certificate, key = (os.path.join(folder, name) for name in ("cert.pem", "key.pem"))
    subprocess.run(["openssl", "req", "-x509", "-newkey", "rsa:2048", "-nodes", "-days", "2",
                    "-subj", "/CN=localhost", "-addext", "subjectAltName=DNS:localhost",
                    "-keyout", key, "-out", certificate], check=True, stderr=subprocess.DEVNULL)
    context = ssl.SSLContext(ssl.PROTOCOL_TLS_SERVER)
    context.load_cert_chain(certificate, key)
    plain, at = player.server, player.at
    player.server = Replies(context)
    port = player.server.server_address[1]
    player.serve()
    player.know(0, ["n0"])
    player.at = f"https://localhost:{port}"
    player.refuse("a certificate that nobody knows", 5, "link", STREAM)
    os.environ["SSL_CERT_FILE"] = certificate
    player.at = f"https://127.0.0.1:{port}"
    player.refuse("a certificate of another name", 5, "link", STREAM)
    player.at = f"https://localhost:{port}"
    player.accept("a certificate of its name", [f"new Annotation n{n}" for n in (1, 2, 3)])
    player.server, player.at = plain, at


def play_token(player):
    """A token goes with each request, and comes from a file or a variable."""
    bare = os.path.join(os.path.dirname(player.folder), "bare.token")
    with open(bare, "w") as file:
        file.write("the-token\n")
    os.environ["THE_TOKEN"] = "the-token"
    for words in (["--token-file", bare], ["--token-variable", "THE_TOKEN"]):
        player.know()
        player.serve()
        status, _, _ = player.run(*words)
        signed = [line for lines in player.server.heads for line in lines
                  if line == "Authorization: Bearer the-token"]
        player.table.row(f"a token by {words[0]}", status == 0 and len(signed) == 4)
    player.know()
    player.serve()
    player.run()
    player.table.row("without a token no request is signed", not any(
        "uthorization" in line for lines in player.server.heads for line in lines))


def play_signs(player):
    """Signs that no IRI has don't break the line of an object, and stay in the file."""
    player.know()
    odd = change("n3")
    odd["object"]["id"] = "http://c.example/a b\n\u001b[2Jgone \u00e4\u2028"
    player.serve({THREE: page(2, [odd], page_at(2))})
    status, out, _ = player.run()
    player.table.row("an id with a line's end and control signs",
                     status == 0 and out.splitlines()[2] ==
                     "new Annotation http://c.example/a%20b%0A%1B[2Jgone%20\u00e4%E2%80%A8"
                     and odd["object"]["id"] in json.loads(player.bytes_kept())["objects"])


def main():
    table = Table()
    player = Player(sys.argv[1], table)
    for play in (play_good, play_good_replies, play_secure, play_token, play_signs, play_bodies,
                 play_replies, play_files, play_words):
        play(player)
    table.end()


main()
