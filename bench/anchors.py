"""anchors.py PROGRAM WORK COMMENTS PLACES: times comments and orphans; anchors.sh has the rest."""
import json
import os
import resource
import socket
import sys
import threading
import time

from served import (BASE, HEAD, LENGTH, MANIFEST, Gone, RawConnection, Server, play, reader_line,
                    request)

# The bounds that are shown: milliseconds, and how much of its memory a server may keep. Then the
# items of a page, the bytes of a large text, how many annotations comments are on in turn, and the
# bytes of address space that a page may take.
PLACED, PAGE, ORPHANS, KEPT = 50.0, 20.0, 50.0, 1.3
SIZE, LARGE, TURNS, ROOM = 100, 1 << 20, 1000, 256 << 20
TRIES = 5


# ---- the store

def put(owner, name, manifest, tree):
    text = json.dumps(tree, separators=(",", ":"))
    return (f"2024-05-01T10:01:00Z {owner} PUT /annotations/{owner}/{name}?version=1"
            f"&manifest={manifest} {text}\n")


def transcription(name, manifest, text):
    return put("mara", name, manifest,
               {"bodyValue": text, "target": "http://a.example/c1", "type": "Annotation"})


def comment(name, manifest, about, quote, position=None):
    selectors = [{"exact": quote, "type": "TextQuoteSelector"}]
    if position is not None:
        selectors.append({"end": position + len(quote), "start": position,
                          "type": "TextPositionSelector"})
    return put("ivo", name, manifest, {
        "bodyValue": "which?", "type": "Annotation",
        "target": {"selector": selectors, "source": f"{BASE}/annotations/mara/{about}"}})


def spread(places):
    """A text of 1 MiB in which the letter `a` stands at so many places."""
    gap = LARGE // places
    text = ("a" + " bc" * gap)[:gap] * places
    return text + "b" * (LARGE - len(text))


def lines(comments, places):
    yield reader_line("mara", "curator")
    yield reader_line("ivo", "writer")
    for number in range(1, 7):
        yield f"2024-05-01T10:00:00Z mara PUT /manifests/m{number}?version=1 {MANIFEST}\n"
    yield transcription("placed", "m1", spread(places))
    yield comment("placed", "m1", "placed", "a", LARGE // places * (places // 2))
    yield transcription("many", "m2", "two grey herons in the reeds")
    for number in range(comments // 10):
        yield comment(f"many{number}", "m2", "many", "herons", 9)
    yield transcription("one", "m3", "two grey herons in the reeds")
    for number in range(comments):
        yield comment(f"one{number}", "m3", "one", "swans" if number % 2 else "herons", 9)
    for number in range(TURNS):
        yield transcription(f"turn{number}", "m4", f"two grey herons in the reeds, {number}")
    for number in range(comments):
        about = f"turn{number % TURNS}"
        yield comment(f"turn{number}", "m4", about, "swans" if number // TURNS % 2 else "herons", 9)
    for manifest, name, text in [("m5", "spread", spread(places)), ("m6", "all", "a" * LARGE)]:
        yield transcription(name, manifest, text)
        for number in range(SIZE):
            yield comment(f"{name}{number}", manifest, name, "a")


# ---- what is asked

class Shown:
    """What was measured beside its bound."""

    def __init__(self):
        self.over = 0

    def row(self, what, found, most, unit):
        self.due(f"{what}: {found:.1f} {unit}, of at most {most:.1f} {unit}", found <= most)

    def due(self, what, is_due):
        self.over += not is_due
        print(f"{what}: {'ok' if is_due else 'over'}", flush=True)


def timed(server, target, total, state="orphan"):
    """The least milliseconds of several requests, each over a connection of its own. The reply has
    to say so many items, and those on it have this state."""
    least = None
    for _ in range(TRIES):
        connection = RawConnection(server.port, seconds=120)
        # A worker has the connection before the clock begins.
        time.sleep(0.003)
        begun = time.monotonic()
        [(status, body)] = connection.ask(request("GET", target))
        took = (time.monotonic() - begun) * 1e3
        connection.close()
        tree = json.loads(body)
        items = tree.get("anchors", tree.get("orphans", []))
        states = {item["state"] for item in items}
        if status != 200 or tree["total"] != total or states != {state}:
            raise SystemExit(f"{target}: {status} {body[:300]!r}")
        least = took if least is None else min(least, took)
    return least


def drained(port, target):
    """The status and the length of a reply, which is read and not kept."""
    with socket.create_connection(("127.0.0.1", port), timeout=600) as link:
        link.sendall(request("GET", target))
        held = b""
        while not (head := HEAD.match(held)):
            piece = link.recv(1 << 16)
            if not piece:
                raise Gone("the connection ended before the reply")
            held += piece
        length = int(LENGTH.search(head[0])[1])
        left, piece = length - (len(held) - head.end()), bytearray(1 << 20)
        while left > 0:
            read = link.recv_into(piece)
            if not read:
                raise Gone("the connection ended inside the reply")
            left -= read
        return int(head[1]), length


class Reads(threading.Thread):
    """Asks for an annotation again and again, and keeps how often each status came, and the longest
    wait. It opens anew before a connection has had all the requests that the server answers on it,
    and where the server closes, as after a 503."""

    MOST = 1000

    def __init__(self, port):
        super().__init__()
        self.port, self.ended, self.statuses, self.longest = port, False, {}, 0.0

    def run(self):
        connection, asked = None, 0
        while not self.ended:
            begun = time.monotonic()
            try:
                connection = connection or RawConnection(self.port, seconds=600)
                [(status, _)] = connection.ask(request("GET", "/annotations/mara/many"))
            except (Gone, OSError):
                status = 0
            asked += 1
            self.longest = max(self.longest, time.monotonic() - begun)
            self.statuses[status] = self.statuses.get(status, 0) + 1
            if connection and (status != 200 or asked % self.MOST == 0):
                connection.close()
                connection = None
            time.sleep(0.001)


def large(server, shown, name, due, others):
    """A page of many places, beside another connection's reads: which statuses may come."""
    before = server.memory("VmRSS")
    reads = Reads(server.port)
    reads.start()
    begun = time.monotonic()
    try:
        status, length = drained(server.port, f"/annotations/mara/{name}/anchors")
    except (Gone, OSError):
        status, length = 0, 0
    took = time.monotonic() - begun
    reads.ended = True
    reads.join()
    time.sleep(0.5)
    after, peak = server.memory("VmRSS"), server.memory("VmHWM")
    what = f"a page of {SIZE} comments that quote one letter of the text `{name}`"
    shown.due(f"{what}: status {status}, {length} bytes, {took:.2f} s", status in due)
    shown.due(f"  another connection's reads meanwhile: {reads.statuses}, the longest"
              f" {reads.longest * 1e3:.1f} ms",
              reads.statuses.get(200, 0) > 0 and set(reads.statuses) <= others)
    shown.row(f"  memory, {before} KiB before, {peak} at most and {after} after, of that before",
              after / before, KEPT, "times")


def main():
    program, work, comments, places = sys.argv[1], sys.argv[2], int(sys.argv[3]), int(sys.argv[4])
    given, store = os.path.join(work, "lines"), os.path.join(work, "store.db")
    with open(given, "w") as file:
        file.writelines(lines(comments, places))
    ended = play(program, store, ["import"], given, seconds=3600)
    print(f"imported with status {ended.status}, {ended.printed.decode().strip()},"
          f" {ended.took:.1f} s")
    if ended.status != 0:
        raise SystemExit(1)
    server, shown = Server(program, store, workers=4, size=SIZE), Shown()
    assert server.wait_until_it_listens(600)
    shown.row(f"a letter at {places} places of 1 MiB, with a position",
              timed(server, "/annotations/mara/placed/anchors", 1, "exact"), PLACED, "ms")
    many = comments // 10
    pages = [timed(server, f"/annotations/mara/many/anchors?page={page}", many, "exact")
             for page in range(1, max(1, -(-many // SIZE)) + 1)]
    shown.row(f"a page of {SIZE} of {many} comments, the slowest of {len(pages)}", max(pages), PAGE,
              "ms")
    lost = {"one": comments // 2, "turn": sum(number // TURNS % 2 for number in range(comments))}
    for name, manifest, on in [("one", "m3", "one annotation"), ("turn", "m4", f"{TURNS} in turn")]:
        shown.row(f"the orphans of {comments} comments on {on}",
                  timed(server, f"/manifests/{manifest}/orphans", lost[name]), ORPHANS, "ms")
    large(server, shown, "spread", {200}, {200})
    limit = (server.memory("VmSize") << 10) + ROOM
    resource.prlimit(server.process.pid, resource.RLIMIT_AS, (limit, resource.RLIM_INFINITY))
    large(server, shown, "all", {200, 503}, {200, 503})
    shown.due("the server lives", server.process.poll() is None)
    server.kill()
    raise SystemExit(1 if shown.over else 0)


main()
