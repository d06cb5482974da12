"""deep.py PROGRAM WORK [--quick]: what a small stack has to bear; deep.sh has the rest."""
import json
import os
import resource
import sys
import threading
import time
from urllib.parse import quote

from served import (MANIFEST, Connection, Gone, Server, Table, check_sound, copy_store, note_text,
                    play, reader_line, run, token)

QUICK = "--quick" in sys.argv
SIZES = [1000, 20_000] if QUICK else [1000, 20_000, 200_000, 400_000]
LINES = SIZES[-1]
# The most bytes that an input has, of which a line of a quick run is a part.
LIMIT = 268_435_456
LONG = LIMIT >> 4 if QUICK else LIMIT
MEBIBYTE = 1 << 20
SECONDS = int(os.environ.get("SECONDS_MOST", "600"))
MOST = int(os.environ.get("MEMORY_MIB", "12288")) << 10
# How long a reader may wait for an answer while others delete, and how long what has 1 MiB takes.
PATIENCE, SHORT = 5.0, 20.0
NOTE = "/annotations/mara/{}"
DELETION = "2024-05-01T10:02:00Z mara DELETE /manifests/m1?version=2\n"


def beginning():
    """The lines of a curator, two manifests, and an annotation on the second."""
    yield reader_line("mara", "curator")
    for name in ("m1", "m2"):
        yield f"2024-05-01T10:00:00Z mara PUT /manifests/{name}?version=1 {MANIFEST}\n"
    yield f"2024-05-01T10:00:00Z mara PUT {NOTE.format('kept')}?version=1&manifest=m2 "
    yield note_text("heron") + "\n"


def written(work, pieces, name="input"):
    """The path of a file with these pieces."""
    path = os.path.join(work, name)
    with open(path, "w", encoding="utf-8") as file:
        file.writelines(pieces)
    return path


def notes(count):
    """The lines of the beginning, and of so many annotations on the first manifest."""
    yield from beginning()
    text = note_text("swan")
    for number in range(1, count + 1):
        target = NOTE.format(f"n{number}")
        yield f"2024-05-01T10:01:00Z mara PUT {target}?version=1&manifest=m1 {text}\n"


def told(ended):
    end = f"signal {-ended.status}" if ended.status < 0 else f"status {ended.status}"
    return (f"{end}, {ended.printed[:60]!r}, {ended.took:.1f} s, {ended.peak >> 10} MiB")


def is_done(ended, status, printed):
    return (ended.status, ended.printed) == (status, printed.encode())


# ---- the stack of a worker

def stacks(process):
    """The KiB of the stacks of a process's threads but the first. Each stands beyond a few pages
    that nobody may touch."""
    found, guard = [], None
    with open(f"/proc/{process}/maps") as lines:
        for line in lines:
            parts = line.split()
            start, end = (int(part, 16) for part in parts[0].split("-"))
            if guard == start and parts[1].startswith("rw") and len(parts) < 6:
                found.append(end - start >> 10)
            is_guard = parts[1].startswith("---") and end - start <= 65536
            guard = end if is_guard else None
    return found


def worker_stacks(program, work, table):
    store = os.path.join(work, "stack.db")
    run(program, store, ["import"], "".join(beginning()).encode())
    server = Server(program, store, workers=64)
    assert server.wait_until_it_listens()
    time.sleep(1)
    limit = resource.getrlimit(resource.RLIMIT_STACK)[0] >> 10
    # One worker is the first thread, whose stack grows up to the limit.
    found = [size for size in stacks(server.process.pid) if size >= 16]
    least = min(found, default=0)
    table.row(f"a worker's stack under `ulimit -s {limit}`", len(found) >= 63 and least <= limit,
              f"{least} KiB, of {found.count(least)} threads")
    server.kill()


# ---- deletions

class Reader(threading.Thread):
    """Asks again and again for what is on another manifest, and has to be answered rightly."""

    def __init__(self, port):
        super().__init__()
        self.port, self.ended = port, False
        self.count, self.slowest, self.wrong = 0, 0.0, []

    def run(self):
        connection = Connection(self.port, seconds=SECONDS)
        asked = [(NOTE.format("kept"), b"heron"), ("/search/m2?q=heron", b'"total":1')]
        while not self.ended and len(self.wrong) < 3:
            target, part = asked[self.count % 2]
            begun = time.monotonic()
            try:
                status, body = connection.ask("GET", target)
                if status != 200 or part not in body:
                    self.wrong.append((target, status, body[:80]))
            except Gone as gone:
                self.wrong.append((target, str(gone)))
            self.slowest = max(self.slowest, time.monotonic() - begun)
            self.count += 1
            time.sleep(0.002)
        connection.close()


def by_line(program, work, full, count, table):
    store = os.path.join(work, "line.db")
    copy_store(full, store)
    given = written(work, [DELETION], "deletion")
    ended = play(program, store, ["import"], given, SECONDS, MOST)
    table.row(f"{count} annotations are deleted by a line",
              is_done(ended, 0, "accepted 1 repeated 0 old 0\n"), told(ended))
    if ended.status == 0:
        opened_again(program, store, work, count, table, "a line")


def by_request(program, work, full, count, table):
    store = os.path.join(work, "request.db")
    copy_store(full, store)
    server = Server(program, store, workers=4)
    assert server.wait_until_it_listens(SECONDS)
    reader = Reader(server.port)
    reader.start()
    time.sleep(0.2)
    before, begun = reader.count, time.monotonic()
    try:
        found = Connection(server.port, SECONDS).ask("DELETE", "/manifests/m1?version=2", "mara")
    except Gone as gone:
        found = 0, str(gone).encode()
    took, answered = time.monotonic() - begun, reader.count - before
    time.sleep(0.2)
    reader.ended = True
    reader.join()
    status = server.process.poll()
    lives = "" if status is None else f", the server ended with {status}"
    peak = server.memory("VmHWM") >> 10 if status is None else 0
    table.row(f"{count} annotations are deleted by a request",
              found[0] == 200 and b'"repeat":false' in found[1] and status is None,
              f"{found[0]} {found[1][:60]!r}, {took:.2f} s, at most {peak} MiB{lives}")
    table.row("  another connection is answered meanwhile",
              not reader.wrong and reader.slowest < PATIENCE and (answered > 0 or took < 0.1),
              f"{answered} times, the slowest in {reader.slowest:.3f} s {reader.wrong[:1] or ''}")
    server.kill()
    if found[0] == 200:
        opened_again(program, store, work, count, table, "a request")


def opened_again(program, store, work, count, table, how):
    """The store behind a deletion of all on the first manifest: what is answered, and that it can
    be written to."""
    copy_store(store, os.path.join(work, "copy.db"))
    check_sound(os.path.join(work, "copy.db"))
    server = Server(program, store, workers=2)
    if not server.wait_until_it_listens(SECONDS):
        table.row(f"  the store is opened again behind {how}", False, f"{server.said!r}")
        server.kill()
        return
    connection = Connection(server.port, SECONDS)
    # Each annotation and the manifest were made and deleted; beside them stand the two others.
    changes = b'"totalItems":%d' % (2 * (count + 1) + 2)
    asked = [("/manifests/m1", 404, b"absent"), (NOTE.format("n1"), 410, b"gone"),
             (NOTE.format(f"n{count}"), 410, b"gone"), ("/search/m1?q=swan", 404, b"absent"),
             ("/search/m2?q=heron", 200, b'"total":1'), ("/changes", 200, changes)]
    wrong = []
    for target, due, part in asked:
        status, body = connection.ask("GET", target)
        if status != due or part not in body:
            wrong.append((target, status, body[:80]))
    for target, due in [("/manifests/m1?version=2", 200), ("/manifests/m1?version=3", 409)]:
        status, body = connection.ask("DELETE", target, "mara")
        if status != due:
            wrong.append((target, status, body[:80]))
    put = connection.ask("PUT", "/manifests/m1?version=3", "mara", MANIFEST)
    again = connection.ask("PUT", NOTE.format("n1") + "?version=3&manifest=m1", "mara",
                           note_text("swan"))
    found = connection.ask("GET", "/search/m1?q=swan")
    if (put[0], again[0]) != (201, 201) or b'"total":1,' not in found[1]:
        wrong.append((put, again, found[1][:80]))
    table.row(f"  the store is opened again behind {how}", not wrong, f"{wrong or ''}")
    server.kill()


def deletions(program, work, table):
    for count in SIZES:
        full = os.path.join(work, "full.db")
        for end in ("", "-wal"):
            if os.path.exists(full + end):
                os.remove(full + end)
        given = written(work, notes(count))
        ended = play(program, full, ["import"], given, SECONDS, MOST)
        is_due = is_done(ended, 0, f"accepted {count + 4} repeated 0 old 0\n")
        table.row(f"{count} annotations are imported", is_due, told(ended))
        if is_due:
            by_line(program, work, full, count, table)
            by_request(program, work, full, count, table)
        # The same in memory, at one go.
        with open(given, "a") as lines:
            lines.write(DELETION)
        ended = play(program, "-", ["import"], given, SECONDS, MOST)
        table.row(f"{count} annotations are imported and deleted in memory",
                  is_done(ended, 0, f"accepted {count + 5} repeated 0 old 0\n"), told(ended))
    many_lines(program, work, full, table)


# ---- many lines, and long ones

def many_lines(program, work, full, table):
    given = written(work, notes(LINES))
    ended = play(program, full, ["import"], given, SECONDS, MOST)
    table.row(f"{LINES} lines that were done already",
              is_done(ended, 0, f"accepted 0 repeated {LINES + 4} old 0\n"), told(ended))
    given = written(work, ["\n" * LINES, *beginning()])
    ended = play(program, "-", ["import"], given, SECONDS, MOST)
    table.row(f"{LINES} empty lines", is_done(ended, 0, "accepted 4 repeated 0 old 0\n"),
              told(ended))
    reads = (f"2024-05-01T10:03:00Z - GET {NOTE.format('none')}\n" for _ in range(LINES))
    given = written(work, [*beginning(), *reads])
    ended = play(program, "-", ["find", "http://a.example", "10"], given, SECONDS, MOST)
    table.row(f"{LINES} lines that read", ended.status == 0, told(ended))


def long_line(work, front, sign, end, length):
    """The path of a file of so many bytes: the beginning, and a line filled with a sign."""
    first = "".join(beginning())
    filled = length - len(first) - len(front) - len(end)
    path = os.path.join(work, "input")
    with open(path, "w") as file:
        file.write(first + front)
        for _ in range(filled // MEBIBYTE):
            file.write(sign * MEBIBYTE)
        file.write(sign * (filled % MEBIBYTE) + end)
    return path


def long_lines(program, work, table):
    put = f"2024-05-01T10:01:00Z mara PUT {NOTE.format('n1')}?version=1&manifest=m1 "
    front, end = note_text("a").split('"a"')
    done = "accepted 5 repeated 0 old 0\n"
    rows = [("an annotation of one word", put + front + '"', "a", '"' + end + "\n", (0, done)),
            ("a tree without end", put, "[", "\n", (3, "line 5 refused: json\n")),
            ("a text without end", put + front + '"', "a", "\n", (3, "line 5 refused: json\n")),
            ("no words of a line", "", "a", "\n", (3, "line 5 refused: line\n")),
            ("a name of a target", "2024-05-01T10:01:00Z mara PUT /annotations/mara/", "a",
             "?version=1&manifest=m1 {}\n", (3, "line 5 refused: line\n"))]
    for what, begun, sign, ending, due in rows:
        given = long_line(work, begun, sign, ending, LONG)
        ended = play(program, "-", ["import"], given, SECONDS, MOST)
        table.row(f"an input of {LONG >> 20} MiB: {what}", is_done(ended, *due), told(ended))
    given = long_line(work, put + front + '"', "a", '"' + end + "\n", LIMIT + 1)
    ended = play(program, "-", ["import"], given, SECONDS, MOST)
    table.row("an input of a byte too many", is_done(ended, 3, "line 0 refused: input\n"),
              told(ended))
    store = os.path.join(work, "long.db")
    given = long_line(work, put + front + '"', "a", '"' + end + "\n", LONG)
    ended = play(program, store, ["import"], given, SECONDS, MOST)
    table.row(f"an annotation of {LONG >> 20} MiB in a file", is_done(ended, 0, done), told(ended))
    ended = play(program, store, ["export", "-"], written(work, []), SECONDS, MOST)
    table.row("  it is exported again", ended.status == 0, told(ended))
    os.remove(given)


# ---- a reader in many groups

def many_groups(program, work, table):
    groups = [f"g{number}" for number in range(64)]
    user = "http://a.example/u/wide"
    reader = {"groups": groups, "role": "writer", "token": token("wide"), "user": user}
    lines = [*beginning(),
             f"2024-05-01T10:01:00Z - PUT /readers/wide?version=1 {json.dumps(reader)}\n"]
    for at, group in enumerate([*groups, "private", "public"]):
        lines.append(f"2024-05-01T10:01:00Z wide PUT /annotations/wide/n{at}?version=1&manifest=m1"
                     f"&group={group} {note_text('swan heron')}\n")
    for group in groups:
        lines.append(f"2024-05-01T10:01:00Z - PUT /manifests/in-{group}?version=1&group={group} "
                     f"{MANIFEST}\n")
    store = os.path.join(work, "groups.db")
    ended = play(program, store, ["import"], written(work, lines), SECONDS, MOST)
    due = f"accepted {4 + 1 + 66 + 64} repeated 0 old 0\n"
    table.row("a reader in 64 groups writes to each", is_done(ended, 0, due), told(ended))
    server = Server(program, store, workers=2)
    assert server.wait_until_it_listens()
    connection = Connection(server.port)
    wrong = []
    for name, notes_seen, changes in ((None, 1, 4), ("wide", 66, 3 + 66 + 64)):
        total = b'"total":%d' % notes_seen
        asked = [("/search/m1?q=swan+heron", total), ("/manifests/m1/annotations/", total),
                 ("/manifests/m1/canvases/1", total), ("/autocomplete/m1?q=sw", total),
                 ("/autocomplete/m1?q=sw&user=http://a.example/u/wide", total),
                 ("/changes", b'"totalItems":%d' % changes)]
        for target, part in asked:
            status, body = connection.ask("GET", target, name)
            if status != 200 or part + b"," not in body:
                wrong.append((name, target, status, body[:200]))
    deleted = connection.ask("DELETE", "/manifests/m1?version=2", "mara")
    left = connection.ask("GET", "/changes", "wide")
    if deleted[0] != 200 or b'"totalItems":%d,' % (3 + 66 + 64 + 67) not in left[1]:
        wrong.append((deleted, left[1][:200]))
    table.row("a reader in 64 groups is shown all of it", not wrong, f"{wrong[:2] or ''}")
    server.kill()


# ---- the deepest trees

def deep_note(levels, is_object):
    """The text of an annotation whose tree has so many levels."""
    front, end = ('{"a":', "}") if is_object else ("[", "]")
    inner = front * (levels - 2) + "[]" + end * (levels - 2)
    return note_text("swan")[:-1] + f',"x":{inner}}}'


class Nested(threading.Thread):
    """Puts trees of all depths over a connection of its own, at the same time as others."""

    def __init__(self, port, number, barrier):
        super().__init__()
        self.port, self.number, self.barrier = port, number, barrier
        self.wrong = []

    def run(self):
        connection = Connection(self.port, seconds=SECONDS)
        target = f"/annotations/mara/d{self.number}"
        is_object = self.number % 2 == 0
        many = "[" * (MEBIBYTE if self.number % 3 else MEBIBYTE // 2)
        if self.number % 3 == 0:
            many = many + "]" * len(many)
        rows = [("PUT", deep_note(100, is_object), 201, b'"repeat":false'),
                ("GET", None, 200, b'"swan"'),
                ("PUT", deep_note(101, is_object), 400, b'"deep"'),
                ("PUT", deep_note(127, is_object), 400, b'"deep"'),
                ("PUT", deep_note(128, is_object), 400, b'"json"'),
                ("PUT", many, 400, b'"json"'),
                ("PUT", '{"a":' * (MEBIBYTE // 5), 400, b'"json"'),
                ("GET", None, 200, b'"swan"')]
        try:
            for method, text, due, part in rows:
                self.barrier.wait(SECONDS)
                version = "?version=1&manifest=m1" if method == "PUT" else ""
                status, body = connection.ask(method, target + version, "mara", text)
                if status != due or part not in body:
                    self.wrong.append((text and text[:40], len(text or ""), status, body[:80]))
        except (Gone, threading.BrokenBarrierError) as gone:
            self.wrong.append(repr(gone))
            self.barrier.abort()
        connection.close()


def deep_trees(program, work, table):
    store = os.path.join(work, "deep.db")
    run(program, store, ["import"], "".join(beginning()).encode())
    server = Server(program, store, workers=64)
    assert server.wait_until_it_listens()
    barrier = threading.Barrier(64)
    clients = [Nested(server.port, number, barrier) for number in range(64)]
    for client in clients:
        client.start()
    for client in clients:
        client.join(300)
    wrong = [each for client in clients for each in client.wrong]
    status = server.process.poll()
    table.row("the deepest trees on each of 64 workers at once", not wrong and status is None,
              f"{wrong[:2] or ''}{'' if status is None else f' the server ended with {status}'}")
    server.kill()
    told_all, printed = run(program, store, ["export", "-"], seconds=SECONDS)
    table.row("  all 64 are in the store", told_all == 0 and printed.count(b"/annotations/mara/d")
              == 64, f"status {told_all}")


# ---- texts and queries without a space

HARD = [("letters", "a"), ("signs of no word", "-"), ("one word by apostrophes", "a'"),
        ("one number by commas", "1,"), ("marks in the wrong order", "\u0301"),
        ("flags", "\U0001f1e6"), ("joiners", "\u200d"), ("Han", "\u6c34"),
        ("Hangul in parts", "\u1112\u1161\u11ab"), ("letters that fold to three", "\ufb03"),
        ("a letter that falls apart", "\u1f82"), ("combined letters of Katakana", "\uff8a\uff9e")]
MARKUP = ["<", "<a ", "<!--", "</", "&", "&amp", "<script>", "<p>", "<a b='"]


def hard_text(part):
    """A text of these signs, so long that its annotation has not more than 1 MiB."""
    room = MEBIBYTE - 400
    text = part * (room // len(part.encode()))
    # Each mark below stands behind each above, which a stable order turns round.
    return "a" + text[:len(text) // 2] + "\u0323" * (len(text) // 2) if part == "\u0301" else text


def hard_texts(program, work, table):
    store = os.path.join(work, "hard.db")
    run(program, store, ["import"], "".join(beginning()).encode())
    server = Server(program, store, workers=4)
    assert server.wait_until_it_listens()
    connection = Connection(server.port, seconds=SECONDS)
    rows = [(what, note_of(hard_text(part))) for what, part in HARD]
    rows += [(f"HTML of {part!r}", note_of(hard_text(part), "text/html")) for part in MARKUP]
    for at, (what, text) in enumerate(rows):
        target, begun = NOTE.format(f"hard{at}"), time.monotonic()
        try:
            put = connection.ask("PUT", target + "?version=1&manifest=m1", "mara", text)
            got = connection.ask("GET", target)
            found = connection.ask("GET", f"/manifests/m1/annotations/?page={at // 10 + 1}&iris=1")
        except Gone as gone:
            table.row(f"a text of 1 MiB: {what}", False, str(gone))
            break
        took = time.monotonic() - begun
        is_due = (put[0], got[0], found[0]) == (201, 200, 200) and took < SHORT
        table.row(f"a text of 1 MiB: {what}", is_due,
                  f"{put[0]}, {got[0]}, {found[0]} in {took:.2f} s")
    table.row("  the server lives", server.process.poll() is None)
    server.kill()
    hard_queries(program, work, table)


def note_of(text, media=None):
    body = {"type": "TextualBody", "value": text, **({"format": media} if media else {})}
    tree = {"body": body, "target": "http://a.example/c1", "type": "Annotation"}
    return json.dumps(tree, ensure_ascii=False, separators=(",", ":"))


def hard_queries(program, work, table):
    rows = [(what, "q=" + quote(hard_text(part))) for what, part in HARD]
    rows += [("pieces", "q=" + "a+" * (MEBIBYTE // 2)), ("spaces", "q=swan" + "+" * MEBIBYTE),
             ("names", "q=swan&" + "&".join(f"n{at}" for at in range(MEBIBYTE // 8))),
             ("users", "q=swan&user=" + "a+" * (MEBIBYTE // 2)),
             ("dates", "q=swan&date=" + "2024-05-01T10:00:00Z/2024-05-01T10:00:00Z+" * 24_000)]
    for what, query in rows:
        lines = [*notes(20), f"2024-05-01T10:03:00Z - GET /search/m1?{query}\n",
                 f"2024-05-01T10:03:00Z - GET {NOTE.format('kept')}\n"]
        ended = play(program, "-", ["find", "http://a.example", "10"], written(work, lines),
                     SECONDS, MOST)
        is_due = ended.status == 0 and ended.printed.startswith(b"200 ") and ended.took < SHORT
        table.row(f"a query of {len(query) / MEBIBYTE:.1f} MiB: {what}", is_due, told(ended))


def main():
    program, work = sys.argv[1], sys.argv[2]
    table = Table()
    worker_stacks(program, work, table)
    many_groups(program, work, table)
    deep_trees(program, work, table)
    hard_texts(program, work, table)
    deletions(program, work, table)
    long_lines(program, work, table)
    table.end()


main()
