"""growth.py PROGRAM WORK PART: what memory keeps of what is gone; growth.sh has the rest."""
import os
import statistics
import sys
import time
from dataclasses import dataclass

from served import (MANIFEST, RawConnection, Server, note_text, play, reader_line, request, run)

# The bounds that are shown: how many times the memory of a store that is opened anew, the bytes of
# a change, and the seconds of an update by many words.
TIMES, CHANGE, SECONDS = 1.3, 450, 0.3
# How many requests are sent before their replies are read, and how many replies a connection has.
BATCH, REPLIES = 50, 1000
LETTERS = "bcdfghjklmnpqrst"


@dataclass
class Write:
    method: str
    name: str
    version: int
    text: str = ""

    def target(self):
        place = "&manifest=m1" if self.method == "PUT" else ""
        return f"/annotations/mara/{self.name}?version={self.version}{place}"

    def line(self):
        words = f"{self.method} {self.target()} {self.text}".rstrip()
        return f"2024-05-01T10:01:00Z mara {words}\n"

    def request(self):
        return request(self.method, self.target(), "mara", self.text)


# ---- what is written

def word(number):
    """A word of six letters and more for each number, which is no word of another one."""
    letters = []
    while number or len(letters) < 6:
        letters.append(LETTERS[number % 16])
        number //= 16
    return "".join(letters)


def updates(count, words):
    """So many updates of an annotation, each by so many new words."""
    for at in range(count):
        text = " ".join(word(at * words + more) for more in range(words))
        yield Write("PUT", "n1", at + 1, note_text(text))


def same(count):
    for at in range(count):
        text = "ibis swan heron" if at % 2 else "heron swan ibis"
        yield Write("PUT", "n1", at + 1, note_text(text))


def rounds(count, times):
    """So many annotations that are made and deleted, so many times."""
    for turn in range(times):
        for at in range(count):
            text = " ".join(word((turn * count + at) * 3 + more) for more in range(3))
            yield Write("PUT", f"n{at}", 2 * turn + 1, note_text(text))
        for at in range(count):
            yield Write("DELETE", f"n{at}", 2 * turn + 2)


# ---- what it leaves in memory

def begun(program, path):
    """A store with a curator and a manifest, in place of what is there."""
    for end in ("", "-wal"):
        if os.path.exists(path + end):
            os.remove(path + end)
    lines = reader_line("mara", "curator")
    lines += f"2024-05-01T10:00:00Z mara PUT /manifests/m1?version=1 {MANIFEST}\n"
    ended = run(program, path, ["import"], lines.encode())
    assert ended[0] == 0, ended
    return path


def opened_by_import(program, store, work):
    """The peak of an import of nothing."""
    nothing = os.path.join(work, "nothing")
    open(nothing, "w").close()
    return done(play(program, store, ["import"], nothing)).peak


def done(ended):
    if ended.status != 0:
        raise SystemExit(f"an import ended with status {ended.status}, {ended.printed!r}")
    return ended


def opened_by_server(program, store):
    server = Server(program, store, workers=4)
    assert server.wait_until_it_listens(600)
    RawConnection(server.port).ask(request("GET", "/changes"))
    found = server.memory("VmRSS")
    server.kill()
    return found


def imported(program, store, work, writes):
    """The peak of an import of these writes into a new store."""
    given = os.path.join(work, "lines")
    with open(given, "w") as file:
        file.writelines(write.line() for write in writes)
    return done(play(program, begun(program, store), ["import"], given)).peak


def served(program, store, writes, batch=BATCH):
    """The memory of a server behind these writes to a new store, and how long each batch took."""
    server = Server(program, begun(program, store), workers=4)
    assert server.wait_until_it_listens()
    connection, left, took = None, 0, []
    writes, sent = iter(writes), True
    while sent:
        sent = [write.request() for _, write in zip(range(batch), writes)]
        if left < len(sent):
            connection, left = RawConnection(server.port), REPLIES
        begin = time.monotonic()
        for status, body in connection.ask(b"".join(sent), len(sent)):
            if status not in (200, 201):
                raise SystemExit(f"a write is answered {status} {body[:80]!r}")
        took.append(time.monotonic() - begin)
        left -= len(sent)
    # What was published last reaches both copies with the next write or soon.
    time.sleep(0.5)
    found = server.memory("VmRSS")
    server.kill()
    return found, took[:-1]


class Shown:
    def __init__(self):
        self.over = 0

    def row(self, what, found, bound, unit):
        is_over = found > bound
        self.over += is_over
        print(f"{what}: {found:.2f}{unit}, of at most {bound}{unit}: {'over' if is_over else 'ok'}",
              flush=True)


def show(program, work, shown, what, made, batch=BATCH):
    """Prints what writes leave in memory beside the same store opened anew, and answers how long
    each batch of them took at a server."""
    store = os.path.join(work, "store.db")
    peak = imported(program, store, work, made())
    anew = opened_by_import(program, store, work)
    shown.row(f"{what}: import {peak} KiB, opened anew {anew} KiB", peak / anew, TIMES, " times")
    kept, took = served(program, store, made(), batch)
    anew = opened_by_server(program, store)
    shown.row(f"{what}: served {kept} KiB, opened anew {anew} KiB", kept / anew, TIMES, " times")
    return took


def changes(program, work, shown, count):
    """What a change keeps, by the difference of two runs."""
    store = os.path.join(work, "store.db")
    few, many = count // 5, count
    for what, measure in (("served", lambda n: served(program, store, same(n))[0]),
                          ("an import", lambda n: imported(program, store, work, same(n)))):
        small, large = measure(few), measure(many)
        shown.row(f"{many - few} changes more by the same words, {what}, {large - small} KiB",
                  (large - small) * 1024 / (many - few), CHANGE, " bytes a change")
    anew = opened_by_server(program, store)
    print(f"{many} changes by the same words, served and opened anew: {anew} KiB", flush=True)


def main():
    program, work, part = sys.argv[1], sys.argv[2], int(sys.argv[3])
    shown = Shown()
    few, words = 100_000 // part, 100_000 // part
    show(program, work, shown, f"{few} updates by three new words", lambda: updates(few, 3))
    took = show(program, work, shown, f"20 updates by {words} new words",
                lambda: updates(20, words), 1)
    shown.row(f"an update by {words} new words, the slowest in {max(took):.3f} s",
              statistics.median(took), SECONDS, " s")
    show(program, work, shown, f"{10_000 // part} annotations made and deleted ten times",
         lambda: rounds(10_000 // part, 10))
    changes(program, work, shown, 100_000 // part)
    print(f"{shown.over} over")
    raise SystemExit(1 if shown.over else 0)


main()
