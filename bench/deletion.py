"""deletion.py PROGRAM WORK SMALL LARGE: times the deletion of manifests; deletion.sh has the
rest."""
import os
import sys
import threading
import time

from served import MANIFEST, Connection, Server, copy_store, note_text, play, reader_line

# The bounds that are shown: microseconds of a processor an annotation over a file, and how many
# times as many of them an annotation takes among many.
MOST, LINEAR = 25.0, 1.5
WORDS = "heron swan gull tern crane stork ibis egret".split()


def lines(size, count):
    """The lines of a curator, so many manifests, each with so many annotations, and another one."""
    yield reader_line("mara", "curator")
    for name in ("kept", *(f"m{at}" for at in range(count))):
        yield f"2024-05-01T10:00:00Z mara PUT /manifests/{name}?version=1 {MANIFEST}\n"
    for number in range(size * count):
        text = note_text(f"{WORDS[number % 8]} {WORDS[number // 8 % 8]} {number}")
        yield (f"2024-05-01T10:01:00Z mara PUT /annotations/mara/n{number}?version=1"
               f"&manifest=m{number // size} {text}\n")


def deletions(count):
    for at in range(count):
        yield f"2024-05-01T10:02:00Z mara DELETE /manifests/m{at}?version=2\n"


def least(program, store, given, before=None):
    """The fewest microseconds of a processor of three imports, each into a copy of `before`."""
    best = None
    for _ in range(3):
        if before:
            copy_store(before, store)
        ended = play(program, store, ["import"], given)
        if ended.status != 0:
            raise SystemExit(f"an import ended with status {ended.status}, {ended.printed!r}")
        best = ended.used if best is None else min(best, ended.used)
    return best * 1e6


def written(work, name, pieces):
    path = os.path.join(work, name)
    with open(path, "w") as file:
        file.writelines(pieces)
    return path


class Waits(threading.Thread):
    """Asks over a connection of its own, again and again, and keeps when each began and how long
    it took."""

    def __init__(self, port, is_write):
        super().__init__()
        self.port, self.is_write, self.ended = port, is_write, False
        self.waits = []

    def run(self):
        connection, number = Connection(self.port, seconds=600), 0
        while not self.ended:
            number += 1
            begun = time.monotonic()
            if self.is_write:
                target = f"/annotations/mara/w{number}?version=1&manifest=kept"
                status, body = connection.ask("PUT", target, "mara", note_text("ibis"))
            else:
                status, body = connection.ask("GET", "/search/kept?q=egret")
            self.waits.append((begun, time.monotonic() - begun))
            assert status in (200, 201), (status, body)
            time.sleep(0.001)
        connection.close()

    def longest(self, start, end):
        """The longest wait of those that touch this time, in milliseconds."""
        touched = [took for begun, took in self.waits if begun < end and begun + took > start]
        return max(touched, default=0.0) * 1e3


def served(program, store, count):
    """What a request that deletes takes, with nothing else asked."""
    server = Server(program, store, workers=4)
    assert server.wait_until_it_listens(600)
    connection = Connection(server.port, seconds=600)
    connection.ask("GET", "/changes?page=1")
    before, begun = server.used(), time.monotonic()
    status, body = connection.ask("DELETE", "/manifests/m0?version=2", "mara")
    took, used = time.monotonic() - begun, server.used() - before
    if status != 200:
        raise SystemExit(f"a deletion is answered {status} {body!r}")
    server.kill()
    print(f"{count} annotations, by a request: {took:.3f} s,"
          f" {used * 1e6 / count:.1f} microseconds of a processor an annotation", flush=True)


def beside(program, store, count):
    """How long a read and a write over other connections wait while all are deleted."""
    server = Server(program, store, workers=4)
    assert server.wait_until_it_listens(600)
    waits = {what: Waits(server.port, what == "write") for what in ("read", "write")}
    for each in waits.values():
        each.start()
    started = time.monotonic()
    time.sleep(1)
    begun = time.monotonic()
    status, _ = Connection(server.port, seconds=600).ask("DELETE", "/manifests/m0?version=2",
                                                         "mara")
    end = time.monotonic()
    # The changes reach the second copy behind the reply.
    time.sleep(0.5)
    for each in waits.values():
        each.ended = True
    for each in waits.values():
        each.join()
    server.kill()
    assert status == 200, status
    for what, each in waits.items():
        print(f"  meanwhile, in {end - begun:.3f} s, another connection's {what} waits at most"
              f" {each.longest(begun, end + 0.5):.1f} ms, and before it"
              f" {each.longest(started, begun):.1f} ms", flush=True)


def by_lines(program, work, size, count):
    """The microseconds of a processor an annotation that lines take which delete so many manifests
    of so many annotations each, in memory and over a file; and the path of that file before."""
    full, store = os.path.join(work, f"full{size}.db"), os.path.join(work, "store.db")
    alone = written(work, "alone", lines(size, count))
    both = written(work, "both", [*lines(size, count), *deletions(count)])
    in_memory = least(program, "-", both) - least(program, "-", alone)
    ended = play(program, full, ["import"], alone)
    assert ended.status == 0, ended
    line, none = written(work, "line", deletions(count)), written(work, "none", [])
    in_file = least(program, store, line, full) - least(program, store, none, full)
    return in_memory / (size * count), in_file / (size * count), full


def main():
    program, work, small, large = sys.argv[1], sys.argv[2], int(sys.argv[3]), int(sys.argv[4])
    over, found = [], []
    for size, count in ((small, large // small), (large, 1)):
        in_memory, in_file, full = by_lines(program, work, size, count)
        found.append((in_memory, in_file))
        is_over = in_file > MOST
        over += [f"{size} over a file"] if is_over else []
        print(f"{size} annotations at once, by a line: {in_memory:.1f} microseconds of a processor"
              f" an annotation in memory; over a file {in_file:.1f}, of at most {MOST:.0f}:"
              f" {'over' if is_over else 'ok'}", flush=True)
        for show in (served, beside):
            copy_store(full, os.path.join(work, "store.db"))
            show(program, os.path.join(work, "store.db"), size)
    for what, few, many in zip(("in memory", "over a file"), *found):
        is_over = many > LINEAR * few
        over += [f"linear {what}"] if is_over else []
        print(f"{what}: {many / few:.2f} times as much an annotation where {large} go at once, of"
              f" at most {LINEAR}: {'over' if is_over else 'ok'}")
    print(f"{len(over)} over")
    raise SystemExit(1 if over else 0)


main()
