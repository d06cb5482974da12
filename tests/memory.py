"""memory.py PROGRAM WORK: a server under a limit of memory; memory.sh has the rest."""
import os
import random
import resource
import sys
import time
from collections import Counter

from served import Connection, Gone, Server, Table, cells_of, new_store, note_text

# How much more the server may take than where it begins, in bytes.
ROOM = 16 << 20
# How many writes are sent at most, and how many behind the first refusal.
MOST, MORE = 5000, 20
WORDS = "heron swan gull tern crane stork ibis egret".split()


class Writes:
    """Writes of annotations, each over the connection that the last one left, and what came of
    them."""

    def __init__(self, port):
        self.connection = Connection(port)
        self.random = random.Random(1)
        self.texts, self.done, self.refused, self.lost = [], [], [], []
        self.other = []

    def text(self, number):
        while len(self.texts) <= number:
            words = (self.random.choice(WORDS) for _ in range(150))
            text = " ".join(f"{word}{self.random.randrange(5000)}" for word in words)
            self.texts.append(note_text(text))
        return self.texts[number]

    def send(self, number):
        target = f"/annotations/mara/n{number}?version=1&manifest=m1"
        try:
            status, body = self.connection.ask("PUT", target, "mara", self.text(number))
        except Gone:
            self.lost.append(number)
            return
        if status == 503 and body == b'{"error":"memory"}':
            self.refused.append(number)
        elif status == 201 or (status == 200 and b'"repeat":true' in body):
            self.done.append(number)
        else:
            self.other.append((number, status, body))

    def read(self, number):
        """The status of a read, or 0 for a reply that is none of those that are due."""
        try:
            status, body = self.connection.ask("GET", f"/annotations/mara/n{number}")
        except Gone:
            return 0
        is_due = status == 200 or (status, body) == (503, b'{"error":"memory"}')
        return status if is_due else 0


def fill(writes):
    """Writes until memory runs out, and some more."""
    for number in range(MOST):
        writes.send(number)
        if len(writes.refused) + len(writes.lost) >= MORE:
            return


def main():
    program, work = sys.argv[1], sys.argv[2]
    table = Table()
    store = new_store(program, os.path.join(work, "memory.db"))
    # The C library else sets 64 MiB apart for a thread at its first use, which a limit counts.
    environment = {**os.environ, "MALLOC_ARENA_MAX": "1"}
    server = Server(program, store, workers=4, environment=environment)
    assert server.wait_until_it_listens()
    assert Connection(server.port).ask("GET", "/changes")[0] == 200
    # All workers have begun by then.
    time.sleep(1)
    limit = (server.memory("VmSize") << 10) + ROOM
    server.kill()
    # The limit is there from the beginning on, as `ulimit -v` sets it.
    server = Server(program, store, workers=4, environment=environment,
                    wrap=["prlimit", f"--as={limit}:unlimited"])
    assert server.wait_until_it_listens()
    writes = Writes(server.port)
    fill(writes)
    is_due = len(writes.refused) > 0 and len(writes.done) > 20 and not writes.other
    table.row("writes until memory runs out", is_due,
              f"{len(writes.done)} acknowledged, {len(writes.refused)} answered 503 memory, "
              f"{len(writes.lost)} without a reply {writes.other[:2] or ''}")
    table.row("the process lives", server.process.poll() is None)
    found = Counter(writes.read(number) for number in writes.done)
    table.row("reads are answered, by 503 where they find no memory either",
              set(found) <= {200, 503}, f"{found[200]} by 200, {found[503]} by 503 memory")
    # A connection that ends before the reply may have been answered so too.
    report(server, len(writes.refused) + len(writes.lost) + found[503] + found[0], table)
    resource.prlimit(server.process.pid, resource.RLIMIT_AS, (resource.RLIM_INFINITY,) * 2)
    again = [*writes.refused, *writes.lost]
    acknowledged = list(writes.done)
    writes.refused, writes.lost, writes.done = [], [], []
    for number in again:
        writes.send(number)
    for number in range(len(writes.texts), len(writes.texts) + 20):
        writes.send(number)
    is_due = len(writes.done) == len(again) + 20 and not writes.refused + writes.lost + writes.other
    table.row("where memory is given back, writes go on", is_due,
              f"{len(writes.done)} acknowledged")
    found = Counter(writes.read(number) for number in [*acknowledged, *writes.done])
    table.row("and so do reads", set(found) == {200}, f"{found[200]} are answered by 200")
    server.kill()
    check(store, work, writes, [*acknowledged, *writes.done], table)
    table.end()


def report(server, refused, table):
    """Standard error reports refusals with 503, the first at once, and none twice."""
    begins = "requests refused with 503 memory since the last such line: "
    counts = [int(line[len(begins):]) for line in server.lines_said() if line.startswith(begins)]
    table.row("standard error reports them, a line a minute at most",
              counts[:1] == [1] and sum(counts) <= refused, f"{counts} of {refused} at most")


def check(store, work, writes, acknowledged, table):
    """The cells have each annotation that was acknowledged, with its text, and no other."""
    cells = cells_of(store, os.path.join(work, "copy.db"))
    notes = [val for tab, _, val in cells if tab == 3]
    tree = {number: writes.text(number).encode() for number in acknowledged}
    found = {number for number, text in tree.items()
             if any(b'"name":"n%d"' % number in val and text in val for val in notes)}
    table.row("no acknowledged write is missing in the cells",
              found == set(acknowledged) and len(notes) == len(found), f"{len(notes)} annotations")


main()
