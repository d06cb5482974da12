"""What the benchmarks over a server share: bounds that are shown, stores that are filled, and what a
request takes of a processor."""
import json
import os
import time

from served import RawConnection, Server, play, request

# A round takes about so many seconds, and begins after so many requests. A connection has at most
# so many requests, each a batch.
SECONDS, WARM, MOST, BATCH, ROUNDS = 1.0, 5, 900, 30, 3


class Shown:
    def __init__(self):
        self.over = 0

    def row(self, what, found, most, unit):
        is_over = found > most
        self.over += is_over
        print(f"{what}: {found:.2f} {unit}, of at most {most:.2f} {unit}:"
              f" {'over' if is_over else 'ok'}", flush=True)


def filled(program, work, given, name, size=10):
    """A server of a new store with these lines, and how their import ended. `size` is how many items
    a page has."""
    store = os.path.join(work, name)
    ended = play(program, store, ["import"], given, seconds=1800)
    if ended.status != 0:
        raise SystemExit(f"imported with status {ended.status}: {ended.printed[:300]!r}")
    return served(program, store, size), ended


def served(program, store, size=10):
    """A server of the store, which listens."""
    server = Server(program, store, workers=4, size=size)
    assert server.wait_until_it_listens(600)
    return server


def timed(server, target, is_due):
    """The microseconds of a processor that a request takes: the least of several rounds. Its body
    has to be as it is due."""
    asked = request("GET", target)
    connection = RawConnection(server.port)
    # The first ones wait for memory that the others find at hand.
    for _ in range(WARM):
        begun = time.monotonic()
        [(status, body)] = connection.ask(asked)
        took = time.monotonic() - begun
    connection.close()
    if status != 200 or not is_due(json.loads(body)):
        raise SystemExit(f"{target}: {status} {body[:300]!r}")
    # A batch of long replies is short, so that the server needn't wait for the reader.
    batch = max(1, min(BATCH, (1 << 18) // len(body)))
    count = max(5, min(20000, int(SECONDS / max(took, 1e-5)))) // batch * batch or batch
    return min(timed_round(server, asked, batch, count, body) for _ in range(ROUNDS))


def timed_round(server, asked, batch, count, due):
    before, left = server.used(), count
    while left > 0:
        connection = RawConnection(server.port)
        for _ in range(min(left, MOST) // batch):
            for status, body in connection.ask(asked * batch, batch):
                assert (status, body) == (200, due)
        connection.close()
        left -= min(left, MOST) // batch * batch
    return (server.used() - before) / count * 1e6


def has_total(total):
    return lambda tree: tree["partOf"]["total"] == total


def has_terms(terms):
    return lambda tree: {it["value"]: it["total"] for it in tree["items"]} == terms
