"""groups.py PROGRAM WORK CELLS NOTES: what several groups of an annotation cost; groups.sh has the rest."""
import itertools
import json
import os
import sys

from served import MANIFEST, RawConnection, Server, note_text, play, reader_line, request, token
from turned import turn_back

# The bounds that are shown: a turned store's opening and its memory beside those of the same store
# once it is turned, and the microseconds of a search for a rare word.
OPENING, MEMORY, SEARCH = 1.5, 2.0, 100
GROUPS, AUDIENCES, RARE, ASKED = 64, 1000, 5, 10000


class Shown:
    def __init__(self):
        self.over = 0

    def row(self, what, found, most, unit):
        is_over = found > most
        self.over += is_over
        print(f"{what}: {found:.2f} {unit}, of at most {most} {unit}: {'over' if is_over else 'ok'}")


def fill(program, store, given, notes, group_of):
    """A store with so many annotations, of which few have the rare word."""
    groups = [f"g{at:02}" for at in range(GROUPS)]
    reader = {"groups": groups, "role": "curator", "token": token("mara"),
              "user": "http://a.example/u/mara"}
    with open(given, "w") as lines:
        lines.write(f"2024-05-01T10:00:00Z - PUT /readers/mara?version=1 {json.dumps(reader)}\n")
        lines.write(reader_line("ivo", "reader"))
        lines.write(f"2024-05-01T10:00:00Z mara PUT /manifests/m1?version=1 {MANIFEST}\n")
        for at in range(notes):
            text = "heron " * 8 + ("swan" if at % (notes // RARE) == 0 else "ibis")
            lines.write(f"2024-05-01T10:01:00Z mara PUT /annotations/mara/n{at}?version=1&manifest=m1"
                        f"&group={group_of(at)} {note_text(text)}\n")
    ended = play(program, store, ["import"], given)
    assert ended.status == 0, ended


def audiences():
    """So many different audiences of eight groups."""
    names = [f"g{at:02}" for at in range(GROUPS)]
    return [",".join(eight) for eight in itertools.islice(itertools.combinations(names, 8), AUDIENCES)]


def opening(program, store, given):
    """What an opening takes of a processor, and its most memory: an import of nothing."""
    open(given, "w").close()
    ended = play(program, store, ["import"], given)
    assert ended.status == 0, ended
    return ended


def turning(program, work, cells, shown):
    store, given = os.path.join(work, "turned.db"), os.path.join(work, "lines")
    fill(program, store, given, cells // 2, lambda at: ["public", "private", "g01"][at % 3])
    turn_back(store)
    first = opening(program, store, given)
    second = opening(program, store, given)
    print(f"{cells} cells: {first.used:.2f} s of a processor and {first.peak} KiB where they are turned, "
          f"{second.used:.2f} s and {second.peak} KiB where they are not")
    shown.row("an opening that turns a store, beside one that doesn't", first.used / second.used, OPENING,
              "times")
    shown.row("its most memory", first.peak / second.peak, MEMORY, "times")
    os.remove(store)


def searched(program, store):
    """The microseconds of a processor that a search for the rare word takes over a connection."""
    server = Server(program, store, workers=4)
    assert server.wait_until_it_listens(600)
    asked, batch = request("GET", "/search/m1?q=swan", "mara"), 100
    least = None
    for _ in range(5):
        connection = RawConnection(server.port)
        before = server.used()
        for _ in range(ASKED // 5 // batch // 2):
            for status, _ in connection.ask(asked * batch, batch):
                assert status == 200
        took = (server.used() - before) / (ASKED // 5 // batch // 2 * batch) * 1e6
        least = took if least is None else min(least, took)
        connection.close()
    server.kill()
    return least


def searching(program, work, notes, shown):
    given, found = os.path.join(work, "lines"), {}
    eights = audiences()
    for name, group_of in (("one", lambda at: "public"), ("eight", lambda at: eights[at % AUDIENCES])):
        store = os.path.join(work, f"{name}.db")
        fill(program, store, given, notes, group_of)
        found[name] = searched(program, store)
    print(f"a search for a rare word among {notes} annotations, with its page: {found['one']:.0f} us where all "
          f"are public, {found['eight']:.0f} us for a caller in {GROUPS} groups beside {AUDIENCES} audiences of eight")
    shown.row("what these audiences add", found["eight"] - found["one"], SEARCH, "us")


def main():
    program, work, cells, notes = sys.argv[1], sys.argv[2], int(sys.argv[3]), int(sys.argv[4])
    shown = Shown()
    searching(program, work, notes, shown)
    turning(program, work, cells, shown)
    sys.exit(1 if shown.over else 0)


main()
