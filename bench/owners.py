"""owners.py PROGRAM WORK ANNOTATIONS: times searches, completions and the stream where many own what
all may read; owners.sh has the rest."""
import os
import sys

from served import MANIFEST, RawConnection, note_text, reader_line, request
from timing import Shown, filled, has_terms, has_total, served, timed

# The bounds that are shown: microseconds, seconds, and times.
FREQUENT, TWO_WORDS, COMPLETION = 2000, 300, 30
LAST_OF_FEW, LAST_PAGE, ALL_PAGES = 20, 25, 0.2
GROWTH = 1.05
# So many readers, of whom some own what all may read, and so many own a private annotation each.
READERS, PRIVATE = 20000, 1000
# Of a stream whose pages are all read a page has so many changes.
LONG_PAGE = 100


class Corpus:
    """So many public annotations of so many owners on one manifest, and private ones beside."""

    def __init__(self, notes, owners):
        self.notes, self.owners = notes, owners

    def text(self, at):
        words = ["gull" if at % 10 == 0 else "heron", "tern" if at % 2 else "ibis"]
        words += ["heronry"] * (at % 10 == 1) + ["herring"] * (at % 20 == 2)
        return " ".join(words + [f"leaf{at % 997}"])

    def lines(self):
        yield reader_line("mara", "curator")
        for at in range(READERS):
            yield reader_line(f"o{at}", "writer")
        yield f"2024-05-01T10:00:00Z mara PUT /manifests/m1?version=1 {MANIFEST}\n"
        for at in range(self.notes):
            yield self.line(f"o{at % self.owners}", f"n{at}", "public", self.text(at))
        for at in range(PRIVATE):
            yield self.line(f"o{READERS - 1 - at}", "own", "private", "heron tern heronry")

    def line(self, owner, name, group, text):
        return (f"2024-05-01T10:01:00Z {owner} PUT /annotations/{owner}/{name}?version=1"
                f"&manifest=m1&group={group} {note_text(text)}\n")

    def having(self, *words):
        """How many of the public annotations have all of the words."""
        return sum(all(word in self.text(at).split() for word in words)
                   for at in range(self.notes))

    def changes(self):
        """How many changes everybody sees: the manifest's, and those of public annotations."""
        return self.notes + 1


def store_of(program, work, notes, owners):
    """A server of so many annotations of so many owners, what they are, and the store's path."""
    corpus, name = Corpus(notes, owners), f"{notes}-{owners}.db"
    given = os.path.join(work, "lines")
    with open(given, "w") as file:
        file.writelines(corpus.lines())
    server, _ = filled(program, work, given, name)
    return server, corpus, os.path.join(work, name)


def searches(server, corpus, shown):
    of = f"of {corpus.owners} owners, {corpus.notes} annotations"
    hits = corpus.having("heron")
    shown.row(f"a word with {hits} hits {of}",
              timed(server, "/search/m1?q=heron", has_total(hits)), FREQUENT, "us")
    both = corpus.having("heron", "tern")
    shown.row(f"two words with {both} hits {of}",
              timed(server, "/search/m1?q=heron+tern", has_total(both)), TWO_WORDS, "us")
    terms = {word: corpus.having(word) for word in ["heron", "heronry", "herring"]}
    shown.row(f"a completion of three letters {of}",
              timed(server, "/autocomplete/m1?q=her", has_terms(terms)), COMPLETION, "us")


def last_page(server, corpus, most, shown):
    last = -(-corpus.changes() // 10)
    shown.row(f"the last page of a stream of {corpus.changes()} changes beside {PRIVATE} owners'",
              timed(server, f"/changes?page={last}", lambda it: len(it["orderedItems"]) > 0),
              most, "us")


def all_pages(program, store, corpus, shown):
    """Reads the whole stream, on long pages."""
    server = served(program, store, LONG_PAGE)
    pages, found = -(-corpus.changes() // LONG_PAGE), 0
    before = server.used()
    for first in range(1, pages + 1, 500):
        connection = RawConnection(server.port)
        for page in range(first, min(first + 500, pages + 1)):
            [(status, body)] = connection.ask(request("GET", f"/changes?page={page}"))
            assert status == 200, status
            found += body.count(b'"endTime"')
        connection.close()
    took = server.used() - before
    server.kill()
    assert found == corpus.changes(), found
    shown.row(f"all {pages} pages of that stream", took, ALL_PAGES, "s")


def main():
    program, work, notes = sys.argv[1], sys.argv[2], int(sys.argv[3])
    shown = Shown()
    server, corpus, _ = store_of(program, work, notes // 20, 3)
    last_page(server, corpus, LAST_OF_FEW, shown)
    server.kill()
    memory = {}
    for owners in (3, 1000, READERS - PRIVATE):
        server, corpus, store = store_of(program, work, notes, owners)
        memory[owners] = server.memory("VmRSS")
        print(f"of {owners} owners: {memory[owners]} KiB of memory", flush=True)
        searches(server, corpus, shown)
        last_page(server, corpus, LAST_PAGE, shown)
        server.kill()
        if owners == 3:
            all_pages(program, store, corpus, shown)
    shown.row("memory with the most owners, of that with three",
              memory[READERS - PRIVATE] / memory[3], GROWTH, "times")
    raise SystemExit(1 if shown.over else 0)


main()
