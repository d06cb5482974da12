"""gather.py PROGRAM WORK ANNOTATIONS MANIFESTS BEFORE: times searches in all manifests; gather.sh
has the rest."""
import os
import sqlite3
import sys
import time

from served import MANIFEST, note_text, reader_line
from timing import ROUNDS, SECONDS, Shown, filled, has_terms, has_total, timed

# The bounds that are shown: microseconds, and times. Then the other owners, and how many
# annotations have the rare word and the one that is neither rare nor frequent.
RARE_TIME, SOME_TIME, FREQUENT_TIME, COMPLETION, COLLECTION = 100, 300, 4000, 1000, 10000
NAMED, GROWTH = 4 / 3, 1.2
OWNERS, RARE, SOME = 1000, 5, 1000


# ---- the texts

class Corpus:
    """So many annotations on manifests, and the owners' private ones behind them. Each manifest has
    about as many of each kind."""

    def __init__(self, notes, manifests):
        self.notes, self.manifests = notes, manifests
        # The steps have no factor in common with a round number of manifests.
        self.some = {(at * (notes // SOME - 1) + 3) % notes for at in range(SOME)}
        self.rare = {(at * (notes // RARE - 11) + 11) % notes for at in range(RARE)}

    def text(self, at):
        words = ["heron" if at // self.manifests % 2 == 0 else "ibis", "gull", "tern"]
        words += ["heronry"] * (at % 10 == 1) + ["herring"] * (at % 20 == 2)
        words += ["stork"] * (at in self.some) + ["bittern"] * (at in self.rare)
        return " ".join(words + [f"leaf{at % 997}"])

    def rows(self):
        """The owner, the name, the manifest, the group and the text of each annotation."""
        for at in range(self.notes):
            yield "mara", f"n{at}", f"m{at % self.manifests}", "public", self.text(at)
        for at in range(OWNERS):
            yield (f"o{at}", "n", f"m{at % self.manifests}", "private",
                   "heron heronry stork bittern")

    def lines(self):
        yield reader_line("mara", "curator")
        for at in range(OWNERS):
            yield reader_line(f"o{at}", "writer")
        for at in range(self.manifests):
            yield f"2024-05-01T10:00:00Z mara PUT /manifests/m{at}?version=1 {MANIFEST}\n"
        for owner, name, manifest, group, text in self.rows():
            yield (f"2024-05-01T10:01:00Z {owner} PUT /annotations/{owner}/{name}?version=1"
                   f"&manifest={manifest}&group={group} {note_text(text)}\n")

    def having(self, word, manifest=None):
        """How many public annotations have a word, on all manifests or on one."""
        return sum(word in text.split() for _, _, on, group, text in self.rows()
                   if group == "public" and manifest in (None, on))


# ---- SQLite

def tables(work, corpus):
    """The same texts in FTS5, each with its manifest, its group and its owner; or nothing."""
    base = sqlite3.connect(os.path.join(work, "fts.db"))
    try:
        base.execute("CREATE VIRTUAL TABLE note USING fts5(text, manifest UNINDEXED,"
                     " audience UNINDEXED, owner UNINDEXED)")
    except sqlite3.OperationalError:
        return None
    base.execute("CREATE VIRTUAL TABLE word USING fts5vocab(note, instance)")
    base.executemany("INSERT INTO note (text, manifest, audience, owner) VALUES (?, ?, ?, ?)",
                     ((text, manifest, group, owner)
                      for owner, _, manifest, group, text in corpus.rows()))
    base.commit()
    return base


FOUND = "FROM note WHERE note MATCH ? AND (audience = 'public' OR owner = '-')"
COUNTED = ("SELECT term, count(*) FROM word JOIN note ON note.rowid = word.doc WHERE term >= 'her'"
           " AND term < 'hes' AND (audience = 'public' OR owner = '-') GROUP BY term LIMIT 100")


def beside(base, what, statements):
    """Prints what statements of SQLite take, the least of several rounds."""
    if base is None:
        return
    least = None
    for _ in range(ROUNDS):
        begun, count = time.process_time(), 0
        while time.process_time() - begun < SECONDS / 4:
            for statement, words in statements:
                base.execute(statement, words).fetchall()
            count += 1
        took = (time.process_time() - begun) / count * 1e6
        least = took if least is None else min(least, took)
    print(f"  the same in SQLite's FTS5, {what}: {least:.2f} us", flush=True)


def page_of(word):
    return [(f"SELECT count(*) {FOUND}", (word,)),
            (f"SELECT rowid, text {FOUND} ORDER BY rowid LIMIT 10", (word,))]


# ---- what is asked

def searches(server, corpus, base, shown):
    for word, most in [("bittern", RARE_TIME), ("stork", SOME_TIME), ("heron", FREQUENT_TIME)]:
        total = corpus.having(word)
        shown.row(f"a word with {total} hits on {corpus.manifests} manifests",
                  timed(server, f"/gather/search?q={word}", has_total(total)), most, "us")
        beside(base, "its total and its page", page_of(word))
    terms = {word: corpus.having(word) for word in ["heron", "heronry", "herring"]}
    shown.row("a completion of three letters",
              timed(server, "/gather/autocomplete?q=her", has_terms(terms)), COMPLETION, "us")
    beside(base, "the words and their totals", [(COUNTED, ())])
    named = f"m{corpus.manifests // 2}"
    is_due = has_total(corpus.having("heron", named))
    plain = timed(server, f"/search/{named}?q=heron", is_due)
    found = timed(server, f"/gather/search?manifests={named}&q=heron", is_due)
    print(f"a search on one manifest: {plain:.2f} us, and {found:.2f} us where it is named")
    shown.row("a search in one manifest that is named, of the plain one", found / plain, NAMED,
              "times")
    shown.row(f"the collection of {corpus.manifests} manifests",
              timed(server, "/collection", lambda it: len(it["items"]) == corpus.manifests),
              COLLECTION, "us")


def main():
    program, work, before = sys.argv[1], sys.argv[2], sys.argv[5]
    corpus, shown = Corpus(int(sys.argv[3]), int(sys.argv[4])), Shown()
    given = os.path.join(work, "lines")
    with open(given, "w") as file:
        file.writelines(corpus.lines())
    server, ended = filled(program, work, given, "store.db")
    took, memory = ended.used, server.memory("VmRSS")
    print(f"imported: {took:.2f} s of a processor, {ended.peak} KiB at most; the server has"
          f" {memory} KiB", flush=True)
    searches(server, corpus, tables(work, corpus), shown)
    server.kill()
    if before:
        server, ended = filled(before, work, given, "before.db")
        shown.row("the import, of that by the program before", took / ended.used, GROWTH, "times")
        shown.row("the server's memory, of that of the program before",
                  memory / server.memory("VmRSS"), GROWTH, "times")
        server.kill()
    raise SystemExit(1 if shown.over else 0)


main()
