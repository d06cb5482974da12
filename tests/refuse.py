"""refuse.py PROGRAM WORK LIBRARY STEP: each allocation of a run is refused in turn; memory.sh has
the rest."""
import os
import re
import subprocess
import sys
from collections import Counter

from served import MANIFEST, Table, cells_of, copy_store, reader_line, token

READER = '{"groups":["a"],"role":"writer","token":"token-of-mara","user":"http://a.example/u/mara"}'
NOTE = '{"bodyValue":"%s","target":"http://a.example/c1","type":"Annotation"}'
MOVED = "/annotations/mara/n1?version=2&manifest=m1&group=a"
# The eight requests of failing.cases: who sends what, and the status that is due.
REQUESTS = [
    ("cura", "PUT", "/readers/mara?version=1", READER, 201),
    ("cura", "PUT", "/manifests/m1?version=1", MANIFEST, 201),
    ("mara", "PUT", "/annotations/mara/n1?version=1&manifest=m1", NOTE % "heron", 201),
    ("mara", "PUT", "/annotations/mara/n2?version=1&manifest=m1", NOTE % "swan", 201),
    ("mara", "PUT", MOVED, NOTE % "heron", 200),
    ("mara", "PUT", MOVED, NOTE % "heron", 200),
    ("cura", "DELETE", "/manifests/m1?version=2", "", 200),
    ("cura", "PUT", "/manifests/m1?version=3", MANIFEST, 201),
]
# Where the line of the deletion begins, and what an import from there on tells, of which it was
# done.
DELETION = b"2024-05-01T11:00:00Z cura DELETE"
AGAIN = b"accepted 1 repeated 1 old 0\n"
REPLY = re.compile(rb"HTTP/1\.1 (\d+) .*?\r\n\r\n(\{[^}]*\})", re.DOTALL)


def request(name, method, target, text, _):
    head = f"{method} {target} HTTP/1.1\r\nAuthorization: Bearer {token(name)}\r\n"
    return f"{head}Content-Length: {len(text)}\r\n\r\n{text}".encode()


def line(name, method, target, text, _):
    return f"2024-05-01T11:00:00Z {name} {method} {target}{' ' + text if text else ''}\n".encode()


class Runs:
    """Runs of one form over the same store, of which each begins with a curator alone."""

    def __init__(self, program, work, library, form):
        self.program, self.library, self.form = program, library, form
        self.store, self.count = os.path.join(work, f"{form}.db"), os.path.join(work, "count")
        self.copy = os.path.join(work, "copy.db")
        self.first = os.path.join(work, f"first-{form}.db")
        self.ends = Counter()
        status, told = self.run(["import"], reader_line("cura", "curator").encode())
        assert (status, told) == (0, b"accepted 1 repeated 0 old 0\n"), (status, told)
        copy_store(self.store, self.first)

    def begin(self):
        """A store with a curator."""
        copy_store(self.first, self.store)

    def run(self, words, given, refused=0):
        environment = {"LD_PRELOAD": self.library, "REFUSE": str(refused),
                       "REFUSE_COUNT": self.count}
        done = subprocess.run([self.program, self.store, *words], input=given, env=environment,
                              stdout=subprocess.PIPE, stderr=subprocess.PIPE, timeout=60)
        return done.returncode, done.stdout

    def counted(self):
        with open(self.count) as file:
            return int(file.read())

    def cells(self):
        return cells_of(self.store, self.copy, is_checked=False)

    def play(self, refused):
        """Plays the requests with this allocation refused, and then what is left of them without.
        Answers what wasn't due, if anything."""
        self.begin()
        return self.session(refused) if self.form == "session" else self.imported(refused)

    def session(self, refused):
        words = ["session", "http://a.example", "10"]
        status, told = self.run(words, b"".join(request(*each) for each in REQUESTS), refused)
        replies = [(int(found[1]), found[2]) for found in REPLY.finditer(told)]
        done = 0
        while done < min(len(replies), len(REQUESTS)) and replies[done][0] == REQUESTS[done][4]:
            done += 1
        behind = replies[done:]
        last = "".join(f", {code} {body.decode()}" for code, body in behind)
        self.ends[f"status {status}{last}"] += 1
        if status not in (0, 6) or behind not in ([], [(503, b'{"error":"memory"}')]):
            return f"status {status}, {told!r}"
        if status == 0 and done != len(REQUESTS):
            return f"status 0 behind {done} replies, {told!r}"
        left = REQUESTS[done:]
        status, told = self.run(words, b"".join(request(*each) for each in left))
        again = [(int(found[1]), b'"repeat":true' in found[2]) for found in REPLY.finditer(told)]
        due = [(each[4], each is REQUESTS[5]) for each in left]
        # The one that was refused may have been done all the same.
        if again != due and again != [(200, True), *due[1:]]:
            return f"sent again from request {done + 1} on: status {status}, {told!r}"
        return None

    def imported(self, refused):
        given = b"".join(line(*each) for each in REQUESTS)
        status, told = self.run(["import"], given, refused)
        self.ends[f"status {status}"] += 1
        if status not in (0, 6) or status == 6 and told:
            return f"status {status}, {told!r}"
        status, told = self.run(["import"], given)
        if told == b"line 3 refused: absent\n":
            # The manifest was deleted, and not made anew: the two lines of this are left.
            status, told = self.run(["import"], given[given.index(DELETION):])
            is_due = (status, told) == (0, AGAIN)
            return None if is_due else f"the rest imported: status {status}, {told!r}"
        counts = [int(number) for number in re.findall(rb"\d+", told)]
        if status != 0 or sum(counts) != len(REQUESTS):
            return f"imported again: status {status}, {told!r}"
        return None


def show(program, work, library, step, form, table):
    runs = Runs(program, work, library, form)
    runs.begin()
    wrong = runs.session(0) if form == "session" else runs.imported(0)
    due = runs.cells()
    runs.begin()
    given = b"".join((request if form == "session" else line)(*each) for each in REQUESTS)
    words = ["session", "http://a.example", "10"] if form == "session" else ["import"]
    runs.run(words, given)
    count = runs.counted()
    is_due = wrong is None and len(due) > 10 and count > 100
    table.row(f"{form}: eight requests without a refusal", is_due,
              f"{wrong or ''}{len(due)} cells, {count} allocations")
    runs.ends.clear()
    tried = 0
    for refused in range(1, count + 1, step):
        wrong = runs.play(refused)
        if wrong is None and runs.cells() != due:
            wrong = "the cells are others"
        if wrong is not None:
            table.row(f"{form}: allocation {refused} refused", False, wrong)
        tried += 1
    table.row(f"{form}: {tried} of them refused in turn", True, f"{dict(runs.ends)}")


def main():
    program, work, library, step = sys.argv[1], sys.argv[2], sys.argv[3], int(sys.argv[4])
    table = Table()
    for form in ("session", "import"):
        show(program, work, library, step, form, table)
    table.end()


main()
