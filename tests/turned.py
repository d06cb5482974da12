"""turned.py PROGRAM WORK COUNT SEED: kills programs while they turn a store of the first format into
today's; crash.sh has the rest."""
import json
import os
import random
import signal
import sqlite3
import subprocess
import sys
import time

from served import Server, Table, cells_of, copy_store, new_store, note_text, run

# How many annotations the store has.
NOTES = 3000


def make(program, path):
    """A store of today's format, and its cells."""
    new_store(program, path)
    groups = ["public", "private", "a"]
    lines = ('2024-05-01T10:01:00Z - PUT /readers/mara?version=2 {"groups":["a"],"role":"curator",'
             '"token":"token-of-mara","user":"http://a.example/u/mara"}\n')
    for at in range(NOTES):
        lines += (f"2024-05-01T10:02:00Z mara PUT /annotations/mara/n{at}?version=1&manifest=m1"
                  f"&group={groups[at % 3]} {note_text('heron ' * 20)}\n")
    lines += "2024-05-01T10:03:00Z mara DELETE /annotations/mara/n0?version=2\n"
    told = run(program, path, ["import"], lines.encode())
    assert told == (0, f"accepted {NOTES + 2} repeated 0 old 0\n".encode()), told


def former(tab, val):
    """The text that a cell had in the first format."""
    value = json.loads(val)
    if tab == 0:
        value = {"format": 1}
    elif tab == 3 and value["live"]:
        value["group"] = value.pop("groups")[0]
    elif tab == 4:
        for side in ("after", "before"):
            if side in value:
                value[side]["inner"] = value[side]["inner"][0]
    return json.dumps(value, separators=(",", ":"), sort_keys=True, ensure_ascii=False).encode()


def turn_back(path):
    """Writes the cells of a store as those of the first format, by SQLite itself."""
    base = sqlite3.connect(path)
    cells = base.execute("SELECT tab, key, val FROM cell").fetchall()
    base.executemany("UPDATE cell SET val = ? WHERE tab = ? AND key = ?",
                     [(former(tab, val), tab, key) for tab, key, val in cells])
    base.commit()
    base.execute("PRAGMA wal_checkpoint(TRUNCATE)")
    base.close()


class Turning:
    def __init__(self, program, work):
        self.program = program
        self.first, self.store = work + "/first.db", work + "/turned.db"
        self.beside = work + "/turned-copy.db"
        make(program, self.first)
        self.today = cells_of(self.first, self.beside)
        turn_back(self.first)
        self.former = cells_of(self.first, self.beside)

    def open(self):
        """Opens the store and ends."""
        return run(self.program, self.store, ["import"])

    def took(self):
        """The seconds of an opening that turns the store."""
        copy_store(self.first, self.store)
        began = time.monotonic()
        told = self.open()
        assert told == (0, b"accepted 0 repeated 0 old 0\n"), told
        return time.monotonic() - began

    def kill_at(self, moment):
        """Whether the cells were turned where the program is killed at this moment. They are those
        of one format, whole, and are turned by the next opening."""
        copy_store(self.first, self.store)
        process = subprocess.Popen([self.program, self.store, "import"], stdin=subprocess.PIPE,
                                   stdout=subprocess.DEVNULL)
        time.sleep(moment)
        process.send_signal(signal.SIGKILL)
        process.wait()
        process.stdin.close()
        found = cells_of(self.store, self.beside)
        assert found in (self.former, self.today), f"killed at {moment}: cells of neither format"
        told = self.open()
        assert told == (0, b"accepted 0 repeated 0 old 0\n"), told
        assert cells_of(self.store, self.beside) == self.today, "the next opening left other cells"
        return found == self.today


def main():
    program, work, count, seed = sys.argv[1], sys.argv[2], int(sys.argv[3]), int(sys.argv[4])
    table, drawn = Table(), random.Random(seed)
    try:
        turning = Turning(program, work)
        most = 1.2 * turning.took()
        turned = cells_of(turning.store, turning.beside)
        table.row("a store of the first format is turned as it is opened", turned == turning.today,
                  f"{len(turned)} cells, {os.path.getsize(turning.store)} bytes")
        status, _ = turning.open()
        still = cells_of(turning.store, turning.beside)
        table.row("and opened again as it is", status == 0 and still == turned)
        done = sum(turning.kill_at(drawn.uniform(0, most)) for _ in range(count))
        table.row(f"{count} kills while it is turned, seed {seed}", True,
                  f"{done} left the cells of today's format, {count - done} those of the first, each "
                  "whole")
        copy_store(turning.first, turning.store)
        server = Server(program, turning.store)
        listens = server.wait_until_it_listens()
        server.kill()
        table.row("a server turns it too",
                  listens and cells_of(turning.store, turning.beside) == turning.today)
    except AssertionError as wrong:
        table.row(f"kills while a store is turned, seed {seed}", False, str(wrong))
    table.end()


if __name__ == "__main__":
    main()
