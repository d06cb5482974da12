"""What bench/file.sh asks of SQLite itself.
plain.py commit FROM TO: writes the annotations of the store FROM to a new file TO, the two cells of
each in a commit, with a log and a wait for the disk at each commit, and prints the commits a second
and the microseconds of a processor each.
plain.py many FROM TO COUNT: makes TO, a store of so many annotations, each of which has the cells
of one of FROM under another name."""
import json
import sqlite3
import sys
import time

MAKE = ("CREATE TABLE IF NOT EXISTS cell (tab INTEGER NOT NULL, key INTEGER NOT NULL, "
        "val BLOB NOT NULL, PRIMARY KEY (tab, key), CHECK (tab >= 0 AND tab <= 255), "
        "CHECK (key >= 0)) STRICT")
PUT = ("INSERT INTO cell (tab, key, val) VALUES (?1, ?2, ?3) "
       "ON CONFLICT (tab, key) DO UPDATE SET val = excluded.val")


def cells_of(path):
    """The cells of annotations and of their activities, in pairs, and all others."""
    base = sqlite3.connect(path)
    cells = base.execute("SELECT tab, key, val FROM cell ORDER BY tab, key").fetchall()
    base.close()
    notes = [cell for cell in cells if cell[0] == 3]
    activities = [cell for cell in cells if cell[0] == 4 and b'"owner"' in cell[2]]
    paired = {*notes, *activities}
    others = [cell for cell in cells if cell not in paired]
    return list(zip(notes, activities, strict=True)), others


def made(path):
    base = sqlite3.connect(path, isolation_level=None)
    base.execute("PRAGMA journal_mode=WAL")
    base.execute("PRAGMA synchronous=FULL")
    base.execute(MAKE)
    return base


def commit(source, target):
    pairs, others = cells_of(source)
    base = made(target)
    base.executemany(PUT, others)
    begun, used = time.monotonic(), time.process_time()
    for pair in pairs:
        base.execute("BEGIN")
        for cell in pair:
            base.execute(PUT, cell)
        base.execute("COMMIT")
    took, used = time.monotonic() - begun, time.process_time() - used
    base.close()
    print(f"{len(pairs) / took:.0f} {used * 1e6 / len(pairs):.1f}")


def many(source, target, count):
    pairs, others = cells_of(source)
    first = pairs[0][1][1]
    base = made(target)
    base.execute("PRAGMA synchronous=OFF")
    base.execute("BEGIN")
    base.executemany(PUT, others)
    for at in range(count):
        note, activity = pairs[at % len(pairs)]
        name = json.loads(note[2])["name"]
        old, new = f'"name":"{name}"'.encode(), f'"name":"n{at + 1}"'.encode()
        base.execute(PUT, (3, at, note[2].replace(old, new)))
        base.execute(PUT, (4, first + at, activity[2].replace(old, new)))
    base.execute("COMMIT")
    base.execute("PRAGMA wal_checkpoint(TRUNCATE)")
    base.close()


if sys.argv[1] == "commit":
    commit(sys.argv[2], sys.argv[3])
else:
    many(sys.argv[2], sys.argv[3], int(sys.argv[4]))
