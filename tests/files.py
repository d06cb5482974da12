"""files.py PROGRAM WORK: a full disk, two processes at one file, and paths that are no store;
crash.sh has the rest."""
import os
import socket
import sqlite3
import subprocess
import sys

from served import Connection, Server, Table, bytes_of, cells_of, new_store, note_text, run

NOBODY = ["setpriv", "--reuid=65534", "--regid=65534", "--clear-groups"]
TARGET = "/annotations/mara/n{}?version=1&manifest=m1"


# ---- a full disk

def full_disk(program, work, table):
    disk = os.path.join(work, "disk")
    os.mkdir(disk)
    mounted = subprocess.run(["mount", "-t", "tmpfs", "-o", "size=2m", "tmpfs", disk],
                             stderr=subprocess.PIPE)
    if mounted.returncode != 0:
        print(f"skip   a full disk: {mounted.stderr.decode().strip()}")
        return
    server = None
    try:
        store = os.path.join(disk, "store.db")
        new_store(program, store)
        ballast = os.path.join(disk, "ballast")
        with open(ballast, "wb") as file:
            file.write(bytes(1 << 20))
        server = Server(program, store)
        assert server.wait_until_it_listens()
        fill_and_free(server, store, ballast, work, table)
    finally:
        if server:
            server.kill()
        subprocess.run(["umount", disk], check=True)


def fill_and_free(server, store, ballast, work, table):
    connection = Connection(server.port)
    text = note_text("heron " * 1000)
    done, refused = [], []
    for number in range(2000):
        status, body = connection.ask("PUT", TARGET.format(number), "mara", text)
        if status == 201:
            done.append(number)
        else:
            refused.append((status, body))
        if len(refused) == 20:
            break
    is_due = len(refused) == 20 and set(refused) == {(500, b'{"error":"keeper"}')}
    table.row("a full disk: writes are answered 500 keeper", is_due and len(done) > 0,
              f"{len(done)} were acknowledged before; then {set(refused)}")
    reads = {connection.ask("GET", f"/annotations/mara/n{number}")[0] for number in done}
    missing = connection.ask("GET", f"/annotations/mara/n{done[-1] + 1}")[0]
    table.row("a full disk: reads go on", reads == {200} and missing == 404,
              f"{reads} for what was acknowledged, {missing} for what was refused")
    os.remove(ballast)
    more = range(done[-1] + 1, done[-1] + 21)
    written = {connection.ask("PUT", TARGET.format(number), "mara", text)[0] for number in more}
    table.row("a full disk: where space is made, writes go on", written == {201}, str(written))
    connection.close()
    server.kill()
    names = {f'"name":"n{number}"'.encode() for number in [*done, *more]}
    cells = cells_of(store, os.path.join(work, "disk-copy.db"))
    notes = [val for tab, _, val in cells if tab == 3]
    found = {name for val in notes for name in names if name in val}
    table.row("a full disk: the file has what was acknowledged, and no more",
              found == names and len(notes) == len(names), f"{len(notes)} annotations")


# ---- two processes at one file

def two_processes(program, work, table):
    store = os.path.join(work, "shared.db")
    new_store(program, store)
    server = Server(program, store)
    assert server.wait_until_it_listens()
    before = bytes_of(store)
    line = f"2024-05-01T10:01:00Z mara PUT {TARGET.format(1)} {note_text('heron')}\n".encode()
    with socket.socket() as taken:
        taken.bind(("127.0.0.1", 0))
        port = str(taken.getsockname()[1])
    runs = [["import"], ["export", "-"], ["serve", "http://a.example", "10", port, "1", "1"]]
    for words in runs:
        told = run(program, store, words, line, seconds=60)
        is_due = told == (4, b"keeper failed\n") and bytes_of(store) == before
        table.row(f"two processes: {words[0]} at a store that is served", is_due,
                  f"status {told[0]}, {told[1]!r}")
    for sql in ("SELECT count(*) FROM cell", "DELETE FROM cell"):
        asked = subprocess.run(["sqlite3", store, sql], stdout=subprocess.PIPE,
                               stderr=subprocess.STDOUT, timeout=60)
        is_due = asked.returncode != 0 and b"locked" in asked.stdout and bytes_of(store) == before
        table.row(f"two processes: sqlite3 {sql[:6]}", is_due, asked.stdout.decode().strip())
    connection = Connection(server.port)
    status, _ = connection.ask("PUT", TARGET.format(1), "mara", note_text("heron"))
    table.row("two processes: the first goes on", status == 201, f"status {status}")
    connection.close()
    server.kill()


def held_by_sqlite(program, work, table):
    """A process of sqlite3 has the file open: idle, in a read, and in a write."""
    store = new_store(program, os.path.join(work, "held.db"))
    line = f"2024-05-01T10:01:00Z mara PUT {TARGET.format(1)} {note_text('heron')}\n".encode()
    count = b"SELECT count(*) FROM cell;\n"
    held = subprocess.Popen(["sqlite3", store], stdin=subprocess.PIPE, stdout=subprocess.PIPE)
    for what, begin in (("idle", count), ("in a read", b"BEGIN; " + count),
                        ("in a write", b"ROLLBACK; BEGIN IMMEDIATE; " + count)):
        held.stdin.write(begin)
        held.stdin.flush()
        counted = held.stdout.readline()
        before = bytes_of(store)
        told = run(program, store, ["import"], line)
        is_due = told == (4, b"keeper failed\n") and bytes_of(store) == before
        table.row(f"two processes: import while sqlite3 is {what}", is_due and counted == b"4\n",
                  f"status {told[0]}, {told[1]!r}")
    held.communicate(b"ROLLBACK;\n", timeout=60)
    told = run(program, store, ["import"], line)
    cells = cells_of(store, os.path.join(work, "held-copy.db"))
    is_due = told == (0, b"accepted 1 repeated 0 old 0\n") and len(cells) == 6
    table.row("two processes: import behind its end", is_due, f"status {told[0]}, {told[1]!r}")


# ---- paths that are no store

def what_stands(path):
    """The bytes of a file, or the names in a directory."""
    return bytes_of(path)[0] if os.path.isfile(path) else sorted(os.listdir(path))


def refused(program, path, table, what, due, wrap=()):
    """Each form that opens a store is refused, and the file's bytes stay. A log may be left beside
    it."""
    before = what_stands(path)
    forms = [["import"], ["export", "-"], ["session", "http://a.example", "10"]]
    told = {run(program, path, words, b"", wrap) for words in forms}
    is_same = what_stands(path) == before
    log = bytes_of(path)[1]
    left = "" if log is None else f", and a log of {len(log)} bytes beside"
    table.row(what, told == {due} and is_same,
              f"{sorted(told)}, bytes {'as before' if is_same else 'CHANGED'}{left}")


def no_stores(program, work, table):
    failed = (4, b"keeper failed\n")
    directory = os.path.join(work, "directory")
    os.mkdir(directory)
    refused(program, directory, table, "a directory", failed)
    hello = os.path.join(work, "hello")
    with open(hello, "w") as file:
        file.write("hello")
    refused(program, hello, table, "a file of the text hello", failed)
    foreign = "CREATE TABLE cell (name TEXT)"
    other(program, work, table, "foreign", foreign + "; INSERT INTO cell VALUES ('x')", failed)
    other(program, work, table, "empty-foreign", foreign, failed)
    made = ("CREATE TABLE cell (tab INTEGER NOT NULL, key INTEGER NOT NULL, val BLOB NOT NULL, "
            "PRIMARY KEY (tab, key)); INSERT INTO cell VALUES (1, 7, x'7b7d')")
    other(program, work, table, "damaged", made, (7, b"store damaged: table 1 key 7\n"))
    if os.getuid() == 0:
        without_leave(program, work, table, failed)
    else:
        print("skip   a file without leave: this user isn't root")


def other(program, work, table, name, sql, due):
    """A database that somebody else made, in both of the modes that a file can have."""
    for mode in ("delete", "wal"):
        path = os.path.join(work, f"{name}-{mode}.db")
        base = sqlite3.connect(path)
        base.execute(f"PRAGMA journal_mode={mode}")
        base.executescript(sql)
        base.close()
        refused(program, path, table, f"a database {name}, journal_mode {mode}", due)


def without_leave(program, work, table, failed):
    os.chmod(work, 0o755)
    kept = os.path.join(work, "kept")
    os.mkdir(kept, 0o755)
    store = os.path.join(kept, "store.db")
    new_store(program, store)
    os.chmod(store, 0o600)
    refused(program, store, table, "a file that may not be read", failed, NOBODY)
    os.chmod(store, 0o644)
    refused(program, store, table, "a file that may not be written", failed, NOBODY)


def main():
    program, work = sys.argv[1], sys.argv[2]
    table = Table()
    full_disk(program, work, table)
    two_processes(program, work, table)
    held_by_sqlite(program, work, table)
    no_stores(program, work, table)
    table.end()


main()
