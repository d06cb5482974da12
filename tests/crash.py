"""crash.py PROGRAM WORK COUNT SEED: kills servers and imports at random moments; crash.sh has the
rest."""
import copy
import random
import signal
import subprocess
import sys
import threading
import time

from served import Connection, Gone, Server, Table, cells_of, reader_line, run
from writers import Writer, found_rows, replay_lines

NAMES = ["w0", "w1", "w2", "w3"]
# How many lines an import has.
BATCH = 300


class Wrong(Exception):
    """What isn't as it is due."""


class Client(threading.Thread):
    """Sends a writer's writes, each again until it is acknowledged, up to the end of the server."""

    def __init__(self, writer, port, was_done):
        super().__init__()
        self.writer, self.port, self.was_done = writer, port, was_done
        self.acknowledged = 0
        self.wrong = None

    def run(self):
        connection = Connection(self.port)
        try:
            while True:
                self.write(connection)
        except Gone:
            pass
        except Wrong as wrong:
            self.wrong = wrong
        finally:
            connection.close()

    def write(self, connection):
        write = self.writer.pending or self.writer.next()
        self.writer.pending = write
        status, body = connection.ask(write.method, write.target, self.writer.name, write.text)
        repeat = b'"repeat":true' in body
        if status not in (200, 201):
            raise Wrong(f"{write.line(self.writer.name)}: answered {status} {body!r}")
        if self.was_done is not None and repeat != self.was_done:
            raise Wrong(f"{write.target}: repeat is {repeat}, the cells had it: {self.was_done}")
        if self.was_done is None and repeat:
            raise Wrong(f"{write.target}: was never sent before, and is a repeat")
        self.was_done = None
        self.writer.acknowledge()
        self.acknowledged += 1


class Kills:
    def __init__(self, program, work, count, seed):
        self.program, self.work, self.count = program, work, count
        self.store, self.beside = work + "/store.db", work + "/copy.db"
        self.random = random.Random(seed)
        self.writers = [Writer(name, random.Random(f"{seed} {name}")) for name in NAMES]
        self.importer = Writer("w4", random.Random(f"{seed} import"))
        self.batch = []
        # Of each writer, whether the cells had its write without a reply.
        self.was_done = {}
        self.acknowledged = self.early = self.had = self.unread = 0

    def begin(self):
        lines = "".join(reader_line(name, "curator") for name in [*NAMES, "w4"])
        self.readers = lines
        status, told = run(self.program, self.store, ["import"], lines.encode())
        if status != 0:
            raise Wrong(f"the import of the readers: {status} {told!r}")

    def check(self):
        """Compares the cells to what was acknowledged: of each writer all of it, and its write
        without a reply wholly or not at all."""
        self.cells = cells_of(self.store, self.beside)
        rows = found_rows(self.cells)
        self.was_done = {}
        for writer in self.writers:
            found = rows.get(writer.name, {})
            if found == writer.rows:
                done = False
            elif writer.pending and found == writer.ahead().rows:
                done = True
            else:
                raise Wrong(f"{writer.name}: {difference(writer.rows, found)}")
            if writer.pending:
                self.was_done[writer.name] = done
                self.unread += 1
                self.had += done
        self.check_import(rows.get(self.importer.name, {}))

    def check_import(self, found):
        """Of an import the cells have the lines of a front."""
        steps = copy.deepcopy(self.importer)
        for done in range(len(self.batch) + 1):
            if found == steps.rows:
                self.importer, self.batch = steps, self.batch[done:]
                return
            if done < len(self.batch):
                steps.apply(self.batch[done])
        raise Wrong("an import left what is no front of its lines")

    def serve(self):
        server = Server(self.program, self.store)
        delay = self.random.uniform(0, 0.3)
        clients = []
        try:
            # Some moments are those of the opening.
            if self.random.random() < 0.2:
                time.sleep(delay / 10)
                self.early += 1
                return
            if not server.wait_until_it_listens():
                raise Wrong(f"the server doesn't open: {server.said!r}")
            clients = [Client(w, server.port, self.was_done.get(w.name)) for w in self.writers]
            for client in clients:
                client.start()
            time.sleep(delay)
        finally:
            server.kill()
            for client in clients:
                client.join()
        for client in clients:
            self.acknowledged += client.acknowledged
            if client.wrong:
                raise client.wrong

    def import_some(self):
        if not self.batch:
            ahead = copy.deepcopy(self.importer)
            for _ in range(BATCH):
                self.batch.append(ahead.next())
                ahead.apply(self.batch[-1])
        process = subprocess.Popen([self.program, self.store, "import"], stdin=subprocess.PIPE,
                                   stdout=subprocess.PIPE)
        process.stdin.write(self.lines_of_batch().encode())
        process.stdin.close()
        time.sleep(self.random.uniform(0, 0.3))
        process.send_signal(signal.SIGKILL)
        process.stdout.read()
        process.wait()
        process.stdout.close()

    def lines_of_batch(self):
        return "".join(write.line(self.importer.name) for write in self.batch)

    def kill_all(self):
        for at in range(self.count):
            try:
                if at % 4 == 3:
                    self.import_some()
                else:
                    self.serve()
                self.check()
            except (Wrong, AssertionError) as wrong:
                raise Wrong(f"kill {at + 1}: {wrong}") from wrong

    def finish(self):
        """Sends again what has no reply, and the rest of the import."""
        server = Server(self.program, self.store)
        if not server.wait_until_it_listens():
            raise Wrong("the server doesn't open at the end")
        connection = Connection(server.port)
        for writer in self.writers:
            client = Client(writer, server.port, self.was_done.get(writer.name))
            if writer.pending:
                client.write(connection)
        server.kill()
        status, told = run(self.program, self.store, ["import"], self.lines_of_batch().encode())
        due = f"accepted {len(self.batch)} repeated 0 old 0\n"
        if status != 0 or told != due.encode():
            raise Wrong(f"the rest of the import: {status} {told!r}, and due is {due!r}")
        for write in self.batch:
            self.importer.apply(write)
        self.batch = []
        self.check()

    def replay(self):
        """The cells of all acknowledged writes in their order, by an import that nothing ends."""
        lines = replay_lines(self.cells, [*self.writers, self.importer])
        again = self.work + "/again.db"
        status, told = run(self.program, again, ["import"], (self.readers + lines).encode(),
                           seconds=3600)
        due = f"accepted {len(NAMES) + 1 + lines.count(chr(10))} repeated 0 old 0\n"
        if status != 0 or told != due.encode():
            raise Wrong(f"the replay: {status} {told!r}, and due is {due!r}")
        return cells_of(again, self.work + "/again-copy.db")


def difference(due, found):
    for key in sorted({*due, *found}, key=str):
        if due.get(key) != found.get(key):
            return f"{key} is {found.get(key)}, and due is {due.get(key)}"
    return "nothing differs"


def main():
    program, work, count, seed = sys.argv[1], sys.argv[2], int(sys.argv[3]), int(sys.argv[4])
    table = Table()
    kills = Kills(program, work, count, seed)
    try:
        kills.begin()
        kills.kill_all()
        table.row(f"{count} kills, seed {seed}", True,
                  f"{kills.acknowledged} writes over HTTP acknowledged, none missing; "
                  f"{kills.had} of {kills.unread} writes without a reply were done; "
                  f"{kills.early} kills while the store was opened")
        kills.finish()
        again = kills.replay()
        table.row("the cells are those of the replayed writes", kills.cells == again,
                  f"{len(kills.cells)} cells")
        table.row("there were enough writes to show it", kills.acknowledged >= 2 * count)
    except (Wrong, AssertionError) as wrong:
        table.row(f"kills, seed {seed}", False, str(wrong))
    table.end()


main()
