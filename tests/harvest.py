"""harvest.py PROGRAM WORK: harvests a served reading room, and compares what is known with exports;
harvest.sh has the rest."""
import http.client
import json
import os
import subprocess
import sys
import threading

from served import BASE, Server, Table, copy_store, note_text, run

TOP = os.path.dirname(os.path.dirname(os.path.abspath(__file__)))
HARVEST = os.path.join(TOP, "tools", "harvest")
LINES = os.path.join(TOP, "examples", "reading-room", "lines")
# Each caller of the room by the name that an export has for it, and its token.
CALLERS = {"-": None, "ines": "tok-ines-room", "tomas": "tok-tomas-room", "leila": "tok-leila-room"}


class Ended:
    """How a run of the harvester ended: its status and what it printed."""

    def __init__(self, done):
        self.status = done.returncode
        self.lines = done.stdout.decode().splitlines()
        self.why = done.stderr.decode()


class Room:
    """A served store, which is written to, and the files of what its callers know."""

    def __init__(self, program, work, name, lines):
        self.program = program
        self.folder = os.path.join(work, name)
        os.mkdir(self.folder)
        self.store = os.path.join(self.folder, "room.db")
        status, printed = run(program, self.store, ["import"], lines)
        assert status == 0, printed
        self.server = Server(program, self.store)
        assert self.server.wait_until_it_listens(), self.server.said
        self.versions = {}
        self.touched = set()
        # Whether the program has the form `harvest`, to compare with.
        self.has_form = run(program, self.copy(), ["harvest", BASE, "10", "-"])[0] != 2

    def known_path(self, caller):
        return os.path.join(self.folder, f"{caller}.json")

    def harvest(self, caller, token=None, output=subprocess.PIPE):
        """A run of the harvester by a caller, whose token is in a variable or in a file."""
        token = token or CALLERS[caller]
        words, environment = [], dict(os.environ)
        if caller == "ines":
            path = os.path.join(self.folder, "ines.header")
            with open(path, "w") as file:
                file.write(f"Authorization: Bearer {token}\n")
            words = ["--token-file", path]
        elif token:
            environment["THE_TOKEN"] = token
            words = ["--token-variable", "THE_TOKEN"]
        words += ["--at", f"http://127.0.0.1:{self.server.port}", BASE, self.known_path(caller)]
        return Ended(subprocess.run([HARVEST, *words], env=environment, stdin=subprocess.DEVNULL,
                                    stdout=output, stderr=subprocess.PIPE, timeout=120))

    def known(self, caller):
        """The lines of what a caller knows."""
        with open(self.known_path(caller), encoding="utf-8") as file:
            objects = json.load(file)["objects"]
        return sorted(f"{kind} {iri}" for iri, kind in objects.items())

    def copy(self):
        """The path of a copy of the store as it is now."""
        beside = os.path.join(self.folder, "copy.db")
        copy_store(self.store, beside)
        return beside

    def exported(self, caller):
        """The manifests and annotations of an export of a copy, as lines of a harvest."""
        status, printed = run(self.program, self.copy(), ["export", caller])
        assert status == 0, printed
        found = []
        for line in printed.decode().splitlines():
            path = line.split(" ", 4)[3].partition("?")[0]
            kind = "Manifest" if path.startswith("/manifests/") else "Annotation"
            found.append(f"{kind} {BASE}{path}")
        return sorted(found)

    def write(self, method, path, query="", text=None, caller="ines"):
        """The next write of an object, which has to be accepted."""
        version = self.versions.get(path, 0) + 1
        target = f"{path}?version={version}{query}"
        link = http.client.HTTPConnection("127.0.0.1", self.server.port, timeout=20)
        fields = {"Authorization": "Bearer " + CALLERS[caller]}
        link.request(method, target, body=text and text.encode(), headers=fields)
        reply = link.getresponse()
        body = reply.read()
        link.close()
        assert reply.status in (200, 201) and b'"repeat":false' in body, (target, body)
        self.versions[path] = version
        self.touched.add(BASE + path)

    def note(self, name, group="public", text="a note", manifest="log", caller="tomas"):
        self.write("PUT", f"/annotations/{caller}/{name}", f"&manifest={manifest}&group={group}",
                   note_text(text), caller)

    def delete(self, name, caller="tomas"):
        self.write("DELETE", f"/annotations/{caller}/{name}", caller=caller)


def iris_of(lines):
    """The IRI of each line, and what the object is."""
    return {line.partition(" ")[2]: line.partition(" ")[0] for line in lines}


def differences(before, after, touched):
    """The lines that are due between two exports, where these objects were written meanwhile."""
    before, after = iris_of(before), iris_of(after)
    found = []
    for iri in sorted(before.keys() | after.keys()):
        if iri not in before:
            found.append(f"new {after[iri]} {iri}")
        elif iri not in after:
            found.append(f"gone {before[iri]} {iri}")
        elif iri in touched:
            found.append(f"changed {after[iri]} {iri}")
    return found


def check_callers(table, room, what, seen):
    """Harvests by each caller, and compares with its exports: `seen` has the earlier ones."""
    for caller in CALLERS:
        before, after = seen.get(caller, []), room.exported(caller)
        due = differences(before, after, room.touched)
        ended = room.harvest(caller)
        table.row(f"{what}, {caller}: what is known is the export of a copy",
                  ended.status == 0 and room.known(caller) == after,
                  f"{len(after)} objects{ended.why}")
        table.row(f"{what}, {caller}: what is printed is what is new, changed and gone",
                  ended.lines == due, f"{len(due)} lines")
        if room.has_form:
            check_form(table, room, what, caller)
        seen[caller] = after
    room.touched.clear()


def check_form(table, room, what, caller):
    """Compares what is known with what the program's own form prints on a copy."""
    status, printed = run(room.program, room.copy(), ["harvest", BASE, "10", caller])
    table.row(f"{what}, {caller}: what is known is what `harvest` of a copy prints",
              status == 0 and sorted(printed.decode().splitlines()) == room.known(caller))


def write_and_hide(room):
    """What is made, changed, deleted, hidden and shown, and what is made and deleted again."""
    room.note("first")
    room.note("second", "private")
    room.note("third", "editors")
    for number in range(25):
        room.note(f"of-{number}", text=f"note {number}", caller="leila")
    room.note("passing")
    room.delete("passing")


def change_and_hide(room):
    room.note("first", text="another note")
    room.note("second", "public")
    room.note("third", "private")
    room.delete("of-3", caller="leila")
    room.note("of-4", "keepers", caller="leila")
    room.note("of-5", "private", caller="leila")
    room.write("PUT", "/manifests/closed", "&group=editors", json.dumps({
        "items": [{"height": 100, "id": "http://a.example/c1", "type": "Canvas", "width": 80}],
        "label": {"en": ["Closed"]}, "type": "Manifest"}))
    room.note("inside", "public", manifest="closed")


def delete_and_show(room):
    room.delete("first")
    room.note("first", text="a third note")
    room.note("of-4", "public", caller="leila")
    room.note("of-3", text="made again", caller="leila")
    room.versions["/manifests/map"] = 1
    room.write("DELETE", "/manifests/map")


def check_rounds(table, room):
    seen = {}
    # All is new at first, and so nothing counts as changed.
    check_callers(table, room, "at first", seen)
    for caller in CALLERS:
        path = room.known_path(caller)
        before = os.stat(path)
        ended = room.harvest(caller)
        table.row(f"without changes nothing is printed or written, {caller}",
                  ended.status == 0 and not ended.lines and not ended.why
                  and os.stat(path) == before)
    for write in (write_and_hide, change_and_hide, delete_and_show):
        write(room)
        check_callers(table, room, write.__name__.replace("_", " "), seen)


def check_beside_a_writer(table, room):
    """Harvests while another writes: each run is right for its moment, or is refused as `grown`."""
    def write():
        for number in range(200):
            room.note(f"beside-{number}", text=f"note {number}")

    writer = threading.Thread(target=write)
    writer.start()
    runs = []
    while writer.is_alive():
        runs.append(room.harvest("-"))
    writer.join()
    runs.append(room.harvest("-"))
    grown = [ended for ended in runs if ended.status == 3 and "refused: grown" in ended.why]
    printed = [line for ended in runs for line in ended.lines]
    due = sorted(f"new Annotation {BASE}/annotations/tomas/beside-{n}" for n in range(200))
    table.row("beside a writer each note is printed once, and at last all is known",
              all(ended.status == 0 or ended in grown for ended in runs)
              and sorted(printed) == due and room.known("-") == room.exported("-"),
              f"{len(runs)} runs, {len(grown)} refused as grown")


def check_groups(table, room):
    """A reader comes into a group: a harvest from nothing has what it reads then."""
    room.versions["/readers/tomas"] = 1
    room.write("PUT", "/readers/tomas", text=json.dumps({
        "groups": ["editors", "keepers"], "role": "writer", "token": CALLERS["tomas"],
        "user": "https://reading-room.example/people/tomas"}))
    os.remove(room.known_path("tomas"))
    ended = room.harvest("tomas")
    table.row("a reader in another group, from nothing: what is known is the export",
              ended.status == 0 and room.known("tomas") == room.exported("tomas"))


def is_kept(room, caller, run_it):
    """Whether a run leaves the file of what a caller knows as it was, and what the run gave."""
    path = room.known_path(caller)
    with open(path, "rb") as file:
        before = file.read()
    names = set(os.listdir(room.folder))
    ended = run_it()
    with open(path, "rb") as file:
        return file.read() == before and set(os.listdir(room.folder)) == names, ended


def check_refusals(table, room):
    """Runs that fail: what is known stays."""
    kept, ended = is_kept(room, "leila", lambda: room.harvest("leila", "nobody-has-this"))
    table.row("a token of nobody", kept and ended.status == 6 and not ended.lines,
              ended.why.strip())
    room.note("last", text="a note that is printed twice")
    with open("/dev/full", "wb") as full:
        done = subprocess.run(
            [HARVEST, "--at", f"http://127.0.0.1:{room.server.port}", BASE, room.known_path("-")],
            stdout=full, stderr=subprocess.PIPE, timeout=60)
    kept, again = is_kept(room, "leila", lambda: room.harvest("-"))
    table.row("an output that is full keeps nothing, so the next run prints it again",
              kept and done.returncode == 1 and again.status == 0
              and again.lines == [f"new Annotation {BASE}/annotations/tomas/last"],
              done.stderr.decode().strip())
    room.server.kill()
    kept, ended = is_kept(room, "leila", lambda: room.harvest("leila"))
    table.row("a server that has ended", kept and ended.status == 5, ended.why.strip())


def main():
    program, work = sys.argv[1:]
    table = Table()
    with open(LINES, "rb") as file:
        room = Room(program, work, "room", file.read())
    if not room.has_form:
        print("this program has no form `harvest`: it isn't compared with that")
    check_rounds(table, room)
    check_beside_a_writer(table, room)
    check_groups(table, room)
    check_refusals(table, room)
    empty = Room(program, work, "empty", b"")
    ended = empty.harvest("-")
    table.row("a store without a change", ended.status == 0 and not ended.lines and not ended.why
              and empty.known("-") == [])
    empty.server.kill()
    table.end()


main()
