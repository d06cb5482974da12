"""Writers whose writes are decided by a seed, and what the cells of a store are due to have of
them."""
import copy
import json
from dataclasses import dataclass
from datetime import datetime, timezone

from served import MANIFEST, note_text

WORDS = "heron swan gull tern crane stork ibis egret".split()
# How many annotations a writer has at most.
MOST = 60


@dataclass(frozen=True)
class Write:
    method: str
    target: str
    text: str | None
    # What it leaves: of each object its version, and whether it is live, its group and its text.
    rows: tuple

    def line(self, name, moment="2024-05-01T10:00:00Z"):
        ending = "" if self.text is None else " " + self.text
        return f"{moment} {name} {self.method} {self.target}{ending}\n"


class Writer:
    """A curator with a manifest of its own, which it deletes at times, and annotations on it. An
    object is the manifest, which is None here, or the number of an annotation."""

    def __init__(self, name, random):
        self.name, self.random = name, random
        self.rows = {}
        self.done = []
        self.pending = None
        self.turns = 0

    def version(self, key):
        return self.rows.get(key, (0,))[0]

    def live(self):
        return [key for key, row in self.rows.items() if key is not None and row[1]]

    def next(self):
        """The next write."""
        self.turns += 1
        manifest = self.rows.get(None)
        if manifest is None or not manifest[1]:
            return self.put_manifest()
        turn, live = self.random.random(), self.live()
        if turn < 0.02:
            return self.delete_manifest(live)
        if turn < 0.15 and live:
            return self.delete(self.random.choice(live))
        if turn < 0.5 and live:
            return self.put(self.random.choice(live))
        return self.put(self.random.randrange(MOST))

    def put_manifest(self):
        version = self.version(None) + 1
        target = f"/manifests/{self.name}?version={version}"
        return Write("PUT", target, MANIFEST, ((None, (version, True, "public", None)),))

    def delete_manifest(self, live):
        version = self.version(None) + 1
        gone = [(key, (self.version(key) + 1, False)) for key in live]
        return Write("DELETE", f"/manifests/{self.name}?version={version}", None,
                     (*gone, (None, (version, False))))

    def put(self, key):
        version = self.version(key) + 1
        group = self.random.choice(["public", "private"])
        text = " ".join(self.random.choice(WORDS) for _ in range(8)) + f" {self.turns}"
        target = f"/annotations/{self.name}/n{key}"
        target += f"?version={version}&manifest={self.name}&group={group}"
        return Write("PUT", target, note_text(text), ((key, (version, True, group, text)),))

    def delete(self, key):
        version = self.version(key) + 1
        return Write("DELETE", f"/annotations/{self.name}/n{key}?version={version}", None,
                     ((key, (version, False)),))

    def apply(self, write):
        self.rows.update(dict(write.rows))
        self.done.append(write)

    def acknowledge(self):
        self.apply(self.pending)
        self.pending = None

    def ahead(self):
        """The writer behind the write that has no reply yet."""
        other = copy.deepcopy(self)
        other.apply(self.pending)
        return other


def key_of(row):
    """Whose the object of a row or an activity is, and which of its objects."""
    if "owner" in row:
        return row["owner"], int(row["name"][1:])
    return row["name"], None


def found_rows(cells):
    """What the cells have of each writer."""
    found = {}
    for tab, _, val in cells:
        if tab in (2, 3):
            row = json.loads(val)
            owner, key = key_of(row)
            told = (row["version"], row["live"])
            if row["live"]:
                group = row["groups"][0] if tab == 3 else row["group"]
                told = (*told, group, row["tree"].get("bodyValue"))
            found.setdefault(owner, {})[key] = told
    return found


def replay_lines(cells, writers):
    """The lines of all that the writers did, in the order and at the moments of the activities."""
    left = {writer.name: list(reversed(writer.done)) for writer in writers}
    open_keys = {writer.name: set() for writer in writers}
    lines = []
    for tab, _, val in cells:
        if tab != 4:
            continue
        activity = json.loads(val)
        owner, key = key_of(activity)
        if not open_keys[owner]:
            assert left[owner], f"an activity of {owner} without a write: {val!r}"
            write = left[owner].pop()
            open_keys[owner] = {of for of, _ in write.rows}
            moment = datetime.fromtimestamp(activity["at"], timezone.utc)
            lines.append(write.line(owner, moment.strftime("%Y-%m-%dT%H:%M:%SZ")))
        assert key in open_keys[owner], f"an activity that is not due: {val!r}"
        open_keys[owner].remove(key)
    if any(left.values()) or any(open_keys.values()):
        raise AssertionError("there are writes without an activity")
    return "".join(lines)
