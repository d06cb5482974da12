"""The lines that are written: `MOMENT BY PUT TARGET JSON`.

A store never goes back in time: a line has the greater of its own moment and that of the line
before. So manifests come first, at the earliest moment of all, and behind them annotations in the
order of their moments, those of one moment as they were read.

A line has the number of its object's write: 1, or by the lines of earlier runs the number that
wrote the same, which is then a repeat, or else the one behind the last.
"""

import re

from .trees import compact

LARGEST_INPUT = 268435456
LARGEST_BODY = 1048576


PUT = re.compile(r"\S+ \S+ PUT (/[^ ?]+)\?version=([0-9]{1,9})&(\S+) (.*)\Z", re.DOTALL)


class Earlier:
    """What the lines of earlier runs wrote last of each object."""

    def __init__(self):
        self.written = {}

    def read(self, path):
        """Takes in a file of lines; what puts no manifest and no annotation is passed over."""
        with open(path, encoding="utf-8", newline="\n") as file:
            for line in file:
                found = PUT.match(line.rstrip("\n"))
                if found:
                    thing, number, query, text = found.groups()
                    self.written[thing] = (int(number), query, text)

    def number_of(self, thing, query, text):
        """The number of the write that leaves a thing so."""
        number, *last = self.written.get(thing, (0, "", ""))
        return number if last == [query, text] else number + 1


class Lines:
    def __init__(self):
        self.earlier = Earlier()
        self.manifests = []
        self.annotations = []

    def target(self, thing, query, text):
        return "%s?version=%d&%s" % (thing, self.earlier.number_of(thing, query, text), query)

    def put_manifest(self, name, group, tree):
        text = compact(tree)
        target = self.target("/manifests/" + name, "group=" + group, text)
        self.manifests.append((target, text))

    def put_annotation(self, moment, owner, name, manifest, group, tree):
        text = compact(tree)
        query = "manifest=%s&group=%s" % (manifest, group)
        target = self.target("/annotations/%s/%s" % (owner, name), query, text)
        self.annotations.append((moment, owner, target, text))

    def all(self, at):
        """The lines in order. A manifest has the moment `at`, or that of an earlier annotation."""
        first = min([at] + [moment for moment, _, _, _ in self.annotations])
        for target, text in self.manifests:
            yield "%s - PUT %s %s\n" % (first, target, text)
        for line in sorted(self.annotations, key=lambda line: line[0]):
            yield "%s %s PUT %s %s\n" % line

    def write(self, at, output):
        """Writes all lines to a stream of bytes, and gives how many bytes they have."""
        size = 0
        for line in self.all(at):
            data = line.encode("utf-8")
            size += len(data)
            output.write(data)
        output.flush()
        return size
