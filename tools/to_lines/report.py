"""What is reported on standard error.

What is left out and what is mended is reported at the end, one line for each reason or kind, with
how often it was and where it was first: the file, the place there and the id. With --verbose what
is left out has a line each too, at once. The last line has the counts. A run that takes long says
every few seconds how far it is.
"""

import sys
import time

EVERY_SECONDS = 5


class Report:
    def __init__(self, is_verbose=False, output=None):
        self.is_verbose = is_verbose
        self.output = output or sys.stderr
        self.counts = {"manifests": 0, "annotations": 0, "mended": 0, "left out": 0}
        self.further = {"twice": 0, "lines without text": 0, "on no canvas of their manifest": 0}
        # Of each reason and kind, how often it was and where it was first.
        self.reasons = {}
        self.kinds = {}
        self.file = ""
        self.spoken = time.monotonic()

    def say(self, text):
        print(text, file=self.output, flush=True)

    def left_out(self, place, kind, here):
        self.counts["left out"] += 1
        where = "%s: %s" % (place, here) if here else place
        number, first = self.reasons.get(kind, (0, where))
        self.reasons[kind] = (number + 1, first)
        if self.is_verbose:
            self.say("left out: %s: %s" % (place, ": ".join(filter(None, (kind, here)))))
        self.progress()

    def mended(self, place, kind):
        self.counts["mended"] += 1
        number, first = self.kinds.get(kind, (0, place))
        self.kinds[kind] = (number + 1, first)

    def note(self, place, text):
        self.say("note: %s: %s" % (place, text))

    def count(self, kind):
        counts = self.counts if kind in self.counts else self.further
        counts[kind] += 1
        self.progress()

    def begin(self, file, number, files):
        """The run takes in a file, which has this number among all."""
        self.file = "file %d of %d, %s" % (number, files, file)
        self.progress()

    def progress(self):
        """Says how far the run is, where it said so some time ago."""
        if time.monotonic() - self.spoken < EVERY_SECONDS:
            return
        self.spoken = time.monotonic()
        self.say("%s: %d annotations so far" % (self.file, self.counts["annotations"]))

    def end(self):
        """Reports the reasons, the kinds of mending, and the counts."""
        for kind, (number, first) in self.reasons.items():
            self.say("left out: %s: %d, first at %s" % (kind, number, first))
        for kind, (number, first) in self.kinds.items():
            self.say("mended: %s: %d, first at %s" % (kind, number, first))
        further = {name: number for name, number in self.further.items() if number}
        counts = dict(self.counts, **further)
        self.say(", ".join("%s %d" % pair for pair in counts.items()))


class Place:
    """Where something stands: its file, the place in it, and its id; and what is reported of it.

    What was mended of something is reported once it is written: nobody asks of what is left out.
    """

    def __init__(self, report, file, where="", identifier=None):
        self.report = report
        self.file = file
        self.where = where
        self.identifier = identifier
        self.kinds = []

    def __str__(self):
        text = self.file + (", " + self.where if self.where else "")
        return text + (" (%s)" % self.identifier if self.identifier else "")

    def within(self, where, identifier=None):
        """A place inside this one."""
        inner = self.where + ", " + where if self.where else where
        return Place(self.report, self.file, inner, identifier)

    def mended(self, kind):
        self.kinds.append(kind)

    def written(self):
        """Reports what was mended."""
        for kind in self.kinds:
            self.report.mended(str(self), kind)

    def left_out(self, kind, here=""):
        self.report.left_out(str(self), kind, here)

    def note(self, text):
        self.report.note(str(self), text)
