"""Why something is left out."""

import collections


class Reason(collections.namedtuple("Reason", "kind here")):
    """The kind of a reason, by which it is counted, and what is so here, which may be empty."""

    def __new__(cls, kind, here=""):
        return super().__new__(cls, kind, here)


class Unreadable(ValueError):
    """A file that is none of its kind, for a reason."""

    def __init__(self, kind, here=""):
        super().__init__(kind, here)
        self.reason = Reason(kind, here)
