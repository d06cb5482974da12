"""Names: 1 to 64 signs of `a-z`, `0-9`, `-` and `_`, other than `-` alone.

An id that is such a name is its own name. Any other id gets the last signs of it, in lower case and
with `-` for each run of other signs, and behind them `-` and the first 16 hexadecimal digits of the
SHA-256 of the whole id: so ids that differ in a sign alone have two names, and an id has the same
name in every run. A name that ends as these do is never an id's own. What is an IRI of the server
itself, as `--base` says it, has the name that stands in it.
"""

import hashlib
import re

NAME = re.compile(r"[a-z0-9_-]{1,64}\Z")
DIGITS = 16
MADE = re.compile(r"(?:^|-)[0-9a-f]{%d}\Z" % DIGITS)
SCHEME = re.compile(r"[a-z][a-z0-9+.-]*:/*")
READABLE = 64 - 1 - DIGITS


def is_name(text):
    """The server takes the text as a name."""
    return bool(NAME.match(text)) and text != "-"


def is_groups(text):
    """The server shows an annotation to these groups: one to eight names with commas between them,
    where repeats count once, and `public` and `private` stand alone."""
    groups = set(text.split(","))
    alone = len(groups) == 1 or not groups & {"public", "private"}
    return len(groups) <= 8 and alone and all(map(is_name, groups))


def in_order(groups):
    """Groups as an export writes them: each once, ascending."""
    return ",".join(sorted(set(groups.split(","))))


def readable_part(identifier):
    """The last signs of an id as signs of a name, without the scheme of an IRI."""
    lower = identifier.lower()
    scheme = SCHEME.match(lower)
    rest = lower[scheme.end():] if scheme else lower
    return re.sub(r"[^a-z0-9_]+", "-", rest).strip("-")[-READABLE:].lstrip("-")


def digest(identifier):
    """The digits that tell an id from all others."""
    return hashlib.sha256(identifier.encode("utf-8", "surrogatepass")).hexdigest()[:DIGITS]


def name_of(identifier):
    """The name of an id, by the rule above."""
    if is_name(identifier) and not MADE.search(identifier):
        return identifier
    readable = readable_part(identifier)
    return readable + "-" + digest(identifier) if readable else digest(identifier)


def name_under(prefix, identifier):
    """The name that stands behind a prefix of the server's own IRIs, or None."""
    if not identifier.startswith(prefix):
        return None
    rest = identifier[len(prefix):]
    return rest if is_name(rest) else None


class Names:
    """The names that were given so far, each with its one id and the sum of what is under it."""

    def __init__(self):
        self.ids = {}
        self.sums = {}

    def other_with(self, name, identifier):
        """Another id that has the name already, or None. Else the name is the id's from now on."""
        first = self.ids.setdefault(name, identifier)
        return None if first == identifier else first

    def is_new(self, name, text):
        """Nothing was under the name; the text is from now on."""
        if name in self.sums:
            return False
        self.sums[name] = digest(text)
        return True

    def has(self, name, text):
        """This text is under the name."""
        return self.sums.get(name) == digest(text)
