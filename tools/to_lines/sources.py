"""Files: which kind of file bytes are, and what is read of them.

A file may begin with a byte order mark. JSON and HTML are UTF-8, but where the mark or, in HTML, a
`charset` says otherwise; XML says itself what it is.
"""

import codecs
import decimal
import json
import os
import re

from . import alto, hocr
from .reasons import Unreadable

MARKS = ((codecs.BOM_UTF8, "utf-8"), (codecs.BOM_UTF16_LE, "utf-16-le"),
         (codecs.BOM_UTF16_BE, "utf-16-be"))
JSON_SUFFIXES = (".json", ".jsonld")
SUFFIXES = JSON_SUFFIXES + (".xml", ".alto", ".html", ".htm", ".xhtml", ".hocr")
CHARSET = re.compile(rb"""charset\s*=\s*["']?([A-Za-z0-9_-]+)""")
HEAD = 4096


def marked(data):
    """The encoding that a byte order mark says, or None, and the bytes behind the mark."""
    for mark, encoding in MARKS:
        if data.startswith(mark):
            return encoding, data[len(mark):]
    return None, data


def decoded(data, otherwise="utf-8"):
    """The text of bytes. What is none is Unreadable, with where it isn't."""
    encoding, rest = marked(data)
    try:
        return rest.decode(encoding or otherwise)
    except LookupError:
        raise Unreadable("its charset isn't known", otherwise)
    except UnicodeDecodeError as error:
        raise Unreadable("no %s" % (encoding or otherwise), "at byte %d" % error.start)


def html_text(data):
    """The text of a file of HTML, by its mark, its charset, or as UTF-8."""
    found = CHARSET.search(data[:HEAD])
    return decoded(data, found.group(1).decode("ascii") if found else "utf-8")


def refuse_constant(text):
    raise Unreadable("no JSON", "%s is no number" % text)


def json_tree(data):
    """The JSON value of a file, its numbers exact. What is none is Unreadable, with where."""
    try:
        return json.loads(decoded(data), parse_float=decimal.Decimal,
                          parse_constant=refuse_constant)
    except json.JSONDecodeError as error:
        where = "line %d, column %d: %s" % (error.lineno, error.colno, error.msg)
        raise Unreadable("no JSON", where)


def kind_of(data):
    """`json`, `alto` or `hocr`. What is none of them is Unreadable."""
    encoding, rest = marked(data)
    head = rest[:HEAD].decode(encoding or "utf-8", "replace").lstrip()
    if head[:1] in ("{", "["):
        return "json"
    if alto.is_alto(head):
        return "alto"
    if head[:1] == "<" and hocr.is_hocr(rest.decode(encoding or "utf-8", "replace")):
        return "hocr"
    if "<PcGts" in head:
        raise Unreadable("PAGE XML, which isn't read: export it as ALTO")
    raise Unreadable("neither JSON, nor ALTO, nor hOCR")


def in_natural_order(name):
    """A key by which `p2` stands before `p10`."""
    return [int(part) if part.isdigit() else part for part in re.split(r"([0-9]+)", name)]


def files_of(path):
    """The files that a path stands for: itself, or those of a folder, in natural order."""
    if not os.path.isdir(path):
        return [path]
    names = [name for name in os.listdir(path) if name.lower().endswith(SUFFIXES)]
    return [os.path.join(path, name) for name in sorted(names, key=in_natural_order)]
