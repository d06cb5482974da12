"""Pages of lines of text, as ALTO and hOCR have them, and the annotations that they come to.

A line of text is one annotation: its text, which supplements the canvas, on the line's region
there. The regions are scaled from the size of the page to that of the canvas. A line without text
is passed over.

A word that is parted at the end of a line stands whole in that line, and not in the next one. It is
parted where the file says so, and by a soft hyphen or `¬`; by any other hyphen with --join-hyphens
alone, since that may be a hyphen of the word itself.
"""

import collections
import decimal

from .reasons import Reason
from .regions import text_of, whole_region

SOFT_HYPHEN = "\u00ad"
# Signs that part words at the end of a line, and those that may be a hyphen of the word itself.
PARTING = SOFT_HYPHEN + "\u00ac"
HYPHENS = "-\u2010\u2e17"

# `size` is the width and height of a page, and `is_pixel` says that its numbers are pixels. `box`
# is the left, the top, the width and the height of a line. `hyphen` is what stands at the end of a
# line whose last word goes on, and None of any other.
Page = collections.namedtuple("Page", "image size is_pixel lines")
Line = collections.namedtuple("Line", "id box words hyphen language direction")


def number_of(text):
    """The number that a text says, or None."""
    try:
        number = decimal.Decimal(text.strip())
    except (AttributeError, decimal.InvalidOperation):
        return None
    return number if number.is_finite() and abs(number.adjusted()) < 12 else None


# ---- words that are parted

def begins_lower(line):
    return bool(line.words) and line.words[0][:1].islower()


def with_end(line, following, joins_hyphens):
    """The line, without the sign at its end by which its last word goes on, which is told apart."""
    last = line.words[-1] if line.words else ""
    goes_on = last[-1:] in PARTING or (
        joins_hyphens and last[-1:] in HYPHENS and begins_lower(following))
    if line.hyphen is not None or len(last) < 2 or not goes_on:
        return line
    return line._replace(words=line.words[:-1] + [last[:-1]], hyphen=last[-1])


def joined(lines, joins_hyphens=False):
    """The lines with each parted word whole in the line where it begins."""
    none = Line(None, None, [], None, None, None)
    left = [with_end(line, following, joins_hyphens)
            for line, following in zip(lines, lines[1:] + [none])]
    for at, line in enumerate(left):
        if line.hyphen is None or not line.words:
            continue
        rest = left[at + 1].words if at + 1 < len(left) else []
        end = rest[0] if rest else line.hyphen
        left[at] = line._replace(words=line.words[:-1] + [line.words[-1] + end])
        if rest:
            left[at + 1] = left[at + 1]._replace(words=rest[1:])
    return left


def text_of_line(line):
    """The text of a line, without soft hyphens and with one space between words."""
    return " ".join(" ".join(line.words).replace(SOFT_HYPHEN, "").split())


# ---- regions

def size_of(page, canvas):
    """The size of a page in its own numbers: a page in pixels that says none is as its canvas."""
    if page.size and all(length > 0 for length in page.size):
        return page.size
    return (canvas.width, canvas.height) if page.is_pixel else None


def region_of(line, page, canvas):
    """The line's region on the canvas, or None."""
    size = size_of(page, canvas)
    if line.box is None or size is None:
        return None
    ratios = ((canvas.width, size[0]), (canvas.height, size[1])) * 2
    return whole_region([number * due / own for number, (due, own) in zip(line.box, ratios)])


# ---- annotations

def body_of(line, text):
    body = {"type": "TextualBody", "value": text}
    if line.language:
        body["language"] = line.language
    if line.direction in ("ltr", "rtl", "auto"):
        body["textDirection"] = line.direction
    return body


def annotation_of(line, page, canvas, place):
    """The annotation of a line, or None where it has no text."""
    text = text_of_line(line)
    if not text:
        return None
    region = region_of(line, page, canvas)
    if region is None:
        place.mended("a line without a region put on its whole canvas")
    return {
        "body": body_of(line, text),
        "id": canvas.id + "#" + line.id,
        "motivation": "supplementing",
        "target": canvas.id + ("#" + text_of(region) if region else ""),
        "type": "Annotation",
    }


def numbered(lines):
    """The lines with an id each: their own, or `line-N` where they have none or it came before."""
    found, known = [], set()
    for number, line in enumerate(lines, 1):
        identifier = line.id if line.id and line.id not in known else "line-%d" % number
        known.add(identifier)
        found.append(line._replace(id=identifier))
    return found


# ---- pages and canvases

def stem_of_path(path):
    """The name of a file without its folders and what stands behind its last dot, in lower case."""
    name = path.replace("\\", "/").rstrip("/").rpartition("/")[2].lower()
    return name.rpartition(".")[0] or name


def canvas_by_image(page, file, canvases):
    """The one canvas that has an image of the page's name, or why there is none."""
    name = stem_of_path(page.image or file)
    found = [canvas for canvas in canvases if name in canvas.names]
    if len(found) == 1:
        return found[0], None
    return None, Reason("no canvas or several have an image of its page's name",
                        "%d have %s" % (len(found), name))


def canvas_by_order(number, canvases):
    """The canvas of this number, from 1, or why there is none."""
    if number <= len(canvases):
        return canvases[number - 1], None
    return None, Reason("its manifest has no canvas of its page's number", str(number))
