"""Regions: `xywh=x,y,w,h` in whole pixels, as the server reads them.

The form is that of Media Fragments URI 1.0, section 4.2.2. A fraction is rounded. What lies left of
the canvas or above it is cut off, and a width or height is 1 at least. Percents become pixels where
the size of the canvas is known. A fragment that says anything else stays as it is; to the server it
is no region.
"""

import decimal
import re

from .trees import rounded

NUMBER = r"\s*([+-]?\d{1,12}(?:\.\d{0,40})?|[+-]?\.\d{1,40})\s*"
FORM = re.compile(r"#?\s*xywh=(pixel:|percent:)?" + ",".join([NUMBER] * 4) + r"\Z")
GREATEST = 4294967295


def pixels(numbers, size):
    """Four percents as pixels of a canvas of this width and height."""
    width, height = size
    return [number * length / 100 for number, length in zip(numbers, (width, height) * 2)]


def clipped(start, length):
    """A start at 0 at least, and a length at 1 at least, with the same end where that can be."""
    return (start, max(length, 1)) if start >= 0 else (0, max(start + length, 1))


def whole_region(numbers):
    """The region of four numbers, or None where one is too great."""
    x, y, w, h = [rounded(number) for number in numbers]
    x, w = clipped(x, w)
    y, h = clipped(y, h)
    return (x, y, w, h) if max(x, y, w, h) <= GREATEST else None


def text_of(region):
    return "xywh=%d,%d,%d,%d" % region


def mend_fragment(fragment, size, place):
    """The fragment with the region that it says in whole pixels; `size` is that of its canvas."""
    found = FORM.match(fragment.replace("%2C", ",").replace("%3A", ":"))
    if not found:
        if "xywh=" in fragment:
            place.mended("a fragment kept that the server reads no region in")
        return fragment
    numbers = [decimal.Decimal(part) for part in found.groups()[1:]]
    if found.group(1) == "percent:":
        if size is None:
            place.mended("a region in percents kept, of a canvas of unknown size")
            return fragment
        numbers = pixels(numbers, size)
    region = whole_region(numbers)
    if region is None:
        return fragment
    due = text_of(region)
    if fragment in (due, due.replace("=", "=pixel:")):
        return fragment
    place.mended("a region written in whole pixels")
    return due


def mend_iri(iri, size, place):
    """The IRI with the region behind its first `#` in whole pixels."""
    source, sign, fragment = iri.partition("#")
    return source + sign + mend_fragment(fragment, size, place) if sign else iri
