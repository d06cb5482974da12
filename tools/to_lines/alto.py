"""ALTO 2 to 4, whatever its namespace: the pages of a file, with their lines.

Spaces part the words of a line where it has any `SP`; else each `String` is a word. A word with
`SUBS_CONTENT` at the end of a line stands there whole, and its second part is dropped; with `HYP`
alone the two parts are joined. Where a line has no place of its own, it is that around its words.
"""

import re
import xml.etree.ElementTree as ElementTree

from .ocr import Line, Page, number_of
from .reasons import Unreadable

IMAGE_PATH = ("Description", "sourceImageInformation", "fileName")


def tag_of(element):
    """The name of an element without its namespace."""
    return element.tag.rpartition("}")[2] if isinstance(element.tag, str) else ""


def children(element, *tags):
    return [child for child in element if tag_of(child) in tags]


def below(element, *path):
    """The text of the first element at a path, or None."""
    for tag in path:
        found = children(element, tag) if element is not None else []
        element = found[0] if found else None
    return element.text.strip() if element is not None and element.text else None


# ---- places

def numbers_in(element, names):
    """The numbers of four attributes, or None where one is missing."""
    found = [number_of(element.get(name)) for name in names]
    return None if None in found else found


def box_of(element):
    """The left, the top, the width and the height of an element, or None."""
    return numbers_in(element, ("HPOS", "VPOS", "WIDTH", "HEIGHT"))


def around(boxes):
    """The smallest place that has all boxes in it, or None."""
    found = [box for box in boxes if box]
    if not found:
        return None
    left, top = min(box[0] for box in found), min(box[1] for box in found)
    right = max(box[0] + box[2] for box in found)
    bottom = max(box[1] + box[3] for box in found)
    return [left, top, right - left, bottom - top]


# ---- words

class Parted:
    """Whether the second part of a word is still to come that a line before has whole."""

    def __init__(self):
        self.awaited = False

    def word(self, string):
        """The word of a String, or None for a second part that was written before."""
        part, whole = string.get("SUBS_TYPE"), string.get("SUBS_CONTENT")
        if part == "HypPart1" and whole:
            self.awaited = True
            return whole
        was_awaited, self.awaited = self.awaited, False
        return None if part == "HypPart2" and was_awaited else string.get("CONTENT", "")


def words_of(line, parted):
    """The words of a line; those that no SP parts are one."""
    has_spaces = bool(children(line, "SP"))
    words, is_new = [], True
    for element in children(line, "String", "SP"):
        if tag_of(element) == "SP":
            is_new = True
            continue
        word = parted.word(element)
        if word is None:
            continue
        if words and has_spaces and not is_new:
            words[-1] += word
        else:
            words.append(word)
        is_new = False
    return [word for word in words if word.strip()]


def hyphen_of(line, parted):
    """What stands at the end of a line whose last word goes on, or None."""
    found = children(line, "HYP")
    return found[0].get("CONTENT", "-") if found and not parted.awaited else None


# ---- lines and pages

def line_of(element, language, parted):
    words = words_of(element, parted)
    box = box_of(element) or around(box_of(string) for string in children(element, "String"))
    return Line(element.get("ID"), box, words, hyphen_of(element, parted),
                element.get("LANG") or language, None)


def lines_in(element, language, parted):
    """The lines in an element, in the order of the file, each with the nearest language."""
    language = element.get("LANG") or element.get("language") or language
    found = []
    for child in element:
        if tag_of(child) == "TextLine":
            found.append(line_of(child, language, parted))
        else:
            found += lines_in(child, language, parted)
    return found


def page_of(element, image, is_pixel, parted):
    size = number_of(element.get("WIDTH")), number_of(element.get("HEIGHT"))
    lines = lines_in(element, None, parted)
    return Page(image, None if None in size else size, is_pixel, lines)


def pages_of(data):
    """The pages of a file. What is no XML is Unreadable, with where it isn't."""
    try:
        root = ElementTree.fromstring(data)
    except (ElementTree.ParseError, LookupError, ValueError) as error:
        raise Unreadable("no XML", str(error))
    unit = below(root, "Description", "MeasurementUnit") or "pixel"
    parted = Parted()
    return [page_of(page, below(root, *IMAGE_PATH), unit == "pixel", parted)
            for layout in children(root, "Layout") for page in children(layout, "Page")]


def is_alto(head):
    """The beginning of a file, as text, is one of ALTO."""
    return bool(re.search(r"<(?:[A-Za-z_][\w.-]*:)?alto[\s>]", head, re.IGNORECASE))
