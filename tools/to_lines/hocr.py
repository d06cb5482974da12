"""hOCR, with or without a doctype, as HTML or XHTML: the pages of a file, with their lines.

A line is an element of the class `ocr_line`, or of one of its kin, with its place in `bbox`. Its
words are those of `ocrx_word` in it, or without any its whole text.
"""

import html.parser
import re

from .ocr import Line, Page, number_of

LINES = {"ocr_line", "ocrx_line", "ocr_header", "ocr_footer", "ocr_caption", "ocr_textfloat"}
VOID = {"area", "base", "br", "col", "embed", "hr", "img", "input", "link", "meta", "param",
        "source", "track", "wbr"}


def properties(title):
    """The properties of a title, as `bbox 0 0 10 20; x_wconf 90`, each name with its words."""
    parts = (re.findall(r'"[^"]*"|\'[^\']*\'|\S+', part) for part in (title or "").split(";"))
    return {part[0]: [word.strip("\"'") for word in part[1:]] for part in parts if part}


def box_of(found):
    """The left, the top, the width and the height of a `bbox`, or None."""
    corners = [number_of(text) for text in found.get("bbox", [])]
    if len(corners) != 4 or None in corners:
        return None
    left, top, right, bottom = corners
    return [left, top, right - left, bottom - top]


class Element:
    """An open element: its tag, and what it is to a page."""

    def __init__(self, tag, kind, language, direction):
        self.tag = tag
        self.kind = kind
        self.language = language
        self.direction = direction


def kind_of(classes):
    """What the classes of an element make it: a page, a line, a word, or nothing."""
    if "ocr_page" in classes:
        return "page"
    if LINES & classes:
        return "line"
    return "word" if "ocrx_word" in classes else None


class Reader(html.parser.HTMLParser):
    """Reads the pages of a file into `pages`, each with its image, its size and its lines."""

    def __init__(self):
        super().__init__(convert_charrefs=True)
        self.open = []
        self.pages = []
        self.line = None

    def handle_starttag(self, tag, attributes):
        if tag in VOID:
            self.text(" ")
            return
        found = dict(attributes)
        outer = self.open[-1] if self.open else Element("", None, None, None)
        kind = kind_of(set((found.get("class") or "").split()))
        language = found.get("lang") or found.get("xml:lang") or outer.language
        element = Element(tag, kind, language, found.get("dir") or outer.direction)
        self.open.append(element)
        self.begin(element, found)

    def handle_startendtag(self, tag, attributes):
        self.handle_starttag(tag, attributes)
        self.handle_endtag(tag)

    def begin(self, element, found):
        if element.kind == "page":
            self.pages.append((properties(found.get("title")), []))
        if element.kind == "line" and self.pages:
            place = box_of(properties(found.get("title")))
            self.line = {"id": found.get("id"), "box": place, "words": [], "text": "",
                         "element": element}
        if element.kind == "word" and self.line is not None:
            self.line["words"].append("")

    def handle_endtag(self, tag):
        if not any(element.tag == tag for element in self.open):
            return
        while self.open:
            element = self.open.pop()
            self.end_line(element)
            if element.tag == tag:
                return

    def end_line(self, element):
        """Takes in the line that ends with its element."""
        if self.line is None or self.line["element"] is not element:
            return
        line, self.line = self.line, None
        self.pages[-1][1].append(line)

    def handle_data(self, data):
        self.text(data)

    def is_in_word(self):
        """The innermost line or word that is open is a word."""
        kinds = [element.kind for element in self.open if element.kind in ("line", "word")]
        return kinds[-1:] == ["word"]

    def text(self, data):
        if self.line is None:
            return
        if self.is_in_word():
            self.line["words"][-1] += data
        self.line["text"] += data


def line_of(line):
    """A line as pages have them."""
    words = [" ".join(word.split()) for word in line["words"]] or line["text"].split()
    words = [word for word in words if word]
    element = line["element"]
    return Line(line["id"], line["box"], words, None, element.language, element.direction)


def page_of(found, lines):
    box = box_of(found)
    image = " ".join(found.get("image", [])) or None
    size = (box[2], box[3]) if box else None
    return Page(image, size, True, [line_of(line) for line in lines])


def pages_of(text):
    """The pages of a file. Elements that nothing closes end with the file."""
    reader = Reader()
    reader.feed(text)
    reader.close()
    while reader.open:
        reader.end_line(reader.open.pop())
    return [page_of(found, lines) for found, lines in reader.pages]


def is_hocr(text):
    return "ocr_page" in text or "ocr-system" in text
