"""A manifest of IIIF Presentation 3, mended for the server, and its canvases.

A label that is a text or an older language map becomes a language map, and one that is missing is
the manifest's id. Heights and widths become whole numbers. The annotations that stand in the
manifest itself, in pages of a canvas's `annotations`, are taken out, since each gets a line of its
own; pages that it only names stay.
"""

import collections
import re
import urllib.parse

from .trees import as_list, mend_tree

VERSION_2 = ("it is of IIIF Presentation 2: upgrade it first, "
             "as by prezi-2-to-3 or by convertPresentation2 of @iiif/parser")

Canvas = collections.namedtuple("Canvas", "id width height names")


def is_version_2(tree):
    """A manifest or collection of IIIF Presentation 2."""
    return "sequences" in tree or "@type" in tree


def is_list_of_version_2(tree):
    """A list of annotations of IIIF Presentation 2."""
    return "resources" in tree


# ---- the tree

def texts_in(value):
    """The texts of a part of a label: of a text, of an array, or of `@value`."""
    if isinstance(value, dict):
        value = value.get("@value")
    return [str(text) for text in as_list(value)]


def language_map(label):
    """The language map that a label is or comes to; an empty one where it says nothing."""
    if isinstance(label, dict) and "@value" not in label:
        return {language: texts_in(texts) for language, texts in label.items()}
    found = {}
    for part in as_list(label):
        language = part.get("@language", "none") if isinstance(part, dict) else "none"
        found.setdefault(language, []).extend(texts_in(part))
    return found


def mend_label(tree, place):
    """The manifest with a language map as its label."""
    label = language_map(tree.get("label")) or {"none": [str(tree.get("id", "untitled"))]}
    if label != tree.get("label"):
        place.mended("a label written as a language map")
    return dict(tree, label=label)


def whole_text(value):
    """A size that is written as a text, as a number."""
    return int(value) if isinstance(value, str) and re.match(r"[0-9]{1,10}\Z", value) else value


def mend_canvas(canvas):
    """The canvas with its sizes as numbers."""
    if not isinstance(canvas, dict):
        return canvas
    sizes = {name: whole_text(canvas[name]) for name in ("height", "width") if name in canvas}
    return dict(canvas, **sizes)


def mend_manifest(tree, place):
    """What is put of a manifest: the server writes `@context` and `id` itself."""
    kept = {key: value for key, value in tree.items() if key not in ("@context", "id")}
    if isinstance(tree.get("items"), list):
        kept["items"] = [mend_canvas(canvas) for canvas in tree["items"]]
    return mend_tree(dict(kept, label=mend_label(tree, place)["label"]), place)


# ---- annotations in it

def is_embedded(page):
    return isinstance(page, dict) and isinstance(page.get("items"), list)


def embedded_pages(tree):
    """The pages of annotations in the manifest, each with the number of its canvas from 1."""
    return [(number, page) for number, canvas in enumerate(as_list(tree.get("items")), 1)
            if isinstance(canvas, dict)
            for page in as_list(canvas.get("annotations")) if is_embedded(page)]


def without_embedded(canvas):
    """The canvas with those of its pages alone that are named and not embedded."""
    if not isinstance(canvas, dict) or "annotations" not in canvas:
        return canvas
    named = [page for page in as_list(canvas["annotations"]) if not is_embedded(page)]
    rest = {key: value for key, value in canvas.items() if key != "annotations"}
    return dict(rest, annotations=named) if named else rest


def without_pages(tree):
    """The manifest without the annotations in it."""
    return dict(tree, items=[without_embedded(canvas) for canvas in as_list(tree.get("items"))])


# ---- canvases

def iris_under(tree):
    """All ids in a tree."""
    if isinstance(tree, list):
        return [iri for item in tree for iri in iris_under(item)]
    if not isinstance(tree, dict):
        return []
    own = [tree[key] for key in ("id", "@id") if isinstance(tree.get(key), str)]
    return own + [iri for value in tree.values() for iri in iris_under(value)]


def painted_on(canvas):
    """What is painted on a canvas: the bodies of the annotations in its own pages."""
    return [note.get("body") for page in as_list(canvas.get("items")) if is_embedded(page)
            for note in page["items"] if isinstance(note, dict)]


def stem(segment):
    """A name of a file without what stands behind its last dot, in lower case."""
    return segment.rpartition(".")[0].lower() or segment.lower()


def image_names(canvas):
    """What an image of the canvas may be called: the segments of its id and of its images' ids."""
    segments = [segment for iri in [canvas["id"]] + iris_under(painted_on(canvas))
                for segment in re.split(r"[/\\?#]", urllib.parse.unquote(iri))]
    return {name for segment in segments if segment for name in (segment.lower(), stem(segment))}


def canvas_of(canvas):
    return Canvas(canvas["id"], canvas["width"], canvas["height"], image_names(canvas))


class Canvases:
    """The canvases of the manifests that were read, each with its manifest's name."""

    def __init__(self):
        self.by_id = {}
        self.of_manifest = {}

    def add(self, name, tree):
        """Takes in the canvases of a mended manifest."""
        found = [canvas_of(canvas) for canvas in tree["items"]]
        self.of_manifest[name] = found
        for canvas in found:
            self.by_id.setdefault(canvas.id, (canvas, name))

    def size_of(self, identifier):
        """The width and height of a canvas, or None."""
        found = self.by_id.get(identifier)
        return (found[0].width, found[0].height) if found else None

    def manifest_of(self, identifier):
        """The name of the manifest that a canvas is in, or None."""
        found = self.by_id.get(identifier)
        return found[1] if found else None
