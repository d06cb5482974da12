"""What the server refuses of a tree, by its own codes.

What is mended is asked once more here, so that whatever is written is accepted.
"""

from .reasons import Reason
from .targets import iri_in, types_of
from .trees import DEEPEST, as_list, depth

GREATEST = 2 ** 32


def members_in(name, tree):
    """The items of a member, or its one value, null too; nothing where it is missing."""
    if name not in tree:
        return []
    return tree[name] if isinstance(tree[name], list) else [tree[name]]


def is_size(value):
    return isinstance(value, int) and not isinstance(value, bool) and 0 < value < GREATEST


def is_position(value):
    return isinstance(value, int) and not isinstance(value, bool) and 0 <= value < GREATEST


def are_texts(tree, required, optional):
    """The first are texts, and so are the others where they are there."""
    return (all(isinstance(tree.get(name), str) for name in required)
            and all(isinstance(tree[name], str) for name in optional if name in tree))


# ---- annotations

def is_target(target):
    if isinstance(target, dict) and "source" in target:
        return bool(iri_in(target["source"]))
    return bool(iri_in(target))


def is_selector(selector):
    if isinstance(selector, str):
        return True
    if not isinstance(selector, dict) or not isinstance(selector.get("type"), (str, list)):
        return False
    kinds = types_of(selector)
    if "FragmentSelector" in kinds:
        return are_texts(selector, ["value"], ["conformsTo"])
    if "TextQuoteSelector" in kinds:
        return are_texts(selector, ["exact"], ["prefix", "suffix"])
    if "TextPositionSelector" in kinds:
        ends = selector.get("start"), selector.get("end")
        return all(map(is_position, ends)) and ends[0] <= ends[1]
    return True


def has_selectors(target):
    if not isinstance(target, dict) or "source" not in target:
        return True
    return all(is_selector(selector) for selector in members_in("selector", target))


def is_source_of_body(source):
    if isinstance(source, dict) and isinstance(source.get("value"), str):
        return True
    return bool(iri_in(source))


def is_body(body):
    if not isinstance(body, dict):
        return bool(iri_in(body))
    if "value" in body:
        return isinstance(body["value"], str)
    if "source" in body:
        return is_source_of_body(body["source"])
    return bool(iri_in(body)) if "id" in body else isinstance(body.get("items"), list)


def is_motivation(text):
    return isinstance(text, str) and text != "" and not any(sign.isspace() for sign in text)


def first_bad(test, items):
    """The number, from 1, of the first item that fails the test, or None."""
    return next((number for number, item in enumerate(items, 1) if not test(item)), None)


def why_no_annotation(note):
    """Why the server refuses the annotation, or None."""
    targets = members_in("target", note)
    if "Annotation" not in as_list(note.get("type")):
        return Reason("note_type: its type isn't Annotation")
    if not targets:
        return Reason("note_target: it has no target")
    for kind, test, items, item in (
            ("note_target: a target without an IRI", is_target, targets, "target"),
            ("note_selector: a malformed selector", has_selectors, targets, "target"),
            ("note_body: a body without a text or an IRI", is_body, members_in("body", note),
             "body"),
            ("note_motivation: a motivation that is empty, has a blank or is no text",
             is_motivation, members_in("motivation", note), "motivation")):
        number = first_bad(test, items)
        if number is not None:
            return Reason(kind, "%s %d" % (item, number))
    return why_no_tree(note)


# ---- manifests

def is_language_map(label):
    return (isinstance(label, dict) and bool(label)
            and all(isinstance(texts, list) and all(isinstance(text, str) for text in texts)
                    for texts in label.values()))


def is_canvas(canvas):
    return (isinstance(canvas, dict) and "Canvas" in types_of(canvas)
            and isinstance(canvas.get("id"), str) and canvas["id"] != ""
            and is_size(canvas.get("height")) and is_size(canvas.get("width")))


def why_no_manifest(tree):
    """Why the server refuses the manifest, or None."""
    if "Manifest" not in types_of(tree):
        return Reason("manifest_type: its type isn't Manifest")
    if not is_language_map(tree.get("label")):
        return Reason("manifest_label: its label is no language map")
    if not isinstance(tree.get("items"), list) or not tree["items"]:
        return Reason("manifest_items: it has no canvases")
    number = first_bad(is_canvas, tree["items"])
    if number is not None:
        return Reason("manifest_canvas: a canvas without the type Canvas, an id, or a height and a "
                      "width from 1 to 4,294,967,295", "canvas %d" % number)
    return why_no_tree(tree)


def why_no_tree(tree):
    """A tree is refused where it is too deep."""
    deepest = depth(tree)
    if deepest > DEEPEST:
        return Reason("deep: more than 100 arrays and objects inside each other", str(deepest))
    return None
