"""What an annotation is about: targets, each an IRI or an object with one, and their selectors.

The server reads the `source` of a target, or its `id`, and beside a `source` its `selector`. So a
target with `items` becomes these items, and an `id` beside a `selector` becomes the `source`. What
says nothing, as a selector of null, goes.
"""

import decimal

from .regions import mend_fragment, mend_iri
from .trees import as_list, is_number, one_or_list, rounded, whole_of

STANDARD = ("oa:", "sc:", "http://www.w3.org/ns/oa#", "http://iiif.io/api/presentation/2#")
OPTIONAL_TEXTS = {"FragmentSelector": ("conformsTo",), "TextQuoteSelector": ("prefix", "suffix")}


def plain_term(text):
    """A term of the standards without its prefix: `commenting` of `oa:commenting`."""
    for prefix in STANDARD:
        if isinstance(text, str) and text.startswith(prefix):
            return text[len(prefix):]
    return text


def types_of(tree):
    """The types that an object says."""
    return as_list(tree.get("type")) if isinstance(tree, dict) else []


def with_plain_keys(tree, place):
    """The object with `id` and `type` where it has `@id` and `@type`, as older tools write."""
    if not any("@" + key in tree for key in ("id", "type")):
        return tree
    place.mended("`@id` and `@type` of a part written as `id` and `type`")
    plain = {key: value for key, value in tree.items() if key not in ("@id", "@type")}
    for key in ("id", "type"):
        if "@" + key in tree:
            plain.setdefault(key, tree["@" + key])
    if "type" in plain:
        plain["type"] = one_or_list([plain_term(name) for name in as_list(plain["type"])])
    return plain


# ---- selectors

def type_by_members(selector):
    """The type of a selector that says none, by the members that one type alone has; or None."""
    value = selector.get("value")
    if isinstance(value, str) and value.lstrip("#").startswith("xywh="):
        return "FragmentSelector"
    if isinstance(value, str) and value.lstrip().startswith("<svg"):
        return "SvgSelector"
    if "exact" in selector:
        return "TextQuoteSelector"
    return "TextPositionSelector" if {"start", "end"} <= set(selector) else None


def with_type(selector, place):
    """The selector with a type, where it can be seen which."""
    if selector.get("type") is not None:
        names = [plain_term(name) for name in types_of(selector)]
        return dict(selector, type=one_or_list(names)) if names else selector
    found = type_by_members(selector)
    if found is None:
        return selector
    place.mended("a selector without a type given its type")
    return dict(selector, type=found)


def without_null_texts(selector, place):
    """The selector without texts that are null and may be absent."""
    optional = [name for kind in types_of(selector) if isinstance(kind, str)
                for name in OPTIONAL_TEXTS.get(kind, ())]
    empty = [name for name in optional if name in selector and selector[name] is None]
    if not empty:
        return selector
    place.mended("a null of a selector left out")
    return {key: value for key, value in selector.items() if key not in empty}


def whole_position(value):
    """A position as a whole number, where a text or a number says one."""
    if isinstance(value, str) and value.isdigit() and value.isascii() and len(value) <= 10:
        return int(value)
    return whole_of(value) if is_number(value) else value


def mend_positions(selector):
    return {key: whole_position(value) if key in ("start", "end") else value
            for key, value in selector.items()}


def mend_point(selector, place):
    """The point of a PointSelector, rounded."""
    fractions = [key for key in ("x", "y") if isinstance(selector.get(key), decimal.Decimal)]
    if fractions:
        place.mended("a point rounded")
    return dict(selector, **{key: rounded(selector[key]) for key in fractions})


def mend_selector(selector, size, place):
    """The selector as the server reads it."""
    if not isinstance(selector, dict):
        return selector
    selector = without_null_texts(with_type(with_plain_keys(selector, place), place), place)
    kinds = types_of(selector)
    if "FragmentSelector" in kinds and isinstance(selector.get("value"), str):
        return dict(selector, value=mend_fragment(selector["value"], size, place))
    if "TextPositionSelector" in kinds:
        return mend_positions(selector)
    return mend_point(selector, place) if "PointSelector" in kinds else selector


def selectors_in(value):
    """The selectors, a choice between some as all of them."""
    found = []
    for selector in as_list(value):
        items = selector.get("items") if isinstance(selector, dict) else None
        found += items if isinstance(items, list) else [selector]
    return [selector for selector in found if selector is not None]


def mend_selectors(target, size, place):
    """The target with its selectors mended; without any, it has no such member."""
    if "selector" not in target:
        return target
    found = [mend_selector(selector, size, place) for selector in selectors_in(target["selector"])]
    rest = {key: value for key, value in target.items() if key != "selector"}
    if not found:
        place.mended("a selector that says nothing left out")
        return rest
    was_array = isinstance(target["selector"], list)
    return dict(rest, selector=found if was_array else one_or_list(found))


# ---- targets

def iri_in(resource):
    """The IRI of a text or of an object with an `id`, or the empty text."""
    iri = resource.get("id") if isinstance(resource, dict) else resource
    return iri if isinstance(iri, str) else ""


def source_of(target):
    """The IRI that a target is about, without its fragment."""
    if isinstance(target, dict) and "source" in target:
        return iri_in(target["source"]).partition("#")[0]
    return iri_in(target).partition("#")[0]


def mend_resource(resource, size, place):
    """A text or an object with an `id`, with the region in its IRI mended."""
    if isinstance(resource, str):
        return mend_iri(resource, size, place)
    if isinstance(resource, dict) and isinstance(resource.get("id"), str):
        return dict(resource, id=mend_iri(resource["id"], size, place))
    return resource


def with_source(target, place):
    """The target with a `source` where a selector stands beside an `id`."""
    if "selector" not in target or "source" in target or not iri_in(target):
        return target
    place.mended("the `id` beside a selector written as the `source`")
    rest = {key: value for key, value in target.items() if key not in ("id", "type")}
    return dict(rest, source=target["id"], type="SpecificResource")


def mend_parts(target, place):
    """The target and its source with plain keys; an array of one source is this source."""
    target = with_source(with_plain_keys(target, place), place)
    source = target.get("source")
    if isinstance(source, list) and len(source) == 1:
        source = source[0]
        target = dict(target, source=source)
    if isinstance(source, dict):
        target = dict(target, source=with_plain_keys(source, place))
    return target


def mend_target(target, canvases, place):
    """The targets that one target comes to: itself, or its items."""
    if not isinstance(target, dict):
        return [mend_resource(target, canvases.size_of(source_of(target)), place)]
    if isinstance(target.get("items"), list) and "source" not in target:
        place.mended("a target with `items` written as these items")
        return mend_targets(target["items"], canvases, place)
    target = mend_parts(target, place)
    size = canvases.size_of(source_of(target))
    target = mend_selectors(target, size, place)
    if "source" in target:
        return [dict(target, source=mend_resource(target["source"], size, place))]
    return [mend_resource(target, size, place)]


def mend_targets(value, canvases, place):
    """All targets of a value, one behind the other."""
    return [mended for target in as_list(value)
            for mended in mend_target(target, canvases, place)]
