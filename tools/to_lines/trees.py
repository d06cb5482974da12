"""JSON trees as the server takes them: whole numbers of 64 bits, texts of Unicode alone, and at
most 100 arrays and objects inside each other.

A number such as `1200.0` is the whole number that it is. The `height` or `width` of something is
rounded, to 1 at least. Every other number that isn't whole, as a `duration`, becomes a text with
its digits. Half of a code point, which some programs leave behind, becomes U+FFFD.
"""

import decimal
import json

DEEPEST = 100
SIZES = ("height", "width")


def rounded(number):
    """The nearest whole number, and of two the greater one."""
    return int((number + decimal.Decimal("0.5")).to_integral_value(decimal.ROUND_FLOOR))


def is_short(number):
    """The number has few enough digits to be written out."""
    return number.is_finite() and abs(number.adjusted()) < 40


def whole_of(number):
    """The whole number of 64 bits that a number is, or None."""
    if isinstance(number, decimal.Decimal):
        if not is_short(number) or number != number.to_integral_value():
            return None
        number = int(number)
    return number if -(2 ** 63) <= number < 2 ** 64 else None


def is_number(tree):
    return isinstance(tree, (int, decimal.Decimal)) and not isinstance(tree, bool)


def size_of(number):
    """A height or width: rounded, and at least 1; or None where it is too great."""
    if isinstance(number, decimal.Decimal) and is_short(number):
        return whole_of(max(rounded(number), 1))
    return None


def mend_number(name, number, place):
    """The number as the server takes it, or a text with its digits."""
    found = whole_of(number)
    if found is not None:
        return found
    size = size_of(number) if name in SIZES else None
    if size is not None:
        place.mended("a fraction of `%s` rounded" % name)
        return size
    place.mended("a number that isn't whole kept as a text, `%s`" % name)
    return str(number)


def mend_text(text, place):
    """The text without halves of code points."""
    try:
        text.encode("utf-8")
        return text
    except UnicodeEncodeError:
        place.mended("half of a code point replaced")
        return text.encode("utf-16", "surrogatepass").decode("utf-16", "replace")


def mend_tree(tree, place, name=""):
    """The tree with numbers and texts that the server takes; `name` is the member that holds it."""
    if isinstance(tree, dict):
        return {mend_text(key, place): mend_tree(value, place, key) for key, value in tree.items()}
    if isinstance(tree, list):
        return [mend_tree(item, place, name) for item in tree]
    if isinstance(tree, str):
        return mend_text(tree, place)
    return mend_number(name, tree, place) if is_number(tree) else tree


def depth(tree):
    """How many arrays and objects stand inside each other."""
    deepest, level = 0, [tree]
    while True:
        level = [node for node in level if isinstance(node, (dict, list))]
        if not level:
            return deepest
        deepest += 1
        level = [inner for node in level
                 for inner in (node.values() if isinstance(node, dict) else node)]


def as_list(value):
    """The items of an array, or the value alone; nothing for what is missing or null."""
    if value is None:
        return []
    return value if isinstance(value, list) else [value]


def one_or_list(items):
    """The one item, or the array of several."""
    return items[0] if len(items) == 1 else items


def compact(tree):
    """The one text of a tree: without white space, and with the members in order."""
    return json.dumps(tree, ensure_ascii=False, sort_keys=True, separators=(",", ":"))
