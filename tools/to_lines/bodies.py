"""What an annotation says: bodies, each an IRI, or an object with a text or an IRI.

The server reads the words of a text, and of HTML where the `format` is exactly `text/html`. So a
text of HTML gets this format, its entities become their signs (but those of `<`, `>`, `&` and `"`),
and soft hyphens go from all texts. An annotation's `creator` and `modified`, which the server
writes itself, move into those of its bodies that are objects and have none.
"""

import html
import re

from .targets import with_plain_keys
from .trees import as_list, is_number, one_or_list

SOFT_HYPHEN = "\u00ad"
ELEMENT = re.compile(
    r"</?(?:a|abbr|b|blockquote|br|cite|code|dd|del|div|dl|dt|em|h[1-6]|hr|i|img|ins|li|mark|ol|p"
    r"|pre|q|s|small|span|strong|sub|sup|table|tbody|td|th|tr|u|ul)(?:\s[^<>]*)?/?>", re.IGNORECASE)
ENTITY = re.compile(r"&(?:#[0-9]+|#[xX][0-9a-fA-F]+|[A-Za-z][A-Za-z0-9]*);")
KEPT_SIGNS = "<>&\""


def is_html_format(value):
    """The format says HTML, in whatever case and with whatever further words."""
    return isinstance(value, str) and value.split(";")[0].strip().lower() == "text/html"


def sign_of(entity):
    """The sign of an entity, but for those that HTML needs."""
    sign = html.unescape(entity.group())
    return entity.group() if sign in KEPT_SIGNS else sign


def mend_html(body, place):
    """The text of HTML with its format, and with signs in place of entities."""
    if body.get("format") != "text/html":
        place.mended("the format of a text of HTML written as text/html")
    signs = ENTITY.sub(sign_of, body["value"])
    if signs != body["value"]:
        place.mended("entities of HTML written as their signs")
    return dict(body, format="text/html", value=signs)


def is_html(body):
    """The body says that it is HTML, or says no format and has an element of HTML in its text."""
    if body.get("format") is None:
        return bool(ELEMENT.search(body["value"]))
    return is_html_format(body["format"])


def without_soft_hyphens(text, place):
    if SOFT_HYPHEN in text:
        place.mended("soft hyphens left out")
    return text.replace(SOFT_HYPHEN, "")


def text_of_value(value, place):
    """A value as a text: that of a number, and the empty one of null."""
    if value is None or isinstance(value, bool) or is_number(value):
        place.mended("the value of a body written as a text")
        return "" if value is None else str(value).lower()
    return value


def mend_text(body, place):
    """The body with its text as the server reads it."""
    value = text_of_value(body["value"], place)
    if not isinstance(value, str):
        return body
    body = dict(body, value=value)
    body = mend_html(body, place) if is_html(body) else body
    return dict(body, value=without_soft_hyphens(body["value"], place))


def textual(text):
    """A body with a text."""
    return {"type": "TextualBody", "value": text}


def mend_body(body, place):
    """The body as the server reads it."""
    if isinstance(body, str) and (" " in body.strip() or "\n" in body.strip()):
        place.mended("a text in place of a body written as a TextualBody")
        return mend_text(textual(body), place)
    if not isinstance(body, dict):
        return body
    body = with_plain_keys(body, place)
    if "chars" in body and "value" not in body:
        place.mended("`chars` of a body written as `value`")
        body = dict({key: value for key, value in body.items() if key != "chars"},
                    value=body["chars"])
    return mend_text(body, place) if "value" in body else body


def all_bodies(note, place):
    """The bodies; a `bodyValue` is the plain text that it stands for (section 3.2.5)."""
    bodies = [body for body in as_list(note.get("body")) if body is not None]
    if note.get("bodyValue") is None:
        return bodies
    place.mended("a `bodyValue` written as a body")
    return bodies + [dict(textual(note["bodyValue"]), format="text/plain")]


def with_life(body, note):
    """The body with who made the annotation and when it was changed, where it doesn't say so."""
    life = {key: note[key] for key in ("creator", "modified") if note.get(key) is not None}
    return dict(life, **body) if isinstance(body, dict) else body


def mend_bodies(note, keeps_life, place):
    """The annotation with mended bodies; with none, it has no member `body`."""
    found = [mend_body(body, place) for body in all_bodies(note, place)]
    if keeps_life:
        found = [with_life(body, note) for body in found]
        if note.get("creator") is not None and not any(isinstance(body, dict) for body in found):
            place.mended("the creator of an annotation left out, since no body can keep it")
    rest = {key: value for key, value in note.items() if key not in ("body", "bodyValue")}
    if not found:
        return rest
    was_array = isinstance(note.get("body"), list)
    return dict(rest, body=found if was_array else one_or_list(found))
