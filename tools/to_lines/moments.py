"""Moments: `2024-05-01T10:00:00Z`, in UTC and in whole seconds.

A date may have a zone, parts of a second or no time. What has no zone is taken as UTC, parts of a
second are cut off, and a day alone is its first second.
"""

import datetime
import re

FORM = re.compile(
    r"(\d{4})-(\d\d)-(\d\d)"
    r"(?:[Tt ](\d\d):(\d\d)(?::(\d\d)(?:[.,]\d+)?)?\s*(Z|z|[+-]\d\d:?\d\d)?)?\Z"
)
EXACT = re.compile(r"\d{4}-\d\d-\d\dT\d\d:\d\d:\d\dZ\Z")


def text_of(date):
    """The text of a date and time in UTC."""
    return "%04d-%02d-%02dT%02d:%02d:%02dZ" % date.timetuple()[:6]


def offset_of(zone):
    """How far a zone, as `+02:00`, is ahead of UTC."""
    if zone in (None, "Z", "z"):
        return datetime.timedelta()
    hours, minutes = int(zone[1:3]), int(zone[-2:])
    ahead = datetime.timedelta(hours=hours, minutes=minutes)
    return -ahead if zone[0] == "-" else ahead


def moment_of(text):
    """The moment that a text says, or None."""
    found = FORM.match(text.strip())
    if not found:
        return None
    numbers = [int(part or 0) for part in found.groups()[:6]]
    try:
        return text_of(datetime.datetime(*numbers) - offset_of(found.group(7)))
    except (ValueError, OverflowError):
        return None


def is_moment(text):
    """The text is a moment in exactly the server's form."""
    return bool(EXACT.match(text)) and moment_of(text) == text


def now():
    """The present second."""
    return text_of(datetime.datetime.now(datetime.timezone.utc))
