"""An annotation (Web Annotation Data Model), mended for the server.

The server writes `@context`, `id`, `creator`, `created` and `modified` itself. So `created` becomes
the moment of the line, the id is kept in `via`, which is the standard's member for where an
annotation was taken from, and `creator` and `modified` in its bodies. Of an annotation of the
server's own, as `--base` says it, nothing of this is kept.
"""

from .bodies import mend_bodies
from .moments import moment_of
from .targets import mend_targets, plain_term
from .trees import as_list, mend_tree, one_or_list

SERVED = ("@context", "id", "creator", "created", "modified")
VERSION_2 = ("it is of IIIF Presentation 2 (Open Annotation): upgrade it first, "
             "as by prezi-2-to-3 or by convertPresentation2 of @iiif/parser")


def is_version_2(note):
    """An annotation of Open Annotation, as IIIF Presentation 2 has them."""
    types = as_list(note.get("@type"))
    return "oa:Annotation" in types or ("on" in note and "target" not in note)


def mend_type(note, place):
    """The annotation with its type, where it has a target and says none."""
    types = [plain_term(name) for name in as_list(note.get("type"))]
    if not types and "target" in note:
        place.mended("the type of an annotation added")
        types = ["Annotation"]
    return dict(note, type=one_or_list(types)) if types else note


def mend_motivations(note, place):
    """The annotation with plain motivations; without any, it has no such member."""
    if "motivation" not in note:
        return note
    was = as_list(note["motivation"])
    found = [plain_term(text.strip()) if isinstance(text, str) else text for text in was]
    found = [text for text in found if text not in (None, "")]
    if found != was:
        place.mended("a motivation written without prefix or blanks")
    rest = {key: value for key, value in note.items() if key != "motivation"}
    return dict(rest, motivation=one_or_list(found)) if found else rest


def with_via(note):
    """The annotation with its id in `via`, where the id is an IRI."""
    identifier = note.get("id")
    known = as_list(note.get("via"))
    if not isinstance(identifier, str) or ":" not in identifier or identifier in known:
        return note
    return dict(note, via=one_or_list(known + [identifier]))


def moment_in(note, otherwise, place):
    """The moment at which the annotation was made."""
    created = note.get("created")
    found = moment_of(created) if isinstance(created, str) else None
    if created is not None and found is None:
        place.mended("a date that isn't read, in place of which --at stands")
    return found or otherwise


def mend_annotation(note, canvases, is_own, place):
    """What is put of an annotation; `is_own` says that it is one of the server's own."""
    note = mend_motivations(mend_type(note, place), place)
    note = mend_bodies(note, not is_own, place)
    targets = mend_targets(note.get("target"), canvases, place)
    if targets:
        note = dict(note, target=targets if isinstance(note["target"], list) else
                    one_or_list(targets))
    note = note if is_own else with_via(note)
    return mend_tree({key: value for key, value in note.items() if key not in SERVED}, place)
