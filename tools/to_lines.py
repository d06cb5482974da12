#!/usr/bin/env python3
"""Turns what archives have into lines that `anno STORE import` takes.

    tools/to_lines.py --owner mara book.json pages/*.xml > book.lines
    ./anno archive.db import < book.lines

What it reads
    A manifest of IIIF Presentation 3. Annotations (W3C) in files of their own, in arrays, in pages
    (AnnotationPage), in collections with their pages in them (AnnotationCollection), and in the
    canvases of a manifest. ALTO 2 to 4, and hOCR: each line of text becomes an annotation on its
    region. A folder stands for its files, p2 before p10. What is of IIIF Presentation 2 is told so.

What it writes
    A line for each manifest, by the operator, and behind them one for each annotation, by its
    owner, in the order of their moments. The moment of an annotation is its `created`, or that of
    --at; that of a manifest is the earliest of all. The owner has to be there when the lines are
    imported, as a writer or curator, and a member of each group of --group: a line for that is
    the operator's to write. Each write is the first one of its object; where files have changed,
    --since takes the lines that were written before, and numbers the writes behind them.

Names
    An id that is a name of the server (1 to 64 of a-z, 0-9, - and _) is its own name. Any other has
    the last signs of it, in lower case and with - for each run of other signs, then - and the first
    16 digits of its SHA-256. An id under --base is the server's own, and has the name in it. What
    has no id has that of what holds it and its number there, or the name of its file; a line of
    text has the id of its canvas, # and its own id, or line-N. Two ids with one name: the second is
    left out.

What is mended, and reported with its count
    Regions become whole pixels, percents too where the canvas is known. Other numbers that aren't
    whole become texts, but heights and widths are rounded. HTML gets its format, and signs in place
    of entities; soft hyphens go. A target with items becomes these items. Labels become language
    maps. The id of an annotation is kept in `via`, and its creator in its bodies, since the server
    writes its own. Each module of tools/to_lines/ states its rules in full.

What is left out
    What the server would refuse all the same, by its code; what is only named and not in the file;
    what came before with the same id and another content. At the end each reason has a line, with
    how often it was and where it was first; with --verbose each thing has one too, at once.

Pages of text and canvases
    With --match order, the first page of text is on the first canvas of the manifest that was read
    last, or on that of --first-canvas, the next on the next; a file that can't be read counts as a
    page. With --match image, a page is on the one canvas whose ids have the name of its image, or
    that of its file where it names none.

A manifest that is left out
    What comes after it is put on no manifest that was read before it, but on that of --manifest;
    pages of text in order only where none was read in between.

It ends with 0 where all was written, 1 where something was left out, and 2 where the command isn't
understood. It needs Python 3.8 or later, and nothing else.
"""

import argparse
import re
import sys

sys.dont_write_bytecode = True

from to_lines import moments, sources
from to_lines.converter import Converter
from to_lines.names import in_order, is_groups, is_name
from to_lines.report import Report

BASE = re.compile(r"https?://[A-Za-z0-9._~:/-]*[A-Za-z0-9._~:-]\Z")


def checked(test, what):
    """A reader of an option that refuses what fails the test."""
    def read(text):
        if not test(text):
            raise argparse.ArgumentTypeError("%r is no %s" % (text, what))
        return text
    return read


def is_manifest_group(text):
    return is_name(text) and text != "private"


def is_base(text):
    return bool(BASE.match(text)) and len(text) <= 200


def number_of(text):
    """A number from 1 to 999,999,999."""
    if not re.match(r"[1-9][0-9]{0,8}\Z", text):
        raise argparse.ArgumentTypeError("%r is no number from 1 to 999,999,999" % text)
    return int(text)


def parser():
    """The options of the command."""
    found = argparse.ArgumentParser(
        prog="to_lines.py", description=__doc__,
        formatter_class=argparse.RawDescriptionHelpFormatter)
    add = found.add_argument
    add("files", nargs="+", metavar="FILE", help="a file or a folder")
    add("--owner", type=checked(is_name, "name"), metavar="NAME",
        help="the reader whose annotations they are")
    add("--group", type=checked(is_groups, "list of groups"), default="public", metavar="GROUPS",
        help="whom the annotations are shown to: public, private, or one to eight groups of the "
             "owner's with commas between them")
    add("--manifest", metavar="M",
        help="what annotations are put on whose canvas no manifest among the files has, up to the "
             "first of these, and after one that is left out: the name of a manifest that the "
             "server has, or its file, which gets no line")
    add("--manifest-group", type=checked(is_manifest_group, "group of a manifest"),
        default="public", metavar="GROUP", help="whom the manifests are shown to")
    add("--base", type=checked(is_base, "base"),
        help="the BASE of the server, whose own IRIs have a name")
    add("--at", type=checked(moments.is_moment, "moment, as 2024-05-01T10:00:00Z"),
        metavar="MOMENT", help="the moment of what has no date; without it, now")
    add("--since", action="append", default=[], metavar="LINES",
        help="lines of an earlier run, behind whose writes these are numbered: what is as it was "
             "is a repeat, and what has changed the next write of its object")
    add("--match", choices=("order", "image"), default="order",
        help="how pages of text find their canvases")
    add("--join-hyphens", action="store_true",
        help="a word that ends in a hyphen at the end of a line goes on in the next one, where "
             "that begins with a small letter")
    add("--first-canvas", type=number_of, default=1, metavar="N",
        help="the number of the canvas of the first page of text")
    add("--verbose", action="store_true",
        help="report each thing that is left out, at once, with its place and the reason")
    return found


def number_behind(paths, converter):
    """Numbers the writes behind the lines of earlier runs."""
    for path in paths:
        try:
            converter.lines.earlier.read(path)
        except (OSError, ValueError) as error:
            parser().error("%s can't be read: %s" % (path, error))


def main(words):
    """Converts the files that the words name, and gives the status."""
    options = parser().parse_args(words)
    options.at = options.at or moments.now()
    options.group = in_order(options.group)
    report = Report(options.verbose)
    converter = Converter(options, report)
    number_behind(options.since, converter)
    if options.manifest:
        converter.use_manifest(options.manifest)
    files = [file for path in options.files for file in sources.files_of(path)]
    for number, file in enumerate(files, 1):
        report.begin(file, number, len(files))
        converter.take_in(file)
    converter.write(sys.stdout.buffer)
    report.end()
    return 1 if report.counts["left out"] else 0


if __name__ == "__main__":
    sys.exit(main(sys.argv[1:]))
