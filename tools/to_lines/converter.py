"""Which part does what with each file."""

import os

from . import alto, annotations, hocr, manifests, ocr, sources
from .checks import why_no_annotation, why_no_manifest
from .lines import LARGEST_BODY, LARGEST_INPUT, Lines
from .names import Names, is_name, name_of, name_under
from .reasons import Reason, Unreadable
from .report import Place
from .targets import source_of, types_of
from .trees import as_list, compact, depth, mend_tree

# Deeper files are left out whole, since Python reads no further in some of its versions.
DEEPEST_FILE = 300
TOO_DEEP = Reason("deep: too many arrays, objects or elements inside each other to be read")


class Converter:
    """Takes in files, and writes their lines. `options` are those of the command."""

    def __init__(self, options, report):
        self.options = options
        self.report = report
        self.lines = Lines()
        self.names = Names()
        self.canvases = manifests.Canvases()
        # What annotations and pages of text are put on now, and what the command names for that.
        self.manifest = None
        self.named = None
        self.pages = 0
        # Whether the pages of text that come next are those of this manifest, in order.
        self.has_its_pages = False

    # ---- files

    def use_manifest(self, text):
        """Puts annotations on the manifest of a name or of a file, which is not written itself."""
        if is_name(text):
            self.manifest = text
        else:
            self.read(text, self.look_at_manifest)
        self.named = self.manifest

    def take_in(self, path):
        """Takes in a file of any kind."""
        self.read(path, self.take_in_data)

    def read(self, path, take):
        """Hands the bytes of a file on, or leaves out what can't be read."""
        place = Place(self.report, os.path.basename(path))
        try:
            with open(path, "rb") as file:
                data = file.read()
            take(data, place)
        except OSError as error:
            self.skip(path, place, Reason("it can't be read", error.strerror))
        except Unreadable as error:
            self.skip(path, place, error.reason)
        except ValueError as error:
            self.skip(path, place, Reason("it can't be read", str(error)))
        except RecursionError:
            self.skip(path, place, TOO_DEEP)

    def skip(self, path, place, reason):
        """Leaves out a file. It counts as a page of text: the next ones keep their canvas."""
        place.left_out(*reason)
        if not path.lower().endswith(sources.JSON_SUFFIXES):
            self.pages += 1

    def take_in_data(self, data, place):
        kind = sources.kind_of(data)
        if kind == "json":
            self.take_in_tree(self.tree_of(data), place)
        elif kind == "alto":
            self.take_in_pages(alto.pages_of(data), place)
        else:
            self.take_in_pages(hocr.pages_of(sources.html_text(data)), place)

    def tree_of(self, data):
        """The tree of a file of JSON."""
        tree = sources.json_tree(data)
        if depth(tree) > DEEPEST_FILE:
            raise RecursionError
        return tree

    def look_at_manifest(self, data, place):
        """Takes in the canvases of a manifest alone."""
        tree = self.tree_of(data)
        if not isinstance(tree, dict) or manifests.is_version_2(tree):
            is_old = isinstance(tree, dict)
            raise Unreadable(manifests.VERSION_2 if is_old else "it is no manifest")
        self.take_in_manifest(tree, place, is_written=False)

    def take_in_tree(self, tree, place):
        """Takes in a tree by its type."""
        kinds = types_of(tree)
        if isinstance(tree, list):
            self.take_in_items(tree, place)
        elif annotations.is_version_2(tree):
            place.left_out(annotations.VERSION_2)
        elif manifests.is_list_of_version_2(tree):
            place.left_out(manifests.VERSION_2)
        elif manifests.is_version_2(tree):
            self.leave_out_manifest(place, Reason(manifests.VERSION_2))
        elif "Manifest" in kinds:
            self.take_in_manifest(tree, place, is_written=True)
        elif "AnnotationCollection" in kinds:
            self.take_in_collection(tree, place)
        elif "AnnotationPage" in kinds:
            self.take_in_page(tree, place)
        elif "Annotation" in kinds or "target" in tree:
            self.take_in_annotation(tree, place)
        else:
            place.left_out("neither a manifest, nor an annotation, nor a page or collection of any")

    # ---- manifests

    def name_of_manifest(self, tree, place):
        identifier = tree.get("id") if isinstance(tree.get("id"), str) else place.file
        own = self.server_name("/manifests/", identifier)
        return own or name_of(identifier), identifier

    def server_name(self, path, identifier):
        """The name that an IRI of the server itself says behind a path, or None."""
        return name_under(self.options.base + path, identifier) if self.options.base else None

    def take_in_manifest(self, tree, place, is_written):
        """Takes in a manifest, its canvases, and the annotations in it."""
        name, identifier = self.name_of_manifest(tree, place)
        place = Place(self.report, place.file, "manifest", identifier)
        pages = manifests.embedded_pages(tree)
        takes_pages = bool(pages) and is_written and self.options.owner is not None
        tree = manifests.without_pages(tree) if takes_pages else tree
        kept = manifests.mend_manifest(tree, place)
        reason = why_no_manifest(kept) or self.why_no_name("manifests", name, identifier)
        if reason:
            self.leave_out_manifest(place, reason)
            return
        self.use_canvases(name, kept, place)
        if is_written:
            self.write_manifest(name, kept, place)
        if takes_pages:
            self.take_in_embedded(pages, place)
        elif pages and is_written:
            place.note("the annotations in it stay in it: with --owner they get lines")

    def use_canvases(self, name, kept, place):
        """What comes behind a manifest is put on it, pages of text from its first canvas on."""
        self.manifest = name
        self.pages = 0
        self.has_its_pages = True
        self.canvases.add(name, kept)
        if any("#" in canvas["id"] for canvas in kept["items"]):
            place.note("a canvas has a # in its id: the server finds no annotations on it")

    def leave_out_manifest(self, place, reason):
        """Leaves out a manifest. What comes after it is put on none that was read before, but on
        the one that the command names, where it names one."""
        place.left_out(*reason)
        if self.manifest != self.named:
            self.manifest = self.named
            self.has_its_pages = False

    def write_manifest(self, name, kept, place):
        if not self.is_new(("manifests", name), [compact(kept)], place):
            return
        self.tell_size(kept, place)
        self.lines.put_manifest(name, self.options.manifest_group, kept)
        self.report.count("manifests")
        place.written()

    def take_in_embedded(self, pages, place):
        for number, page in pages:
            self.take_in_page(page, place.within("canvas %d" % number))

    # ---- pages and collections of annotations

    def take_in_collection(self, tree, place):
        """Takes in the pages that stand in a collection itself."""
        waiting = [tree.get("first")] + as_list(tree.get("items")) + [tree.get("last")]
        embedded, named = [], []
        while waiting:
            page = waiting.pop(0)
            if manifests.is_embedded(page):
                if page not in embedded:
                    embedded.append(page)
                    where = place.within("page %d" % len(embedded), page.get("id"))
                    self.take_in_page(page, where)
                    waiting.insert(0, page.get("next"))
            elif page is not None:
                named.append(page.get("id") if isinstance(page, dict) else page)
        self.tell_named(named, [page.get("id") for page in embedded], place)

    def tell_named(self, named, embedded, place):
        """Tells once of each page that is only named, and doesn't stand in the collection too."""
        for number, identifier in enumerate(named):
            if identifier not in embedded + named[:number]:
                place.note("page %s is only named here: give its file too" % identifier)

    def take_in_page(self, tree, place):
        self.take_in_items(tree.get("items") or [], place, tree.get("id"))

    def take_in_items(self, items, place, holder=None):
        for number, item in enumerate(as_list(items), 1):
            where = place.within("item %d" % number)
            if isinstance(item, dict):
                self.take_in_annotation(item, where, "%s#%d" % (holder or place.file, number))
            else:
                where.left_out("it is no annotation, but " + (
                    "only the id of one" if isinstance(item, str) else "another value"))

    # ---- annotations

    def take_in_annotation(self, note, place, otherwise=None):
        """Takes in an annotation; one without an id gets `otherwise`, or the name of its file."""
        identifier = note.get("id") if isinstance(note.get("id"), str) else None
        identifier = identifier or otherwise or place.file
        place = Place(self.report, place.file, place.where, identifier)
        if annotations.is_version_2(note):
            place.left_out(annotations.VERSION_2)
            return
        own = self.own_name(identifier)
        kept = annotations.mend_annotation(note, self.canvases, own is not None, place)
        moment = annotations.moment_in(note, self.options.at, place)
        self.write_annotation(kept, identifier, own or name_of(identifier), moment, place)

    def own_name(self, identifier):
        """The name that an IRI of the server itself says of one of the owner's annotations."""
        return self.server_name("/annotations/%s/" % self.options.owner, identifier)

    def manifest_with(self, note):
        """The manifest that has the canvas of one of the targets, or None."""
        for target in as_list(note.get("target")):
            found = self.canvases.manifest_of(source_of(target))
            if found:
                return found
        return None

    def why_not_written(self, note, manifest):
        if self.options.owner is None:
            return Reason("annotations need --owner")
        if manifest is None:
            return Reason("no manifest: give its file before, or --manifest")
        return why_no_annotation(note)

    def write_annotation(self, kept, identifier, name, moment, place):
        """Writes the line of a mended annotation, unless it is refused or was written before."""
        found = self.manifest_with(kept)
        manifest = found or self.manifest
        reason = (self.why_not_written(kept, manifest)
                  or self.why_no_name("annotations", name, identifier))
        if reason:
            place.left_out(*reason)
        elif self.is_new(("annotations", name), [moment, manifest, compact(kept)], place):
            self.tell_size(kept, place)
            self.lines.put_annotation(moment, self.options.owner, name, manifest,
                                      self.options.group, kept)
            self.report.count("annotations")
            if found is None and manifest in self.canvases.of_manifest:
                self.report.count("on no canvas of their manifest")
            place.written()

    def is_new(self, key, parts, place):
        """Nothing was written under the key. What is there again is passed over, or left out."""
        text = "\n".join(parts)
        if self.names.is_new(key, text):
            return True
        if self.names.has(key, text):
            self.report.count("twice")
        else:
            place.left_out("what was read before with this id is another")
        return False

    def why_no_name(self, kind, name, identifier):
        """Why the name can't be the id's, or None."""
        other = self.names.other_with((kind, name), identifier)
        if other is None:
            return None
        return Reason("its name is that of another id", "%s is that of %s" % (name, other))

    # ---- pages of lines of text

    def take_in_pages(self, pages, place):
        if not pages:
            raise Unreadable("it has no page")
        for number, page in enumerate(pages, 1):
            self.pages += 1
            self.take_in_ocr(page, place.within("page %d" % number) if len(pages) > 1 else place)

    def take_in_ocr(self, page, place):
        """Takes in the lines of a page, on its canvas."""
        canvas, reason = self.canvas_for(page, place)
        if reason:
            place.left_out(*reason)
            return
        for line in ocr.joined(ocr.numbered(page.lines), self.options.join_hyphens):
            where = place.within("line %s" % line.id)
            note = ocr.annotation_of(line, page, canvas, where)
            if note is None:
                self.report.count("lines without text")
                continue
            identifier = note.pop("id")
            self.write_annotation(mend_tree(note, where), identifier,
                                  name_of(identifier), self.options.at, where)

    def canvas_for(self, page, place):
        """The canvas of a page, or why there is none."""
        if self.manifest not in self.canvases.of_manifest:
            return None, Reason("no canvases: give a manifest's file before, or by --manifest")
        canvases = self.canvases.of_manifest[self.manifest]
        if self.options.match == "image":
            return ocr.canvas_by_image(page, place.file, canvases)
        if not self.has_its_pages:
            return None, Reason("its manifest was left out: with --match image it is put on the "
                                "one of --manifest")
        return ocr.canvas_by_order(self.pages + self.options.first_canvas - 1, canvases)

    # ---- the end

    def tell_size(self, kept, place):
        if len(compact(kept).encode("utf-8")) > LARGEST_BODY:
            place.note("it has more than 1,048,576 bytes: "
                       "an import takes it, a PUT over HTTP doesn't")

    def write(self, output):
        """Writes all lines."""
        size = self.lines.write(self.options.at, output)
        if size > LARGEST_INPUT:
            self.report.say("note: the lines have %d bytes, and an import takes at most %d: "
                            "give fewer files at once" % (size, LARGEST_INPUT))
