"""Holds docs/openapi.json against the sources, against the replies that are due in the cases, and
against those of a served reading room.

Words: the top of the repository, and the address of the served room, where there is one.

First a library says whether the document is an OpenAPI description. Then its paths, methods,
parameters, codes and statuses are compared with the tables in crates/an_routes, an_query,
an_complete, an_gather, an_code and an_http. Then each reply of the cases of `find` and `session`
is held against what the document says of its method, path and status, and at last the room's
replies.
"""
import json
import os
import re
import sys
import urllib.error
import urllib.parse
import urllib.request

import jsonschema
from openapi_spec_validator import validate

TOP = sys.argv[1]
ADDRESS = sys.argv[2] if len(sys.argv) > 2 else None
METHODS = {"ReadOnly": "GET, HEAD, OPTIONS", "WriteOnly": "OPTIONS, PUT, DELETE",
           "Full": "GET, HEAD, OPTIONS, PUT, DELETE", "Absent": ""}
# The kind of each path in crates/an_routes/src/paths.rt, and what GET and PUT read there.
KINDS = {"/readers/{reader}": ("Reader", None, "NUMBER_READS"),
         "/manifests/{manifest}": ("Manifest", "READS_NOTHING", "MANIFEST_READS"),
         "/annotations/{owner}/{name}": ("Note", "READS_NOTHING", "NOTE_READS"),
         "/annotations/{owner}/{name}/anchors": ("Anchors", "PAGE_READS", None),
         "/search/{manifest}": ("Search", "SEARCH_PARAMETERS", None),
         "/autocomplete/{manifest}": ("Complete", "ASK_PARAMETERS", None),
         "/manifests/{manifest}/canvases/{canvas}": ("Canvas", "CANVAS_READS", None),
         "/manifests/{manifest}/annotations/": ("Container", "CONTAINER_READS", None),
         "/manifests/{manifest}/orphans": ("Orphans", "PAGE_READS", None),
         "/collection": ("Collection", "READS_NOTHING", None),
         "/gather/search": ("GatherSearch", "GATHER_PARAMETERS", None),
         "/gather/autocomplete": ("GatherComplete", "GATHER_ASK_PARAMETERS", None),
         "/changes": ("Changes", "PAGE_READS", None)}
# The codes that only lines have, and the one of the reply that memory ran out.
OF_LINES = {"line", "input"}
OF_MEMORY = {"memory"}

asked = 0
wrong = 0


def due(what, found, wanted):
    """Counts a comparison, and prints one that fails."""
    global asked, wrong
    asked += 1
    if found != wanted:
        wrong += 1
        print(f"wrong: {what}\n  found {found}\n  due   {wanted}")


def source(name):
    with open(os.path.join(TOP, "crates", name), encoding="utf-8") as file:
        return file.read()


class Document:
    """The description, by method, path and status."""

    def __init__(self, tree):
        self.tree = tree
        self.paths = [(path, re.compile("/".join(
            "([^/]+)" if part.startswith("{") else re.escape(part)
            for part in path.split("/")))) for path in tree["paths"]]

    def get(self, node):
        """What a node is, or what it names."""
        while "$ref" in node:
            found = self.tree
            for part in node["$ref"][2:].split("/"):
                found = found[part]
            node = found
        return node

    def path_of(self, target):
        """The path that a target is of, or none; each segment has to fit its parameter."""
        target = urllib.parse.unquote(target.partition("?")[0], errors="replace")
        for path, pattern in self.paths:
            match = pattern.fullmatch(target)
            if match and all(self.fits(path, at, text) for at, text in enumerate(match.groups())):
                return path
        return None

    def fits(self, path, at, text):
        schema = self.get(self.get(self.tree["paths"][path]["parameters"][at])["schema"])
        if schema.get("type") == "integer":
            return bool(re.fullmatch("[1-9][0-9]{0,8}", text))
        return bool(re.search(schema["pattern"], text))

    def methods_of(self, path):
        return {name.upper() for name in self.tree["paths"][path] if name != "parameters"}

    def parameters_of(self, path, method, place="query"):
        found = [self.get(it) for it in self.tree["paths"][path][method].get("parameters", [])]
        return {it["name"] for it in found if it["in"] == place}

    def faults(self, schema, body):
        """Why a body isn't what a schema says: the first reason, or nothing."""
        whole = {**schema, "components": self.tree["components"]}
        try:
            tree = json.loads(body)
        except ValueError as error:
            return str(error)
        errors = jsonschema.Draft202012Validator(whole).iter_errors(tree)
        return next((error.message[:300] for error in errors), None)

    def sent(self, target, body):
        """Why the body of an accepted PUT isn't what the description asks for, or nothing."""
        put = self.tree["paths"][self.path_of(target)]["put"]
        return self.faults(put["requestBody"]["content"]["application/json"]["schema"], body)

    def check(self, what, method, target, status, fields, body):
        """Holds a reply against the description. `fields` is none where they aren't known."""
        path = self.path_of(target)
        if path is None:
            due(f"{what}: {method} {target}", status, 404)
            due(f"{what}: the body", json.loads(body) if body else None,
                {"error": "route"} if body else None)
            return
        if method not in self.methods_of(path):
            due(f"{what}: {method} {target}", status, 405)
            self.check_fields(what, path, {}, fields)
            return
        replies = self.tree["paths"][path][method.lower()]["responses"]
        reply = replies.get(str(status))
        due(f"{what}: {method} {target} may be {status}", reply is not None, True)
        if reply is None:
            return
        reply = self.get(reply)
        self.check_fields(what, path, reply, fields)
        contents = reply.get("content", {})
        if not contents:
            due(f"{what}: {method} {target} has no body", body or "", "")
            return
        media = next(iter(contents)) if fields is None else fields.get("content-type")
        due(f"{what}: the type of {method} {target}", media in contents, True)
        if media in contents:
            due(f"{what}: {method} {target} {status}",
                self.faults(contents[media]["schema"], body), None)

    def check_fields(self, what, path, reply, fields):
        """Each field that is promised comes, and Allow has the methods of the path."""
        if fields is None:
            return
        # What is no request, and what no memory is left for, is answered without its path.
        if "allow" in fields:
            due(f"{what}: Allow", set(fields["allow"].split(", ")), self.methods_of(path))
        for name in reply.get("headers", {}):
            if name not in ("Allow", "Link"):
                due(f"{what}: {name}", name.lower() in fields, True)


# ---- the tables in the sources

def constants(text):
    """The constants that list parameters, by their names."""
    found = re.findall(r"const (\w+): \[Parameter; \d+\] = \[(.*?)\]", text, re.S)
    return {name: {word.lower() for word in re.findall(r"Parameter::(\w+)", words)}
            for name, words in found}


def check_tables(document):
    paths = source("an_routes/src/paths.rt")
    lists = {**constants(paths), **constants(source("an_query/src/query.rt")),
             **constants(source("an_complete/src/ask.rt")),
             **constants(source("an_gather/src/gather.rt")),
             **constants(source("an_gather/src/ask.rt"))}
    kinds = dict(re.findall(r"Kind::(\w+) => Allow::(\w+)", paths))
    due("the kinds of paths", set(kinds), {kind for kind, _, _ in KINDS.values()})
    due("the paths", set(document.tree["paths"]), set(KINDS))
    for path, (kind, get, put) in KINDS.items():
        due(f"the methods of {path}", document.methods_of(path),
            set(METHODS[kinds[kind]].split(", ")))
        for method, name in [("get", get), ("head", get), ("put", put)]:
            if name is not None:
                due(f"what {method} reads at {path}", document.parameters_of(path, method),
                    lists[name])
        if put is not None:
            due(f"what delete reads at {path}", document.parameters_of(path, "delete"),
                lists["NUMBER_READS"])
    check_codes(document)


def codes_in(document, node, found):
    """All codes of refusals in a schema and in those that it names."""
    if isinstance(node, dict):
        if "$ref" in node:
            codes_in(document, document.get(node), found)
        code = node.get("properties", {}).get("error") if isinstance(
            node.get("properties"), dict) else None
        if code:
            found.update(code.get("enum", [code.get("const")]))
        for value in node.values():
            codes_in(document, value, found)
    elif isinstance(node, list):
        for value in node:
            codes_in(document, value, found)
    return found


def check_codes(document):
    code = source("an_code/src/code.rt")
    texts = dict(re.findall(r'Code::(\w+)(?: \{ \.\. \})? => "(\w+)"', code))
    status = source("an_http/src/status.rt")
    numbers = {name: int(text) for name, text in re.findall(r"Status::(\w+) => (\d+)", status)}
    special = dict(re.findall(r"Code::(\w+)(?: \{ \w+: _ \})? => Status::(\w+)", status))
    wanted = {}
    for name, text in texts.items():
        if text not in OF_LINES:
            wanted.setdefault(numbers[special.get(name, "BadRequest")], set()).add(text)
    found = {}
    for path in document.tree["paths"].values():
        for method, operation in path.items():
            if method == "parameters":
                continue
            for number, reply in operation["responses"].items():
                if int(number) >= 400:
                    found.setdefault(int(number), set()).update(
                        codes_in(document, document.get(reply).get("content", {}), set()))
                else:
                    due(f"{number} is a status of the code", int(number) in numbers.values(), True)
    wanted[503] = OF_MEMORY
    # No method that a path has is answered 405; the description says in words what others are.
    del wanted[405]
    due("the codes by their status", {k: sorted(v) for k, v in sorted(found.items())},
        {k: sorted(v) for k, v in sorted(wanted.items())})
    parameters = set(re.findall(r'Parameter::\w+ => "(\w+)"', source("an_code/src/parameter.rt")))
    due("the parameters", set(document.get({"$ref": "#/components/schemas/Parameter"})["enum"]),
        parameters)


# ---- the replies that are due in the cases

def tables():
    """The texts and the cases of each table."""
    folder = os.path.join(TOP, "crates/an_cases/data")
    texts, found = {}, []
    names = [line.split()[1] for line in source("an_cases/stdin").split("\n")
             if line.startswith("table ")]
    for name in names:
        case, part = None, None
        with open(os.path.join(folder, name), "rb") as file:
            lines = file.read().split(b"\n")
        for line in lines:
            word, _, rest = line.partition(b" ")
            if word in (b"text", b"case"):
                part = []
                if word == b"text":
                    title, *begins = rest.split()
                    part.extend(it for begin in begins for it in texts[begin])
                    texts[title] = part
                    case = None
                else:
                    case = {"name": f"{name}: {rest.decode()}"}
                    found.append(case)
            elif word == b"words" and case is not None:
                case["words"] = rest.decode().split()
            elif word in (b"input", b"output", b"store", b"rows", b"link") and (
                    case is not None):
                part = [it for begin in rest.split() for it in texts.get(begin, [])]
                case[word.decode()] = part
            elif word == b"|":
                part.append(rest + b"\n")
            elif word == b">" or line == b">":
                part.append(rest + b"\r\n")
            elif word == b"+":
                part.append(rest)
            elif word == b"x":
                part.append(bytes(int(it, 16) for it in rest.split()))
    return found


def check_find(document, case):
    """Each line that reads and the line that is printed for it."""
    asks = []
    for line in b"".join(case["input"]).split(b"\n"):
        words = line.split(b" ")
        if len(words) == 4 and words[2] == b"GET":
            asks.append(words[3].removesuffix(b"\r").decode(errors="replace"))
    answers = b"".join(case["output"]).split(b"\n")[:-1]
    for target, answer in zip(asks, answers):
        if re.match(rb"\d{3} ", answer):
            document.check(case["name"], "GET", target, int(answer[:3]), None,
                           answer[4:].decode())


def requests_in(text):
    """The requests that bytes begin with, up to the first that isn't plain."""
    while text:
        head, end, rest = text.partition(b"\r\n\r\n")
        first = re.match(rb"(GET|HEAD|PUT|DELETE|OPTIONS|POST|PATCH) (/\S*) HTTP/1\.[01]$",
                         head.split(b"\r\n")[0])
        if not end or not first:
            return
        length = re.search(rb"(?im)^content-length: *(\d+)\r?$", head)
        length = int(length[1]) if length else 0
        yield first[1].decode(), first[2].decode(errors="replace"), rest[:length]
        text = rest[length:]


def replies_in(text, methods):
    """The replies to these methods: each status, its fields and its body."""
    for method in methods:
        head, end, text = text.partition(b"\r\n\r\n")
        if not end or not head.startswith(b"HTTP/1.1 "):
            return
        first, *lines = head.decode().split("\r\n")
        fields = {}
        for line in lines:
            name, _, value = line.partition(": ")
            fields[name.lower()] = value
        length = 0 if method == "HEAD" else int(fields.get("content-length", 0))
        if len(text) < length:
            return
        yield int(first.split()[1]), fields, text[:length].decode(errors="replace")
        text = text[length:]


def check_session(document, case):
    asks = list(requests_in(b"".join(case["input"])))
    replies = replies_in(b"".join(case["output"]), [method for method, _, _ in asks])
    for (method, target, sent), (status, fields, body) in zip(asks, replies):
        # What is no request is answered without a path.
        if "allow" in fields or status == 404:
            document.check(case["name"], method, target, status, fields, body)
        if method == "PUT" and status in (200, 201):
            due(f"{case['name']}: what {target} was sent", document.sent(target, sent), None)


def check_cases(document):
    before = asked
    for case in tables():
        words = case.get("words", [])
        if "input" not in case or "output" not in case:
            continue
        if words[1:2] == ["find"]:
            check_find(document, case)
        elif words[1:2] == ["session"]:
            check_session(document, case)
    print(f"{asked - before} comparisons with replies that are due in the cases")


# ---- the served reading room

def ask(method, target, token=None, body=None, **fields):
    """Sends a request; the status, the fields and the body of the reply."""
    request = urllib.request.Request(ADDRESS + target, method=method, data=body)
    for name, value in fields.items():
        request.add_header(name.replace("_", "-"), value)
    if token:
        request.add_header("Authorization", "Bearer " + token)
    try:
        reply = urllib.request.urlopen(request, timeout=20)
    except urllib.error.HTTPError as error:
        reply = error
    with reply:
        fields = {name.lower(): value for name, value in reply.headers.items()}
        return reply.status, fields, reply.read().decode()


READS = ["/manifests/log", "/manifests/map", "/manifests/none", "/manifests/-",
         "/manifests/log/canvases/1", "/manifests/log/canvases/1?xywh=0,0,600,400",
         "/manifests/log/canvases/1?xywh=1", "/manifests/log/canvases/1?page=99",
         "/manifests/log/canvases/41", "/manifests/log/annotations/",
         "/manifests/log/annotations/?iris=1", "/manifests/log/annotations/?page=2",
         "/manifests/log/annotations/?page=1&iris=1", "/manifests/log/annotations/?iris=2",
         "/manifests/log/annotations/?page=0", "/manifests/log/orphans", "/manifests/none/orphans",
         "/manifests/log/orphans?page=2", "/manifests/log/orphans?page=x", "/search/log",
         "/search/log?q=heron", "/search/log?q=ink&motivation=commenting&user=x&page=1&extra=1",
         "/search/log?q=a&page=999", "/search/log?q=a&q=b", "/search/log?date=2024",
         "/search/none?q=a", "/search/log?q=%FF",
         "/autocomplete/log?q=st", "/autocomplete/log?q=st&min=2&page=1", "/autocomplete/log",
         "/autocomplete/log?q=a&min=0", "/collection", "/collection?q=a", "/gather/search",
         "/gather/search?q=heron", "/gather/search?manifests=log+map&q=ink&user=x&min=1",
         "/gather/search?q=a&page=999", "/gather/search?manifests=log&manifests=log",
         "/gather/search?manifests=log+-", "/gather/search?date=2024", "/gather/none",
         "/gather/autocomplete?q=st", "/gather/autocomplete?manifests=none&q=st&page=1",
         "/gather/autocomplete", "/gather/autocomplete?q=a&manifests=A", "/changes",
         "/changes?page=1", "/changes?page=2", "/changes?page=99999", "/changes?page=x", "/nowhere"]


def check_room(document):
    before = asked
    for token in [None, "tok-tomas-room", "nobody-has-this"]:
        for target in READS:
            for method in ["GET", "HEAD"]:
                document.check("the room", method, target, *ask(method, target, token))
    _, _, page = ask("GET", "/search/log")
    note = urllib.parse.urlsplit(json.loads(page)["items"][0]["id"]).path
    for target in [note, note + "/anchors", note + "/anchors?page=2", note + "/anchors?page=0"]:
        document.check("the room", "GET", target, *ask("GET", target))
    for prefer in ["http://www.w3.org/ns/ldp#PreferMinimalContainer",
                   "http://www.w3.org/ns/oa#PreferContainedIRIs"]:
        target = "/manifests/log/annotations/"
        document.check("the room", "GET", target,
                       *ask("GET", target, Prefer=f'return=representation;include="{prefer}"'))
    for path in ["/changes", "/readers/ines", "/search/log", "/collection", "/gather/search",
                 "/gather/autocomplete", note, note + "/anchors",
                 "/manifests/log/annotations/", "/manifests/log/orphans"]:
        document.check("the room", "OPTIONS", path, *ask("OPTIONS", path))
        document.check("the room", "PATCH", path, *ask("PATCH", path))
    check_writes(document)
    print(f"{asked - before} comparisons with replies of the served room")


def check_writes(document):
    def put(target, token, tree, method="PUT"):
        body = None if method == "DELETE" else (
            tree if isinstance(tree, bytes) else json.dumps(tree).encode())
        status, fields, text = ask(method, target, token, body)
        document.check("the room", method, target, status, fields, text)
        return status

    note = {"type": "Annotation", "bodyValue": "kept", "target": "https://reading-room.example/x"}
    mine = "/annotations/leila/openapi"
    wanted = [
        (201, f"{mine}?version=1&manifest=log", "tok-leila-room", note, "PUT"),
        (200, f"{mine}?version=1&manifest=log", "tok-leila-room", note, "PUT"),
        (409, f"{mine}?version=7&manifest=log", "tok-leila-room", note, "PUT"),
        (400, f"{mine}?manifest=log", "tok-leila-room", note, "PUT"),
        (400, f"{mine}?version=2", "tok-leila-room", note, "PUT"),
        (400, f"{mine}?version=2&manifest=log&group=-", "tok-leila-room", note, "PUT"),
        (400, f"{mine}?version=2&manifest=log", "tok-leila-room", b"{", "PUT"),
        (400, f"{mine}?version=2&manifest=log", "tok-leila-room", {"a": 1.5}, "PUT"),
        (400, f"{mine}?version=2&manifest=log", "tok-leila-room", {"type": "Annotation"}, "PUT"),
        (400, f"{mine}?version=2&manifest=log", "tok-leila-room",
         {"type": "Annotation", "target": "http://a.example/x", "body": 1}, "PUT"),
        (401, f"{mine}?version=2&manifest=log", None, note, "PUT"),
        (403, f"{mine}?version=2&manifest=log", "tok-tomas-room", note, "PUT"),
        (403, f"{mine}?version=2&manifest=log&group=editors", "tok-leila-room", note, "PUT"),
        (404, f"{mine}?version=2&manifest=none", "tok-leila-room", note, "PUT"),
        (403, "/manifests/log?version=2", "tok-leila-room", {}, "PUT"),
        (400, "/manifests/new?version=1", "tok-ines-room", {"type": "Manifest"}, "PUT"),
        (409, "/manifests/log?version=9&group=public", "tok-ines-room", {
            "type": "Manifest", "label": {"en": ["x"]},
            "items": [{"id": "http://a.example/c", "type": "Canvas", "height": 1, "width": 1}]},
         "PUT"),
        (400, "/readers/new?version=1", "tok-ines-room", {"token": "x"}, "PUT"),
        (409, "/readers/new?version=1", "tok-ines-room", {
            "role": "reader", "token": "tok-leila-room", "user": "http://a.example/u",
            "groups": []}, "PUT"),
        (200, f"{mine}?version=2", "tok-leila-room", None, "DELETE"),
        (409, f"{mine}?version=9", "tok-leila-room", None, "DELETE"),
        (403, "/readers/ines?version=2", "tok-leila-room", None, "DELETE"),
    ]
    for status, target, token, tree, method in wanted:
        due(f"the room: {method} {target}", put(target, token, tree, method), status)
    document.check("the room", "GET", mine, *ask("GET", mine))


def main():
    with open(os.path.join(TOP, "docs/openapi.json"), encoding="utf-8") as file:
        tree = json.load(file)
    validate(tree)
    print("docs/openapi.json is an OpenAPI description")
    document = Document(tree)
    check_tables(document)
    check_cases(document)
    if ADDRESS:
        check_room(document)
    print(f"{asked} comparisons, {wrong} wrong")
    sys.exit(1 if wrong else 0)


main()
