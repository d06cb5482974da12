"""hostile.py PROGRAM WORK ANNOTATIONS: times the requests that cost most; hostile.sh has the
rest."""
import itertools
import json
import os
import sys
import time
from dataclasses import dataclass

from served import MANIFEST, Gone, RawConnection, Server, play, reader_line, request, token

# The most bytes of a head and the most fields, and the bounds that are shown, in seconds.
HEAD, FIELDS = 16_384, 64
TIMES, LEAST = 3, 0.030
# Words that stand in each annotation beside `swan`, which stands in nine of ten.
COMMON = [f"common{number}" for number in range(31)]
CREATOR = "http://a.example/u/mara"
SHARED = "http://a.example/shared"
MINUTE = "2024-05-01T10:01:00Z"
RANGE = "2024-05-01T10:00:00Z/2024-05-01T10:00:30Z"


# ---- the store

def put(number, manifest, tree, owner="mara", group="public"):
    text = json.dumps(tree, separators=(",", ":"))
    return (f"{MINUTE} {owner} PUT /annotations/{owner}/{manifest}-{number}?version=1"
            f"&manifest={manifest}&group={group} {text}\n")


def note(text, **more):
    return {"bodyValue": text, "target": "http://a.example/c1", "type": "Annotation", **more}


def bodied(text, iris, **more):
    """An annotation with a text and bodies that are IRIs."""
    tree = note(text, body=[{"type": "TextualBody", "value": text}, *iris], **more)
    del tree["bodyValue"]
    return tree


def many(count):
    """Annotations that have the same words."""
    common = " ".join(COMMON)
    for number in range(1, count + 1):
        words = f"{'swan' if number % 10 else 'heron'} {common} own{number}"
        if number % 10 == 5:
            tree = bodied(words, [f"http://a.example/b{number}", SHARED], motivation="commenting")
        else:
            tree = note(words, motivation="commenting")
        yield put(number, "m1", tree)


def large():
    """Ten annotations of nearly 1 MiB each on manifests of their own: with the words that are
    sought at their end, with many motivations, bodies and targets, and without a space."""
    sought = " ".join(f"sought{number}" for number in range(1200))
    for number in range(10):
        yield put(number, "m2", note("first " + "a b c d " * 120_000 + sought))
        yield put(number, "m3", note("swan", motivation=[f"m{at}" for at in range(90_000)]))
        bodies = [f"http://a.example/body/{at}" for at in range(25_000)]
        yield put(number, "m4", bodied("swan", bodies))
        targets = [f"http://a.example/c1#xywh={at % 80},{at % 100},1,1" for at in range(20_000)]
        yield put(number, "m5", note("swan", target=targets))
        yield put(number, "m6", note("a'" * 500_000))


def lines(count):
    yield reader_line("mara", "curator")
    groups = [f"g{number}" for number in range(64)]
    wide = {"groups": groups, "role": "writer", "token": token("wide"), "user": CREATOR}
    yield f"2024-05-01T10:00:00Z - PUT /readers/wide?version=1 {json.dumps(wide)}\n"
    for number in range(1, 7):
        yield f"2024-05-01T10:00:00Z mara PUT /manifests/m{number}?version=1 {MANIFEST}\n"
    yield from many(count)
    for at, group in enumerate(groups):
        yield put(at, "m1", note("swan " + " ".join(COMMON)), "wide", group)
    yield from large()


# ---- the requests

@dataclass
class Row:
    what: str
    target: str
    plain: str
    fields: tuple = ()
    name: str | None = None
    method: str = "GET"


def filled(front, pieces, end="", room=HEAD - 200):
    """A text that begins so and goes on with pieces, each behind a `+`, as far as there is room."""
    text = front
    for piece in pieces:
        if len(text) + len(piece) + len(end) + 1 > room:
            break
        text += "+" + piece
    return text + end


def again(*pieces):
    return itertools.cycle(pieces)


def numbered(front, start=0):
    return (f"{front}{number}" for number in itertools.count(start))


def cases(word):
    """A word with its capitals in all ways."""
    return ("".join(letters) for letters in itertools.product(*((c, c.upper()) for c in word)))


SWAN = "/search/m1?q=swan"
ALL = "/search/m1?q=common0"


def searches():
    yield Row("a frequent word again and again", filled(SWAN, again("swan")), SWAN)
    yield Row("31 frequent words again and again", filled(ALL, again(*COMMON)), ALL)
    yield Row("31 frequent words", filled(ALL, COMMON[1:]), ALL)
    yield Row("a word in all its capitals", filled(SWAN, itertools.cycle(cases("swan"))), SWAN)
    yield Row("words in one piece", filled(SWAN, []) + ",swan" * 3200, SWAN)
    yield Row("frequent words, then one of nobody", filled(ALL, again(*COMMON), "+nobody"), ALL)
    yield Row("a word of few, then frequent ones", filled("/search/m1?q=own7", again(*COMMON)),
              "/search/m1?q=own7")
    yield Row("words of one annotation each", filled("/search/m1?q=own1", numbered("own", 2)),
              "/search/m1?q=own1")
    yield Row("frequent words in 64 groups", filled(ALL, again(*COMMON)), ALL, name="wide")
    yield Row("motivations that nobody has", filled(SWAN + "&motivation=x", numbered("y")), SWAN)
    yield Row("a motivation again and again", filled(SWAN + "&motivation=x", again("x")), SWAN)
    yield Row("motivations, the last of which all have",
              filled(SWAN + "&motivation=x", again("x"), "+commenting"), SWAN)
    yield Row("non-painting, behind others", filled(SWAN + "&motivation=x", again("x"),
                                                    "+non-painting"), SWAN)
    yield Row("motivations without a word", filled("/search/m1?motivation=x", again("x")),
              "/search/m1?motivation=x")
    yield Row("users that nobody is", filled(SWAN + "&user=x", again("x")), SWAN)
    yield Row("users that are nearly the creator", filled(SWAN + "&user=x", again(CREATOR + "x")),
              SWAN)
    yield Row("users, the last of which is the creator",
              filled(SWAN + "&user=x", again("x"), "+" + CREATOR), SWAN)
    yield Row("users without a word", filled("/search/m1?user=x", again("x")), "/search/m1?user=x")
    yield Row("dates before all", filled(SWAN + "&date=" + RANGE, again(RANGE)), SWAN)
    yield Row("dates without a word", filled("/search/m1?date=" + RANGE, again(RANGE)),
              "/search/m1?date=" + RANGE)
    yield Row("IRIs of bodies behind a word", filled(SWAN, again(SHARED)), SWAN)
    yield Row("IRIs of bodies that differ at their end", filled(SWAN, numbered(SHARED)), SWAN)
    yield Row("IRIs of bodies without a word", filled("/search/m1?q=" + SHARED, again(SHARED)),
              "/search/m1?q=" + SHARED)
    third = HEAD // 3 - 100
    combined = (filled(SWAN + "&motivation=x", again("x"), "+commenting", third)
                + filled("&user=x", again("x"), "+" + CREATOR, third)
                + filled("&date=" + RANGE, again(RANGE), f"+{MINUTE}/{MINUTE}", third))
    yield Row("motivations, users and dates at once", combined, SWAN)
    gathered = "/gather/search?q=swan&manifests=m1"
    yield Row("manifests that nobody has", filled(gathered, numbered("x")), gathered)
    yield Row("a manifest again and again", filled(gathered, again("m1")), gathered)
    yield Row("names that are ignored", SWAN + "".join(f"&{n:x}" for n in range(3500)), SWAN)
    yield Row("one name that is ignored", SWAN + "&x" * 8000, SWAN)
    yield Row("empty pieces", SWAN + "+" * 16_000, SWAN)
    yield Row("a word of escapes", "/search/m1?q=" + "%61" * 5300, "/search/m1?q=a")
    yield Row("marks in the wrong order", "/search/m1?q=a" + "%CC%81" * 1300 + "%CC%A3" * 1300,
              "/search/m1?q=a")
    yield Row("a query that its page tells a hundred times", SWAN + "&user=" + CREATOR + "+"
              + "%22" * 5200, SWAN)
    yield Row("a page far behind the last", filled(SWAN, again("swan"), "&page=999999999"),
              SWAN + "&page=999999999")
    yield Row("a late page of a frequent word", ALL + "&page=LATE", ALL)


def beside_large():
    yield Row("terms that stand at the end of 1 MiB",
              filled("/search/m2?q=sought0", numbered("sought", 1)), "/search/m2?q=sought0")
    yield Row("a term that stands at the end, again", filled("/search/m2?q=sought0",
              again("sought0")), "/search/m2?q=sought0")
    yield Row("motivations beside 90,000", filled("/search/m3?q=swan&motivation=x", numbered("n")),
              "/search/m3?q=swan")
    yield Row("IRIs beside 25,000 bodies", filled("/search/m4?q=swan",
              (f"http://a.example/body/{24_999 - at}" for at in range(2000))), "/search/m4?q=swan")
    yield Row("a region beside 20,000 targets", "/manifests/m5/canvases/1?xywh=79,99,1,1",
              "/manifests/m5/canvases/1")
    yield Row("a region that none has", "/manifests/m5/canvases/1?xywh=90,110,1,1",
              "/manifests/m5/canvases/1")
    yield Row("a word beside texts without a space", "/search/m6?q=" + "a'" * 8000,
              "/search/m6?q=a")


def completions():
    front = "/autocomplete/m1?q=own"
    yield Row("a completion of all words of one", front + "&min=2", front)
    yield Row("a completion by motivations", filled(front + "&motivation=x", numbered("y")),
              front + "&motivation=x")
    yield Row("a completion by motivations, the last of which all have",
              filled(front + "&motivation=x", again("x"), "+commenting"),
              front + "&motivation=commenting")
    yield Row("a completion by users", filled(front + "&user=x", again("x")), front + "&user=x")
    yield Row("a completion by dates", filled(front + "&date=" + RANGE, again(RANGE)),
              front + "&date=" + RANGE)
    yield Row("a prefix of 16,000 letters", "/autocomplete/m1?q=own" + "x" * 16_000, front)
    yield Row("a completion in 64 groups", "/autocomplete/m1?q=c", "/autocomplete/m1?q=c",
              name="wide")


def others():
    canvas, held = "/manifests/m1/canvases/1", "/manifests/m1/annotations/"
    yield Row("a region of a canvas", canvas + "?xywh=0,0,1,1", canvas)
    yield Row("a region that is far away", canvas + "?xywh=999999999,999999999,1,1", canvas)
    yield Row("a late page of a canvas", canvas + "?page=LATE", canvas)
    yield Row("a canvas in 64 groups", canvas, canvas, name="wide")
    iris = "http://www.w3.org/ns/oa#PreferContainedIRIs"
    value = f'return=representation;include="{iris}"'
    yield Row("a container that prefers again and again", held, held,
              tuple("Prefer: " + ",".join([value] * 2) for _ in range(FIELDS - 2)))
    yield Row("a container that prefers one long text", held, held,
              (f'Prefer: return=representation;include="{" ".join(["x"] * 8000)}"',))
    yield Row("a late page of a container", held + "?page=LATE", held + "?page=1")
    yield Row("a container by IRIs", held + "?page=1&iris=1", held + "?page=1")
    yield Row("the stream", "/changes", "/changes")
    yield Row("a late page of the stream", "/changes?page=LATE", "/changes?page=1")
    yield Row("the stream in 64 groups", "/changes?page=LATE", "/changes?page=1", name="wide")
    yield Row("a page behind the stream", "/changes?page=999999999", "/changes?page=1")
    yield Row("a path of slashes", "/" * 16_000, "/x")
    yield Row("a path of escapes", "/annotations/mara/" + "%61" * 5200, "/annotations/mara/a")
    yield Row("names that no path reads", "/annotations/mara/x?" + "a&" * 7900,
              "/annotations/mara/x")
    yield Row("64 fields", "/annotations/mara/x", "/annotations/mara/x",
              tuple(f"A{n}: {'a' * 230}" for n in range(FIELDS)))
    yield Row("a field of 16,000 bytes", "/annotations/mara/x", "/annotations/mara/x",
              ("A: " + "," * 16_000,))
    yield Row("a token of 16,000 bytes", "/annotations/mara/x", "/annotations/mara/x",
              ("Authorization: Bearer " + "a" * 16_000,))
    yield Row("a preflight of a long query", filled(SWAN, again("swan")), SWAN, method="OPTIONS")
    yield Row("a head alone", filled(ALL, again(*COMMON)), ALL, method="HEAD")


# ---- what they take

def timed(port, asked, tries, enough):
    """The status, and the least seconds of so many tries; of one where it takes long enough."""
    least = None
    for _ in range(tries):
        connection = RawConnection(port, seconds=120)
        # A worker has the connection before the clock begins.
        time.sleep(0.003)
        begun = time.monotonic()
        try:
            status, _ = connection.ask(asked, has_body=not asked.startswith(b"HEAD"))[0]
        except Gone:
            status = 0
        took = time.monotonic() - begun
        connection.close()
        least = took if least is None else min(least, took)
        if took > enough:
            break
    return status, least


def show(server, row, late):
    """Prints a row, and answers whether it is over its bound."""
    target = row.target.replace("LATE", str(late))
    asked = request(row.method, target, row.name, fields=row.fields)
    plain = request(row.method, row.plain, row.name)
    assert len(asked) <= HEAD, (row.what, len(asked))
    _, usual = timed(server.port, plain, 5, 10.0)
    bound = max(TIMES * usual, LEAST)
    status, took = timed(server.port, asked, 5, 5 * bound)
    lives = server.process.poll() is None
    is_over = took > bound or not lives or status == 0
    print(f"{row.what:52} {len(asked):6} {status:6} {took * 1e3:10.1f} {usual * 1e3:10.1f}"
          f" {bound * 1e3:8.1f}  {'over' if is_over else 'ok'}", flush=True)
    if not lives:
        raise SystemExit(f"the server ended with {server.process.poll()}")
    return is_over


def main():
    program, work, count = sys.argv[1], sys.argv[2], int(sys.argv[3])
    given, store = os.path.join(work, "lines"), os.path.join(work, "store.db")
    with open(given, "w") as file:
        file.writelines(lines(count))
    ended = play(program, store, ["import"], given, seconds=3600)
    print(f"imported with status {ended.status}, {ended.printed.decode().strip()},"
          f" {ended.took:.1f} s")
    if ended.status != 0:
        raise SystemExit(1)
    server = Server(program, store, workers=4)
    assert server.wait_until_it_listens(600)
    print(f"{'request':52} {'bytes':>6} {'status':>6} {'took ms':>10} {'plain ms':>10}"
          f" {'bound':>8}")
    rows = [*searches(), *beside_large(), *completions(), *others()]
    over = [row.what for row in rows if show(server, row, max(1, count // 10))]
    server.kill()
    print(f"{len(rows)} requests, {len(over)} over")
    raise SystemExit(1 if over else 0)


main()
