"""Drives examples/viewer/index.html as readers would, and compares what they see.

Words: the file of the page, its address at another origin, the address of the server, the lines of
its reading room, a folder for the pictures, and the first of two free ports for drivers.
tests/viewer.sh gives them.
"""
import json
import os
import re
import sys
import urllib.parse

from webdriver import Browser

PAGE, ORIGIN, SERVER, LINES, PICTURES, PORT = sys.argv[1:]
VERA = "viewer-vera-token"
asked = wrong = pictures = 0


def due(name, found, wanted):
    global asked, wrong
    asked += 1
    if found != wanted:
        wrong += 1
        print(f"wrong: {name}\n  found {found!r}\n  due   {wanted!r}")


def picture(browser, name):
    global pictures
    pictures += 1
    browser.picture(os.path.join(PICTURES, f"{pictures:02}-{name}.png"))


def readers_and_notes():
    """What the reading room's lines put: readers by name, annotations by owner and name."""
    readers, notes = {}, {}
    with open(LINES, encoding="utf-8") as file:
        for line in filter(str.strip, file):
            _, _, method, target, *tree = line.rstrip("\n").split(" ", 4)
            path, _, query = target.partition("?")
            kind, *names = path.strip("/").split("/")
            kept = {"readers": readers, "annotations": notes}.get(kind)
            if kept is None:
                continue
            if method == "DELETE":
                kept.pop(tuple(names), None)
            else:
                kept[tuple(names)] = dict(urllib.parse.parse_qsl(query)), json.loads(tree[0])
    return readers, notes


def fitting(word, manifest=None, reader=None):
    """How many annotations with a word the reader may read on a manifest, or on all, by the lines
    alone."""
    readers, notes = readers_and_notes()
    groups = ["public"] + (readers[(reader,)][1].get("groups", []) if reader else [])
    count = 0
    for (owner, _), (query, tree) in notes.items():
        shown_to = query.get("group", "public").split(",")
        is_shown = owner == reader or any(group in groups for group in shown_to)
        bodies = tree.get("body", [])
        texts = [body["value"] for body in (bodies if isinstance(bodies, list) else [bodies])
                 if isinstance(body, dict) and "value" in body]
        # An apostrophe between letters is part of a word (UAX #29).
        words = re.findall(r"\w+(?:['\u2019]\w+)*", " ".join(texts).lower())
        count += manifest in (None, query["manifest"]) and is_shown and word in words
    return "1 annotation fits." if count == 1 else f"{count} annotations fit."


def told(browser, text):
    """Waits for the line of the page that tells what came of a request."""
    browser.until(lambda: browser.texts("#told") == [text])
    due(f"the page tells: {text}", browser.texts("#told"), [text])


def connect(browser, token="", reader=""):
    browser.type("#connect [name=server]", SERVER)
    browser.type("#connect [name=token]", token)
    browser.type("#connect [name=reader]", reader)
    browser.press("#connect button")
    browser.until(lambda: re.search(r"are shown to|\(\d+ ", browser.texts("#told")[0]))


def open_log(browser, canvas=1):
    browser.run(f"location.hash = 'manifest=viewer-log&canvas={canvas}'")
    browser.until(lambda: browser.texts("#canvas-title") == [f"Page {canvas}"])
    browser.until(lambda: browser.texts("#canvases [aria-current]") != [])


def completions(browser, prefix):
    browser.run("document.querySelector('#words').replaceChildren()")
    browser.type("#search [name=q]", prefix)
    browser.until(lambda: browser.texts("#words li") != [], 5)
    return [text.split() for text in browser.texts("#words li")]


def search(browser, words):
    """Searches, and gives how many annotations fit and the lines that were found."""
    browser.run("document.querySelector('#total').textContent = ''")
    browser.type("#search [name=q]", words)
    browser.press("#search button")
    browser.until(lambda: browser.texts("#total") != [""])
    return browser.texts("#total") + browser.texts("#hits .card > p:not(.faint)")


def gather(browser, words):
    """Searches in all manifests, and gives how many annotations fit and where they are."""
    browser.run("document.querySelector('#gather-total').textContent = ''")
    browser.type("#gather [name=q]", words)
    browser.press("#gather button")
    browser.until(lambda: browser.texts("#gather-total") != [""])
    return browser.texts("#gather-total") + browser.texts("#gather-hits a")


def region(browser):
    """The region that is chosen on the drawing."""
    browser.until(lambda: browser.run("return !!document.querySelector('#drawing .chosen')"))
    return browser.run("const r = document.querySelector('#drawing .chosen');"
                       "return ['x', 'y', 'width', 'height'].map(n => r.getAttribute(n)).join()")


def hidden(browser, selector):
    return browser.run("return document.querySelector(arguments[0]).hidden", selector)


def reading_room(browser):
    """The same search by anybody and by a member of the closed group `keepers`."""
    anybody, leila = fitting("ink", "log"), fitting("ink", "log", "leila")
    due("the lines tell the two apart", anybody != leila, True)
    for reader, token, wanted in [("", "", anybody), ("leila", "tok-leila-room", leila)]:
        browser.open(ORIGIN)
        connect(browser, token, reader)
        browser.run("location.hash = 'manifest=log&canvas=29'")
        browser.until(lambda: browser.texts("#canvases [aria-current]") != [])
        due(f"a search by {reader or 'anybody'} of the room", search(browser, "ink")[0], wanted)
        browser.press("#hits a")
        browser.until(lambda: browser.run("return !!document.querySelector('#drawing .chosen')"))
        browser.run("scrollTo(0, 0)")
        picture(browser, f"room-{reader or 'anybody'}")


def anonymous_reader(browser):
    browser.open("file://" + PAGE)
    connect(browser)
    labels = "return [...document.querySelectorAll('#manifests li')].map(e => e.innerText)"
    log = "Log of the harbour, for the viewer's test"
    browser.until(lambda: log in browser.run(labels))
    due("the open manifest is listed", log in browser.run(labels), True)
    due("the closed manifest is not", "Ledger of the closed desk" in browser.run(labels), False)
    picture(browser, "manifests")
    open_log(browser)
    due("canvases", [text.split("\n")[-1] for text in browser.texts("#canvases li")],
        ["Page 1", "Page 2"])
    due("a thumbnail where there is one", browser.run(
        "return [...document.querySelectorAll('#canvases .thumbnail')].map(e => e.localName)"),
        ["img", "span"])
    due("the image that is painted on the canvas", browser.run(
        "return document.querySelector('#drawing image').getAttribute('href').slice(0, 15)"),
        "data:image/png;")
    due("its size is the canvas's", browser.run(
        "return document.querySelector('#drawing').getAttribute('viewBox')"), "0 0 800 1200")
    due("hostile texts are texts", browser.texts("#notes p:not(.faint)"),
        ["<img src=x onerror=\"document.title='taken'\">plain\nstyleddocument.title='taken'"])
    due("hostile texts make no elements", browser.run(
        "return document.querySelectorAll('#notes img, #notes script').length"), 0)
    due("hostile texts run nothing", browser.run("return document.title"), "Reading room")
    due("words that complete", completions(browser, "sand"), [["sandpiper", "1"]])
    picture(browser, "completion")
    due("a search", search(browser, "sandpiper"),
        ["1 annotation fits.", "… A sandpiper stood at the pi …"])
    due("what is marked", browser.texts("#hits mark"), ["sandpiper"])
    browser.press("#hits a")
    due("the region of the hit", region(browser), "100,200,300,150")
    due("nobody writes without a name", hidden(browser, "#editor-part"), True)
    picture(browser, "anonymous-hit")


def all_manifests(browser):
    log, ledger = "Log of the harbour, for the viewer's test", "Ledger of the closed desk"
    browser.open("about:blank")
    browser.open("file://" + PAGE)
    connect(browser)
    due("the search in all stands on the first page", hidden(browser, "#gather-part"), False)
    due("that in one doesn't", hidden(browser, "#search-part"), True)
    due("a search in all by anybody", gather(browser, "sandpiper"),
        ["1 annotation fits.", f"{log}, canvas 2"])
    due("what is marked of all", browser.texts("#gather-hits mark"), ["sandpiper"])
    picture(browser, "all-manifests")
    browser.press("#gather-hits a")
    due("the region of a hit of all", region(browser), "100,200,300,150")
    due("its manifest is opened", browser.texts("#manifests [aria-current]"), [log])
    due("a hostile text in all is a text", gather(browser, "onerror")[0], "1 annotation fits.")
    due("it makes no elements", browser.run(
        "return document.querySelectorAll('#gather-hits img, #gather-hits script').length"), 0)
    due("it runs nothing", browser.run("return document.title"), "Reading room")
    many_of_all(browser)
    connect(browser, VERA, "viewer-vera")
    due("nothing is left of what another reader found",
        browser.texts("#gather-hits .card") + browser.texts("#gather-total"), [""])
    due("a search in all by a member", gather(browser, "sandpiper"),
        ["3 annotations fit."] + [f"{log}, canvas 2"] * 2 + [f"{ledger}, canvas 1"])
    browser.run("document.querySelectorAll('#gather-hits a')[2].click()")
    browser.until(lambda: region(browser) == "10,20,100,50")
    due("the region on the closed manifest", region(browser), "10,20,100,50")
    due("the closed manifest is opened", browser.texts("#manifests [aria-current]"), [ledger])
    due("words of all that complete", gathered_words(browser, "two sandp"),
        [["two sandpiper", "3"]])
    due("a comment in all", gather(browser, "cinerea"),
        ["1 annotation fits.", "a comment in Letters, for the viewer's test, canvas 1"])
    browser.press("#gather-hits a")
    due("it leads to what it is on", len(comments(browser, "8 comments.")), 8)
    due("nothing in all", gather(browser, "nowhere-to-be-found"), ["0 annotations fit."])
    picture(browser, "all-manifests-member")


def gathered_words(browser, words):
    browser.type("#gather [name=q]", words)
    shown = ("return [...document.querySelectorAll('#gather-words option')]"
             ".map(e => [e.value, e.textContent])")
    browser.until(lambda: browser.run(shown) != [], 5)
    return browser.run(shown)


def many_of_all(browser):
    """A word on both manifests of the room, and one of more than a page."""
    both = fitting("quill")
    due("the word is on both", both not in (fitting("quill", "log"), fitting("quill", "map")), True)
    due("what is found on both", gather(browser, "quill")[0], both)
    wanted = fitting("in")
    due("the other word has two pages", 20 < int(wanted.split()[0]) <= 40, True)
    due("the first page of all", [gather(browser, "in")[0],
                                  len(browser.texts("#gather-hits .card"))], [wanted, 20])
    browser.press("#more-gathered")
    browser.until(lambda: len(browser.texts("#gather-hits .card")) > 20)
    due("the second page of all", len(browser.texts("#gather-hits .card")),
        int(wanted.split()[0]))
    due("there is no third page of all", hidden(browser, "#more-gathered"), True)


def member(browser):
    browser.open(ORIGIN)
    connect(browser, VERA, "viewer-vera")
    browser.until(lambda: "Ledger of the closed desk" in browser.texts("#manifests li"))
    due("a member is shown the closed manifest",
        "Ledger of the closed desk" in browser.texts("#manifests li"), True)
    open_log(browser, 2)
    due("words that complete for a member", completions(browser, "sand"), [["sandpiper", "2"]])
    due("a member's search", search(browser, "sandpiper")[0], "2 annotations fit.")
    due("what is marked for a member", browser.texts("#hits mark"), ["sandpiper", "sandpiper"])
    browser.run("document.querySelectorAll('#hits a')[1].click()")
    due("a region in percent", region(browser), "400,600,200,120")
    picture(browser, "member-hit")


def note(browser, other):
    browser.drag("#drawing", (-60, -100), (20, -40))
    drawn = browser.run("return document.querySelector('#editor [name=region]').value")
    due("a region was drawn", len([int(part) for part in drawn.split(",")]), 4)
    browser.type("#editor [name=text]", "An osprey over the mole.")
    browser.type("#editor [name=group]", "viewer-desk, viewer-hall")
    browser.type("#editor [name=name]", "osprey")
    browser.press("#editor button")
    told(browser, "The note is kept as number 1.")
    picture(browser, "note-written")
    due("the note is found", search(browser, "osprey")[0], "1 annotation fits.")
    connect(other)
    open_log(other, 2)
    due("others don't find it", search(other, "osprey"), ["0 annotations fit."])
    browser.type("#editor [name=text]", "Two gannets over the mole.")
    browser.press("#editor button")
    told(browser, "The note is kept as number 2.")
    due("the old word is gone", search(browser, "osprey"), ["0 annotations fit."])
    due("the new word is found", search(browser, "gannets")[0], "1 annotation fits.")
    picture(browser, "note-changed")
    refusals(browser)
    browser.press("#again")
    told(browser, "This is what the server has now.")
    browser.press("#delete")
    told(browser, "The note is deleted, by number 3.")
    due("a deleted note isn't found", search(browser, "gannets"), ["0 annotations fit."])
    picture(browser, "note-deleted")


def refusals(browser):
    browser.type("#editor [name=text]", "Three gannets.")
    browser.type("#editor [name=version]", "2")
    browser.press("#editor button")
    told(browser, "Another number is due: this note is at 2. Load it again, look at what is there,"
         " and save it as number 3.")
    picture(browser, "number-refused")
    browser.type("#editor [name=version]", "3")
    browser.type("#editor [name=group]", "strangers")
    browser.press("#editor button")
    told(browser, "You are no member of this group, or of one of these. (403 not_member)")


STATES = {"whole": "About the whole annotation.",
          "exact": "Exact: these words stand where the comment says.",
          "moved": "Moved: these words stand at another place than the comment says.",
          "1": "Found: these words stand in 1 place.", "2": "Found: these words stand in 2 places.",
          "lost": "Lost: these words aren't there any more."}


def choose(browser, canvas, text, total):
    """Opens a leaf of the letters, and the comments on the annotation that begins so."""
    card = ("[...document.querySelectorAll('#notes .card')]"
            ".find(card => card.innerText.startsWith(arguments[0]))")
    browser.run(f"location.hash = 'manifest=viewer-letters&canvas={canvas}'")
    browser.until(lambda: browser.run(f"return !!{card}", text))
    browser.run(f"{card}.querySelector('a').click()", text)
    return comments(browser, total)


def cards(browser, part):
    """The lines of each card, without its link and its owner."""
    return [list(filter(None, card.split("\n")))[:-2] for card in browser.texts(f"{part} .card")]


def comments(browser, total):
    """The comments on the annotation that is shown: what each says, means, and how it was found."""
    browser.until(lambda: browser.texts("#comments-total") == [total])
    due("how many comments there are", browser.texts("#comments-total"), [total])
    return cards(browser, "#comments")


def comments_again(browser, total):
    browser.run("document.querySelector('#comments-total').textContent = ''")
    browser.press("#again-comments")
    return comments(browser, total)


def marks(browser):
    """What is marked in the texts, and the signs that follow places."""
    return browser.run("return [...document.querySelectorAll('#texts mark, #texts sup')]"
                       ".map(e => e.textContent).join(' ')")


def rewrite(browser, text, group, number):
    browser.run("const field = document.querySelector('#editor [name=text]');"
                "field.value = arguments[0]", text)  # a driver types no emoji
    browser.type("#editor [name=group]", group)
    browser.press("#editor button")
    told(browser, f"The note is kept as number {number}.")


def lost(browser, total):
    browser.until(lambda: browser.texts("#lost-total") == [total])
    due("how many comments are lost", browser.texts("#lost-total"), [total])
    return cards(browser, "#lost")


def open_lost(browser, total):
    """Presses for the lost comments, as they are now."""
    browser.run("closeLost()")
    browser.press("#more-lost")
    return lost(browser, total)


def comments_on_annotations(browser, other):
    other.open("about:blank")
    other.open("file://" + PAGE)
    connect(other)
    due("each comment, its words, and how they were found", choose(other, 1, "🦢", "8 comments."), [
        ["Ardea cinerea.", "… grey herons …", STATES["exact"]],
        ["Both texts have it.", "… st …", STATES["2"]],
        ["The same birds.", "… Reiher …", STATES["1"]],
        ["A drawing, and a number.", "… 🦢 Two …", STATES["1"]],
        ["Who wrote this?", STATES["whole"]],
        ["The old lock.", "… the lock …", STATES["exact"]],
        ["All of them.", "… grey herons stood …", STATES["exact"]],
        ["No egret, surely.", "… white egret …", STATES["lost"]]])
    due("the marks are exact, though an emoji stands before them, and lie over each other",
        marks(other), "🦢 Two [4, found] grey  herons [1, exact]   st [2, found] ood [7, exact]"
        " the lock [6, exact] Reiher [3, found] st [2, found]")
    due("the texts are the annotation's", other.texts("#texts h4"), ["Text 1 of 2", "Text 2 of 2"])
    due("a mark names its comments for those who hear the page", other.run(
        "return document.querySelectorAll('#texts mark')[2].getAttribute('aria-details')"),
        "comment-7 comment-1")
    picture(other, "comments")
    due("a comment is found", search(other, "cinerea")[0], "1 annotation fits.")
    due("its hit leads to what it is on", other.texts("#hits a"), ["a comment on an annotation"])
    moved_comments(browser, other)
    lost_comments(browser, other)
    many_comments(other)


def moved_comments(browser, other):
    browser.open(ORIGIN)
    connect(browser, VERA, "viewer-vera")
    choose(browser, 1, "🦢", "8 comments.")
    browser.press("#notes .card:first-child button")
    rewrite(browser, "🦢🦢 The two grey herons stood by the lock.", "public", 2)
    moved = [state for *_, state in comments(browser, "8 comments.")]
    due("comments after their text was changed", moved, [STATES[state] for state in [
        "moved", "2", "1", "1", "whole", "moved", "moved", "lost"]])
    due("others see them so when they ask again", [state for *_, state in comments_again(
        other, "8 comments.")], moved)
    due("the words are marked where they stand now", marks(other),
        "🦢🦢 Th [4, found] grey  herons [1, moved]   st [2, found] ood [7, moved]"
        " the lock [6, moved] Reiher [3, found] st [2, found]")
    picture(other, "comments-moved")


def lost_comments(browser, other):
    rewrite(browser, "Two swans.", "public", 3)
    due("what is lost for a reader of all", open_lost(browser, "4 comments."), [
        ["Ardea cinerea.", "… grey herons …"], ["The old lock.", "… the lock …"],
        ["All of them.", "… grey herons stood …"], ["No egret, surely.", "… white egret …"]])
    due("for others also a comment on what they can't read", open_lost(other, "5 comments.")[-1],
        ["He did know.", "… harbour master …"])
    picture(other, "comments-lost")
    other.press("#lost .card:last-child a")
    comments(other, "It isn't there, or isn't shown to you. (404 absent)")
    rewrite(browser, "Two swans.", "viewer-desk", 4)
    other.press("#lost .card:first-child a")
    comments(other, "It was deleted, or isn't shown to you any more. (410 gone)")
    due("nothing of it is shown", other.texts("#texts p") + other.texts("#comments .card"), [])
    due("a comment on the whole of a hidden annotation", open_lost(other, "9 comments.")[4],
        ["Who wrote this?", STATES["whole"]])
    picture(other, "annotation-hidden")
    due("its owner's comments are there", len(comments_again(browser, "8 comments.")), 8)


def many_comments(browser):
    due("the first page", len(choose(browser, 2, "a b c", "22 comments.")), 20)
    browser.press("#more-comments")
    browser.until(lambda: len(browser.texts("#comments .card")) == 22)
    due("the second page", [card[1] for card in comments(browser, "22 comments.")[-2:]],
        ["… u …", "… v …"])
    due("all are marked", len(browser.texts("#texts mark")), 22)
    due("there is no third", hidden(browser, "#more-comments"), True)


def refused_readers(browser):
    connect(browser, "nobody-has-this-token")
    told(browser, "The token is no reader's. Check it, or leave it out to read as anybody."
         " (401 not_signed)")
    picture(browser, "token-refused")
    connect(browser, "viewer-olaf-token", "viewer-olaf")
    open_log(browser)
    browser.type("#editor [name=text]", "I was here.")
    browser.press("#editor button")
    told(browser, "You may read here, but not write. (403 not_writer)")
    browser.type("#connect [name=server]", "http://127.0.0.1:1")
    browser.press("#connect button")
    told(browser, "The server can't be reached at this address.")


def tab_to(browser, test):
    """Goes on by the tabulator until an element with the focus passes the test."""
    for _ in range(400):
        browser.keys("tab")
        if browser.run(f"const e = document.activeElement; return !!({test})"):
            return
    due(f"the tabulator comes to {test}", False, True)


def keyboard_alone(browser):
    browser.open("about:blank")
    browser.open("file://" + PAGE)
    tab_to(browser, "e.name === 'server'")
    browser.run("document.activeElement.select()")
    browser.keys(*SERVER, "tab", *VERA, "tab", *"viewer-vera", "enter")
    browser.until(lambda: "Log of the harbour, for the viewer's test" in
                  browser.texts("#manifests li"))
    tab_to(browser, "e.textContent.startsWith('Log of the harbour, for')")
    browser.keys("enter")
    browser.until(lambda: browser.texts("#canvas-title") == ["Page 1"])
    tab_to(browser, "e.matches('#search [name=q]')")
    browser.keys(*"sand")
    browser.until(lambda: browser.texts("#words li") != [])
    browser.keys("down", "enter")
    browser.until(lambda: browser.texts("#total") == ["2 annotations fit."])
    due("a search by keys", browser.texts("#total"), ["2 annotations fit."])
    tab_to(browser, "e.matches('#hits a')")
    browser.keys("enter")
    due("a hit by keys", region(browser), "100,200,300,150")
    tab_to(browser, "e.name === 'text'")
    browser.keys(*"A note by keys.", "tab", *"10,20,30,40")
    tab_to(browser, "e.textContent === 'Save'")
    browser.keys("enter")
    told(browser, "The note is kept as number 1.")
    picture(browser, "keyboard-note")
    tab_to(browser, "e.id === 'delete'")
    browser.keys("enter")
    told(browser, "The note is deleted, by number 2.")


def lightness(browser, selector, part):
    return browser.run("return getComputedStyle(document.querySelector(arguments[0]))"
                       "[arguments[1]].match(/\\d+/g).slice(0, 3).map(Number)"
                       ".reduce((a, b) => a + b) / 3", selector, part)


def dark_phone(browser):
    browser.told("Emulation.setDeviceMetricsOverride", width=390, height=844, deviceScaleFactor=1,
                 mobile=True)
    browser.open(ORIGIN)
    connect(browser, VERA, "viewer-vera")
    open_log(browser, 2)
    search(browser, "sandpiper")
    gather(browser, "sandpiper")
    due("a phone's width is enough",
        browser.run("return document.documentElement.scrollWidth"), 390)
    picture(browser, "phone")
    choose(browser, 2, "a b c", "22 comments.")
    due("a phone's width is enough for comments",
        browser.run("return document.documentElement.scrollWidth"), 390)
    browser.run("document.querySelector('#comments-part').scrollIntoView()")
    picture(browser, "phone-comments")
    open_log(browser, 2)
    search(browser, "sandpiper")
    browser.run("document.querySelector('#search-part').scrollIntoView()")
    picture(browser, "phone-search")
    browser.told("Emulation.setEmulatedMedia",
                 features=[{"name": "prefers-color-scheme", "value": "dark"}])
    due("the ground is dark in the dark", lightness(browser, "body", "backgroundColor") < 60, True)
    due("the text is light in the dark", lightness(browser, "body", "color") > 180, True)
    picture(browser, "phone-dark")
    browser.told("Emulation.clearDeviceMetricsOverride")
    browser.run("scrollTo(0, 0)")
    picture(browser, "dark")


def main():
    browser = Browser(int(PORT))
    other = Browser(int(PORT) + 1)
    try:
        reading_room(browser)
        anonymous_reader(browser)
        all_manifests(browser)
        member(browser)
        other.open("file://" + PAGE)
        note(browser, other)
        comments_on_annotations(browser, other)
        refused_readers(browser)
        keyboard_alone(browser)
        dark_phone(browser)
    except Exception:
        picture(browser, "stopped-here")
        print(f"told: {browser.texts('#told')}")
        raise
    finally:
        browser.close()
        other.close()
    print(f"{asked} asked, {wrong} wrong")
    sys.exit(1 if wrong else 0)


main()
