"""Tests the page in headless Chromium and Firefox: what it shows and saves, its keys, names, contrast and width, and that it makes no requests.

    tools/try page                   everything, with 20 random streams from seed 1
    tools/try page 7 100             100 random streams, from seed 7
    tools/try page --wasm FILE       the module FILE, instead of one that tools/build_targets builds

What the page shows of a stream is compared with the lines of a model or of tools/golden.jsonl. What a machine lacks (Chromium and its
driver, Firefox, esbuild, wasm-opt) is reported in one line, and the rest is done.
"""
import contextlib
import functools
import http.server
import os
import random
import re
import tempfile
import threading
import time
import unicodedata

import browsers
import common
import programs
from browsers import waited
from common import leb, require
from modules import NAMES, custom, module, named_module, other_names, section, stream_of, text, vector

# The most rows of a stream that is compared, which are all in sight in a window of this height.
MOST_ROWS, TALL, USUAL = 90, 3000, 860
# Each twelfth golden stream is compared, which takes less than half a second.
STRIDE = 12
LEAST_CONTRAST, NARROW = 4.5, 400
# The size of the big file, and for how long, in seconds, the page may not react while it is read.
BIG, LONGEST_PAUSE = 40 * 10**6, 0.5
# For how long, in seconds, a test waits for what the page should show.
LONGEST_WAIT = 10
MODULE = b"\0asm\1\0\0\0"
TYPES = section(1, vector([b"\x60\0\0"]))


def same(found, wanted, what):
    require(found == wanted, "%s\n  page   %s\n  wanted %s" % (what, str(found)[:600], str(wanted)[:600]))


def becomes(find, wanted, what):
    """Waits until `find` returns what is wanted."""
    end = time.time() + LONGEST_WAIT
    found = find()
    while found != wanted and time.time() < end:
        time.sleep(0.05)
        found = find()
    same(found, wanted, what)


# ---- the page

HELPERS = common.read("page", "tests", "page.js")
# The lowest contrast of a visible text with what is behind it, and its place.
CONTRAST = common.read("page", "tests", "contrast.js")
FOCUS_TREE = "$('tree').querySelector('[tabindex=\"0\"]').focus()"
# What is shown if there is no chosen row.
NO_ROW = {"row": -1, "level": 0, "size": 0, "place": 0, "offset": -1, "isOpen": None, "isBad": False, "texts": []}


class Page:
    """The page in a browser."""

    def __init__(self, browser, url):
        self.browser, self.url = browser, url

    def run(self, script, *args):
        return self.browser.run("return (async () => {%s%s})()" % (HELPERS, script), *args)

    def start(self, path=None, anchor=""):
        """Starts anew, perhaps with a file. Returns what the page says of it."""
        self.browser.open("about:blank")
        self.browser.open(self.url + anchor)
        return self.load(path) if path else ""

    def said(self):
        return self.run("return $('said').textContent")

    def load(self, path):
        """Opens a file, and returns what the page says once it has been read."""
        name = os.path.basename(path)
        is_done = "return $('progress').hidden && rows().some(row => row.isChosen) && $('said').textContent.startsWith(arguments[0]) || null"
        self.browser.choose(path)
        waited(lambda: self.run(is_done, name + ":"), "answer for %s" % name)
        return self.said()

    def rows(self):
        return self.run("await pause(60); return rows();")

    def first_texts(self):
        """The first two texts of each row, after all have been opened."""
        return [first_texts(row) for row in self.run("return openAll()")]

    def chosen(self, *names):
        """What the row that is chosen has by these names."""
        row = next((row for row in self.rows() if row["isChosen"]), NO_ROW)
        return [row[name] for name in names]

    def search(self, word):
        """Types a word into the search field, and returns the rows that are found."""
        self.run("$('search').value = arguments[0]; $('search').dispatchEvent(new Event('input'));", word)
        if not word.startswith("0x"):
            waited(lambda: "of “%s”" % word in self.said() or None, "answer of the search")
        return self.rows()

    def press(self, key, focus):
        """Presses a key after this script."""
        self.run(focus)
        self.browser.press(key)

    @contextlib.contextmanager
    def tall(self):
        """Has a window that all rows are in sight in."""
        self.browser.resize(1280, TALL)
        yield
        self.browser.resize(1280, USUAL)


def first_texts(row):
    return " ".join(filter(None, row["texts"][:2]))


# ---- what the page shows of a stream


def expected_rows(lines):
    """The rows of the first two levels for the lines of a model: the level, the offset, and the text of a fault."""
    rows, end = [], 0
    for line in lines:
        words, level = line.split(), 2 if line.startswith("  ") else 1
        if words[0] == "fault":
            rows.append((level, int(words[1]), line.strip().split(" ", 2)[2]))
        elif level == 2 and words[0].isdecimal():
            rows.append((2, int(words[0]), ""))
        elif level == 1 and words[0] != "end":
            rows.append((2 if words[0] == "body" else 1, end, ""))
            end = int(words[3 if words[0] in ("section", "unknown") else 2]) - (int(words[4]) if words[0] == "code" else 0)
    return rows


def shown_rows(rows):
    """The rows of the page in the same form, without those inside custom sections, and the offsets of those."""
    found, inside, is_custom = [], set(), False
    for row in rows:
        is_custom = row["texts"][0] == "custom" if row["level"] == 1 else is_custom
        if row["level"] == 1 or row["level"] == 2 and not is_custom:
            found.append((row["level"], row["offset"], row["texts"][0].replace("fault: ", "") if row["isBad"] else ""))
        elif is_custom:
            inside.add(row["offset"])
    return found, inside


def escaped(name):
    """A name as the page shows it: characters that cannot be seen, or that change others, are escaped."""
    return "".join("\\u{%x}" % ord(one) if unicodedata.category(one) in ("Cc", "Cf", "Cs", "Zl", "Zp") else one for one in name)


def compare(page, path, stream, lines):
    """Compares what the page shows of a stream with the lines of a model. Returns how many rows it has."""
    what, customs = stream.hex()[:400], [line for line in lines if re.match("  x", line)]
    said = page.load(common.write(path, stream))
    rows = page.run("return openAll()") if len(stream) else page.rows()
    found, inside = shown_rows(rows)
    same(found, expected_rows(lines), what)
    names = [row["texts"][1] for row in rows if row["level"] == 1 and row["texts"][0] == "custom"]
    same(names, [escaped(bytes.fromhex(line.split()[0][1:]).decode()) for line in customs], what)
    offsets = {int(number) for number in re.findall(r"[\[ ](\d+):(?=[a-z])", " ".join(customs))}
    same(offsets - inside, set(), "items of custom sections: %s" % what)
    # Of a malformed section of a core dump the model only says that it is unknown.
    faults = len(re.findall(r"\bfault \d+", " ".join(re.sub(r"\bx[0-9a-f]+", "", line) for line in lines)))
    unknown = sum(bool(re.match("  x[0-9a-f]* unknown", line)) for line in customs)
    more = re.search(r"and ([\d,]+) more faults?\.", said)
    shown = 0 if said.endswith("No faults.") else 1 + int(more[1] if more else 0)
    require(faults <= shown <= faults + unknown, "%d faults, not %d: %s: %s" % (shown, faults, said, what))
    return len(rows)


def streams(page, folder, given):
    """The golden streams and random ones, as the page shows them."""
    rng, modelled = random.Random(given.seed), common.load(common.MODEL_OF_ITEMS).listing
    drawn = [stream_of(rng) for _ in range(given.count)]
    rows = common.golden()[::STRIDE] + [(stream, modelled(stream)) for stream in [b"", MODULE[:4], MODULE] + drawn]
    rows = [(stream, lines) for stream, lines in rows if len(lines) + sum(line.count(":") for line in lines) < MOST_ROWS]
    with page.tall():
        page.start()
        total = sum(compare(page, os.path.join(folder, "stream%d.wasm" % number), *row) for number, row in enumerate(rows))
    return "%d streams, %d rows" % (len(rows), total)


# ---- names and bytes


def names(page, folder, path):
    """The names of the name section are on every index. Of two names of an item the first is shown: of two exports, and of two name sections."""
    with page.tall():
        page.start(path)
        found = page.first_texts()
        said = page.run("return rows().map(row => row.texts.slice(0, 3).filter(Boolean).join(' '))")
    for space, (_, words) in NAMES.items():
        for index, word in enumerate(words):
            require("%s %d %s" % (space, index, word) in found, "%s %d has no name %s: %s" % (space, index, word, found))
    for wanted in ("export dice func 2 roll", "export mem memory 0 heap", "start func 1 next", "local 0 sides name", "func 1 next body, 2 bytes"):
        require(wanted in said, "no row %r: %s" % (wanted, said))
    exports = section(7, vector([text(name) + b"\0\0" for name in ("first", "second")]))
    exported = module(TYPES, section(3, vector([b"\0"])), exports, section(10, vector([b"\2\0\x0b"])))
    for stream, wanted in ((exported, "func 0 first"), (named_module() + other_names(), "func 1 next")):
        page.start(common.write(os.path.join(folder, "names.wasm"), stream))
        said = page.first_texts()
        require(wanted in said, "no row %r: %s" % (wanted, said))


def features(page, folder):
    """The features of `target_features` are rows, which say how the module uses each."""
    stream = module(custom("target_features", vector([b"+\4simd", b"-\7atomics", b"=\1x", b"*\1y"])))
    with page.tall():
        page.start(common.write(os.path.join(folder, "features.wasm"), stream))
        said = [" ".join(filter(None, row["texts"][:3])) for row in page.run("return openAll()") if row["level"] > 1]
    same(said, ["simd used", "atomics not allowed beside this file", "x required", "y prefix 42"], "the features of a target")


def letters(page, folder):
    """Each byte is shown in hexadecimal and, if it is a visible character of ASCII, as that."""
    stream = module(custom("all bytes", bytes(range(256))))
    wanted = [["%02x" % byte, chr(byte) if 0x21 <= byte <= 0x7E else "·"] for byte in stream]
    with page.tall():
        page.start(common.write(os.path.join(folder, "letters.wasm"), stream))
        found = page.run("return letters(arguments[0])", len(stream))
    same([pair for pair in zip(found, wanted) if pair[0] != pair[1]], [], "the letters of bytes")


def highlighted(page, path):
    """The bytes of the chosen row are highlighted, and no others. Returns how many rows were looked at."""
    stream = common.read_bytes(path)
    with page.tall():
        page.start(path)
        rows = [row for row in page.run("return openAll()") if row["level"] > 1]
        for row in rows:
            title = page.run("return clicked(...arguments)", row["row"], row["offset"])
            start, end = (int(number, 16) for number in re.findall(r"0x([0-9a-f]+)", title))
            cells = page.run("return highlighted()")
            same(sorted({at for at, _ in cells}), list(range(start, end)), title)
            same({at for at, word in cells if "%02x" % stream[at] == word}, set(range(start, end)), title)
            same(start, row["offset"], title)
    return "%d highlights" % len(rows)


# ---- keys, names and roles


def keys(page, path):
    """The tree follows the keys of the ARIA pattern, with one row that the tab key stops at."""
    page.start(path)
    page.run(FOCUS_TREE)
    focused = "return Number(document.activeElement.dataset.row)"
    last = int(page.run("return $('tree').querySelector('[aria-level=\"1\"]').ariaSetSize")) - 1
    steps = [("Home", 0), ("ArrowDown", 1), ("ArrowRight", 1), ("ArrowRight", 2), ("ArrowDown", 3), ("ArrowUp", 2), ("ArrowLeft", 1),
             ("ArrowLeft", 1), ("ArrowDown", 2), ("End", last), ("ArrowDown", last), ("Home", 0), ("ArrowUp", 0)]
    for key, wanted in steps:
        page.browser.press(key)
        becomes(lambda: page.chosen("row"), [wanted], "the row after %s" % key)
        becomes(lambda: page.run(focused), wanted, "the focus after %s" % key)
        same([row["row"] for row in page.rows() if row["stops"]], [wanted], "where the tab key stops")
    for key, is_open in (("ArrowDown", "false"), ("Enter", "true"), (" ", "false")):
        page.browser.press(key)
        becomes(lambda: page.chosen("row", "isOpen"), [1, is_open], "the row after %s" % key)
    rows = page.rows()
    places = [(row["level"], row["size"], row["place"]) for row in rows]
    same(places, [(1, len(rows), i + 1) for i in range(len(rows))], "places in the tree")
    page.browser.press("ArrowRight", "ArrowRight")
    becomes(lambda: page.chosen("row", "level", "place"), [2, 2, 1], "the first item")
    [size], count = page.chosen("size"), sum(row["level"] == 2 for row in page.rows())
    same(min(size, count), count, "the number of items")
    page.browser.press("Tab")
    page.browser.press("Shift+Tab")
    same(page.run(focused), 2, "the focus after Tab and Shift+Tab")


CONTROLS = "button, input, select, [role], [tabindex], progress, dl"
ROLES = {"#tree": "tree", "#tree .row": "treeitem", "#bar": "toolbar", "#bar button": "button", "#said": "status"}


def labels(page):
    """Every control has an accessible name, and the browser sees the roles."""
    # The rows are drawn again when these take room.
    page.run("for (const id of ['progress', 'next', 'none', 'section']) $(id).hidden = false; await pause(200);")
    seen = "return [...document.querySelectorAll(arguments[0])].filter(it => it.checkVisibility() && it.role !== 'none')"
    found = [one[browsers.ELEMENT] for one in page.run(seen, CONTROLS)]
    for element in found:
        if page.browser.send_to(element, "computedrole") != "status" and not page.browser.send_to(element, "computedlabel").strip():
            html = page.browser.run("return arguments[0].outerHTML.slice(0, 200)", {browsers.ELEMENT: element})
            raise common.Failed("no accessible name: %s" % html)
    for selector, role in ROLES.items():
        same(page.browser.send_to(page.browser.element(selector), "computedrole"), role, selector)
    return "%d names of controls" % len(found)


def contrast(page, paths):
    """The lowest contrast in both themes, with each file."""
    lowest = [99, ""]
    for path in [None, *paths]:
        said = page.start(path)
        page.run("$('section').hidden = false")
        for theme in ("light", "dark"):
            page.run("$('theme').value = arguments[0]; $('theme').dispatchEvent(new Event('change')); await pause(50);", theme)
            lowest = min(lowest, page.run(CONTRAST))
            require(lowest[0] >= LEAST_CONTRAST, "contrast %.2f (%s, %s): %s" % (lowest[0], theme, said, lowest[1]))
    return "contrast %.2f" % lowest[0]


def narrow(page, folder, path):
    """Nothing is cut off in a frame of 400 pixels."""
    browser, outer = page.browser, os.path.join(folder, "narrow.html")
    style = "width: %dpx; height: 850px; border: 0" % NARROW
    common.write(outer, "<!doctype html><body style='margin: 0'><iframe src='%s' style='%s'></iframe>" % (page.url, style))
    browser.open("file://" + outer)
    frame = browser.element("iframe")
    browser.send("frame", {"id": {browsers.ELEMENT: frame}} if browser.name == "Chromium" else {"element": frame})
    page.load(path)
    page.run("$('section').hidden = false")
    excess = page.run("const it = document.documentElement; return [innerWidth, it.scrollWidth - it.clientWidth]")
    same(excess, [NARROW, 0], "the width of the page")
    same(page.run("return cutOff()"), [], "what is cut off")
    same(page.run("const it = $('hex').querySelector('.list > div'); return it.scrollWidth <= it.clientWidth"), True, "a row of bytes fits")


# ---- faults, links, search and saving


def faults(page, path):
    """Each fault is red where it occurs, in the tree and in the bytes, which then are in sight."""
    page.start(path)
    lines = common.load(common.MODEL_OF_ITEMS).listing(common.read_bytes(path))
    for _, offset, said in [row for row in expected_rows(lines) if row[2]]:
        becomes(lambda: [*page.chosen("offset", "isBad"), *page.chosen("texts")[0][:1]], [offset, True, "fault: " + said], "the fault that is chosen")
        becomes(lambda: page.run("return isFaultInSight(arguments[0])", offset), True, "the byte of the fault at %d" % offset)
        page.run("$('next').click()")


def links(page, path):
    """A link to an offset chooses the item that has it, and the address follows what is chosen."""
    function = named_module().index(b"\2\0\x0b\4\0\x20\0\x0b")
    for offset, wanted in ((function, ["func 1", "next"]), (function + 4, ["func 2", "roll"])):
        page.start(path, "#0x%x" % offset)
        becomes(lambda: page.chosen("texts")[0][:2], wanted, "the link to %d" % offset)
    page.run("location.hash = '#0'")
    becomes(lambda: page.chosen("row"), [0], "the link to 0")
    page.press("ArrowDown", FOCUS_TREE)
    becomes(lambda: page.run("return location.hash"), "#0x8", "the address after a key")


def search(page, path):
    page.start(path)
    same([first_texts(row) for row in page.search("ROLL")][:2], ["func 2 roll", "func 2 roll"], "a search")
    same(page.said(), "3 matches of “ROLL”", "what a search says")
    same(page.search("no such name"), [], "a search without a match")
    same(page.run("return $('none').checkVisibility()"), True, "what says that there is no match")
    page.press("Escape", "$('search').focus()")
    becomes(lambda: sum(row["level"] == 1 for row in page.rows()), 16, "the rows after Escape")
    page.search("0x9")
    page.press("Enter", "$('search').focus()")
    becomes(lambda: page.chosen("offset"), [8], "the row of an offset")


def saved_by(page, button, path):
    """The bytes that a button saves to a file. Chromium saves a second file only after a key or a click of the user."""
    page.press("Enter", "$('%s').focus()" % button)
    waited(lambda: os.path.exists(path) and os.path.getsize(path) > 0 or None, "saved file")
    found = common.read_bytes(path)
    os.remove(path)
    return found


def saving(page, folder, path):
    """What is saved is what the model strips: without names, and with them if that is ticked."""
    page.start(path)
    model, saved = common.load(common.MODEL), os.path.join(folder, "named.stripped.wasm")
    for keeps_names in (False, True, False):
        page.run("if ($('keep').checked !== arguments[0]) $('keep').click()", keeps_names)
        wanted = model.strip(named_module(), keeps_names)
        same(saved_by(page, "strip", saved), wanted, "the saved file, %s names" % ("with" if keeps_names else "without"))


# ---- custom sections


class Edited:
    """The page with a module of which custom sections are edited."""

    NEW = bytes(range(256))

    def __init__(self, page, folder, stream):
        self.page, self.folder, self.data = page, folder, common.write(os.path.join(folder, "new data"), self.NEW)
        page.start(common.write(os.path.join(folder, "edits.wasm"), stream))

    def choose(self, name):
        """Gives the data to an input, which may have it already."""
        self.page.run("$(arguments[0]).value = ''", name)
        self.page.browser.choose(self.data, "#" + name)

    def select(self, row):
        """Selects a custom section by the number of its row."""
        self.page.run("document.querySelector(`.row[data-row='${arguments[0]}']`).click()", row)
        becomes(lambda: self.page.run("return selected(arguments[0])", row), True, "the buttons of row %d" % row)

    def becomes(self, stream, offset, what):
        """The module is this one now, and the row at an offset is selected. It can be saved."""
        said = "edits.wasm, edited: %d bytes" % len(stream)
        becomes(lambda: self.page.said()[: len(said)], said, what)
        becomes(lambda: self.page.chosen("offset"), [offset], what)
        same(saved_by(self.page, "save", os.path.join(self.folder, "edits.edited.wasm")), stream, what)


def editing(page, folder):
    """A custom section is saved, replaced, removed and added. The other sections keep their bytes."""
    first, last = custom("a/b", b"xyz"), custom("a/b", b"\0")
    it = Edited(page, folder, module(first, TYPES, custom("", b""), last))
    same(page.run("return [$('save').disabled, $('section').hidden]"), [True, True], "the buttons before an edit")
    it.select(1)
    same(saved_by(page, "data", os.path.join(folder, "edits.a_b.bin")), b"xyz", "the data of a section")
    it.choose("replace")
    first = custom("a/b", it.NEW)
    it.becomes(module(first, TYPES, custom("", b""), last), 8, "a section that is replaced")
    it.select(4)
    page.press("Enter", "$('remove').focus()")
    kept = module(first, TYPES, custom("", b""))
    it.becomes(kept, len(kept) - 3, "a section that is removed")
    for name, wanted in (("\u03b1", "\u03b1"), ("", os.path.basename(it.data))):
        page.run("$('name').value = arguments[0]", name)
        it.choose("add")
        kept += custom(wanted, it.NEW)
        it.becomes(kept, len(kept) - len(custom(wanted, it.NEW)), "a section that is added")
    page.run("$('name').value = 'a'.repeat(100_001)")
    it.choose("add")
    becomes(lambda: page.said()[:11], "Not added: ", "a section that is too large")
    # A file that is dropped on the input of a new section is added, and one that is dropped elsewhere is opened.
    page.run("$('name').value = ''; drop($('add').parentElement, 'b', [7])")
    becomes(lambda: page.rows()[-1]["texts"][1], "b", "a section that is dropped")
    page.run("drop(document.body, 'b.wasm', [0, 97, 115, 109, 1, 0, 0, 0])")
    becomes(lambda: page.said()[:16], "b.wasm: 8 bytes,", "a module that is dropped")
    Edited(page, folder, MODULE + b"\xff")
    same(page.run("return ['add', 'name', 'strip', 'save'].map(id => $(id).disabled)"), [True] * 4, "what is disabled")


# ---- big files


def big(page, folder):
    """A module of 40 MB with 40,000 bodies and names is shown soon, and the page reacts meanwhile. Returns the times."""
    count = 40_000
    body = b"\0" + b"\1" * (BIG // count - 30)
    bodies = vector([leb(len(body) + 1) + body + b"\x0b"] * count)
    exports = vector([text("export%d" % i) + b"\0" + leb(i) for i in range(count)])
    function_names = vector([leb(i) + text("function%d" % i) for i in range(count)])
    code = section(3, vector([b"\0"] * count)), section(7, exports), section(10, bodies)
    stream = module(TYPES, *code, custom("name", section(1, function_names)))
    path = common.write(os.path.join(folder, "big.wasm"), stream)
    page.start()
    page.run("measure()")
    began = time.time()
    said = page.load(path)
    took = time.time() - began
    longest = page.run("return window.longest") / 1000
    same(said.endswith("No faults."), True, said)
    require(longest <= LONGEST_PAUSE, "the page did not react for %.2f s" % longest)
    last = ["func %d" % (count - 1), "function%d" % (count - 1)]
    same([row["texts"][:2] for row in page.search(last[1])], [last] * 3, "a search in 40 MB")
    reach(page, len(stream), lambda at: stream[at])
    # The last byte of the last body is before the name section.
    page.run("location.hash = '#' + arguments[0]; await pause(300);", stream.rindex(b"\x0b\0"))
    becomes(lambda: [*page.chosen("level", "place", "size"), *page.chosen("texts")[0][:2]], [2, count, count, *last], "the last body")
    page.press("End", FOCUS_TREE)
    becomes(lambda: page.chosen("texts")[0][:3], [*last, "name"], "the last row, which is its name")
    return "%.1f MB in %.2f s (pause %.0f ms)" % (len(stream) / 1e6, took, 1000 * longest)


def reach(page, size, byte_at):
    """The hex view reaches its first and last bytes, and those of some offsets, exactly."""
    to_offset = "location.hash = '#' + %d; await pause(300);"
    to_end = "await pause(300); $('hex').scrollTop = $('hex').scrollHeight; await pause(300);"
    places = [(size - 1, to_end), (0, "$('hex').scrollTop = 0; await pause(300);")]
    places += [(offset, to_offset % offset) for offset in (size // 3, size - 5000, size // 2 + 12345)]
    places.append((size // 2 + 12345, """$('hex').dispatchEvent(new WheelEvent('wheel', { deltaY: 40, cancelable: true })); await pause(100);
        if ($('hex').scrollHeight < 7e6) $('hex').scrollTop += 40; await pause(200);"""))
    for offset, script in places:
        page.run(script)
        same(page.run("return byteInSight(arguments[0])", offset), ["%02x" % byte_at(offset), True], "the byte at %d" % offset)


def huge(page, folder):
    """Every byte of a file of 4 GB can be reached. After its header it has a fault, and holes."""
    path, size = os.path.join(folder, "huge.wasm"), 2**32
    with open(path, "wb") as file:
        file.write(MODULE + b"\xff")
        file.truncate(size)
        file.seek(size - 1)
        file.write(b"\x5a")
    page.start()
    began = time.time()
    page.load(path)
    took = time.time() - began
    reach(page, size, lambda at: 0x5A if at == size - 1 else (MODULE + b"\xff")[at] if at < 9 else 0)
    os.remove(path)
    return "4 GB in %.2f s" % took


# ---- requests


class Handler(http.server.SimpleHTTPRequestHandler):
    """Serves a folder, and keeps what was requested."""

    extensions_map = {".js": "text/javascript", ".wasm": "application/wasm", ".css": "text/css", ".html": "text/html", "": "text/plain"}

    def log_request(self, code="-", size="-"):
        self.server.requested.append((self.path, int(code)))

    def log_message(self, *words):
        """Says nothing."""


def served(browser, folder, path):
    """Over HTTP the page requests its own files, and nothing while it is used."""
    server = http.server.ThreadingHTTPServer(("127.0.0.1", 0), functools.partial(Handler, directory=folder))
    server.requested = []
    threading.Thread(target=server.serve_forever, daemon=True).start()
    try:
        page = Page(browser, "http://127.0.0.1:%d/index.html" % server.server_port)
        search(page, path)
        requested, count = {path for path, _ in server.requested}, len(server.requested)
        same({code for _, code in server.requested} - {200, 304}, set(), "statuses")
        same(requested, {"/" + name for name in os.listdir(folder)}, "what is requested")
        page.load(path)
        page.run("$('strip').click(); await pause(200);")
        # The worker is started again for each file.
        same({path for path, _ in server.requested[count:]} - requested, set(), "what is requested later")
    finally:
        server.shutdown()
        server.server_close()


def quiet(page):
    """The page that is one file has requested nothing, and there were no errors."""
    asked = page.run("return performance.getEntriesByType('resource').map(it => it.name).filter(name => !/^(blob|data):/.test(name))")
    same(asked, [], "requests")
    same(page.browser.errors(), [], "errors")


# ---- everything


def tried(browser, given, made, folder):
    """Runs everything in a browser. Returns what to say of it."""
    place, files = made
    page = Page(browser, "file://" + place)
    stream = bytearray(common.read_bytes(given.wasm))
    stream[stream.index(b"\6memory") + 7] = 9
    broken = common.write(os.path.join(folder, "broken.wasm"), stream[:-3000])
    named = common.write(os.path.join(folder, "named.wasm"), named_module())
    browser.resize(1280, USUAL)
    said = [streams(page, folder, given)]
    quiet(page)
    names(page, folder, named)
    features(page, folder)
    letters(page, folder)
    for path in (named, given.wasm):
        keys(page, path)
    said += [labels(page), contrast(page, [named, given.wasm, broken]), highlighted(page, named)]
    faults(page, broken)
    links(page, named)
    search(page, named)
    saving(page, folder, named)
    editing(page, folder)
    said += [big(page, folder), huge(page, folder)]
    quiet(page)
    narrow(page, folder, broken)
    served(browser, files, named)
    same(browser.errors(), [], "errors")
    return "%s %s: %s" % (browser.name, browser.version, ", ".join(said))


def main():
    given, status = common.arguments(__doc__, [("seed", 1), ("count", 20)], wasm="the module with 32-bit memory"), 0
    if not common.found("esbuild"):
        return 0
    with tempfile.TemporaryDirectory() as folder:
        given.wasm = given.wasm or os.path.join(programs.build_targets(folder, "wasm32"), "pulleynavy32.wasm")
        made = common.load(os.path.join(common.TOP, "page", "pack"), "pack").pack(folder, given.wasm)
        for kind in (browsers.Chromium, browsers.Firefox):
            own = os.path.join(folder, kind.name)
            with browsers.started(kind, own) as browser:
                try:
                    if browser:
                        print(tried(browser, given, made, own))
                except (common.Failed, browsers.BrowserError) as failed:
                    print("FAILED %s: %s" % (kind.name, failed))
                    status = common.DIFFERS
    return status
