"""Comparisons of how streams are listed, stripped and read in chunks, with tools/model/model.py."""
import itertools
import os
import random
import select
import shutil
import subprocess
import tempfile
import time

import common
import comparing
import pieces
import programs
import rows
from common import number_at
from streams import some_large_stream, some_stream


def differing(said, wanted):
    """Both in a text, if they differ."""
    return None if said == wanted else "program %s\n  model   %s" % (str(said)[:2000], str(wanted)[:2000])


# ---- listings


def listing_differs(words, model, stream, **options):
    expected = model.reading(stream, 0, True)
    return differing(programs.lines_of(words, stream, **options), (expected, programs.status(expected), b""))


def listings():
    """Lists random streams, and compares the listings with those of a model.

    tools/compare listings            10,000 streams, from seed 1
    tools/compare listings 7 200      200 streams, from seed 7
    """
    differs = lambda given, data: listing_differs(given.command, given.known, data)
    return comparing.random_streams(listings.__doc__, "list", common.MODEL, differs, some_stream, some_large_stream, 10000, False)


# ---- through a pipe


def decided(model, stream):
    """The lines of the events that these bytes decide, and whether the last is among them."""
    *lines, last = [line.rsplit(" ", 1)[0] for line in model.prefix(stream, 0, True)]
    return (lines, False) if last.startswith("need") else (lines + [last], True)


def text(lines):
    return "".join(line + "\n" for line in lines).encode()


def read_until(source, got, size):
    """What was written, once it is as long as this, or after two seconds."""
    end = time.time() + 2
    while len(got) < size and time.time() < end:
        if select.select([source], [], [], 0.5)[0]:
            more = source.read()
            if more == b"":
                break
            got += more or b""
    return got


def piped_differs(words, model, stream):
    child, got = subprocess.Popen(words, stdin=subprocess.PIPE, stdout=subprocess.PIPE, bufsize=0), b""
    os.set_blocking(child.stdout.fileno(), False)
    for place in range(len(stream)):
        child.stdin.write(stream[place : place + 1])
        lines, is_last = decided(model, stream[: place + 1])
        got = read_until(child.stdout, got, len(text(lines)))
        if got != text(lines):
            child.kill()
            child.wait()
            return "after %d bytes: %s" % (place, differing(got, text(lines)))
        if is_last:
            break
    child.stdin.close()
    child.wait()
    return differing(got + (child.stdout.read() or b""), text(model.reading(stream, 0, True)))


def pipe():
    """Gives streams to the listing through a pipe, a byte at a time, and compares each line as it comes with a model.

    tools/compare pipe          for 30 seconds, from seed 1
    tools/compare pipe 7 300    for five minutes, from seed 7

    After each byte the program has written the lines of the events that the bytes so far decide, and no others.
    """
    given = comparing.arguments(pipe.__doc__, "list", common.MODEL, numbers=[("seed", 1), ("seconds", 30)])
    rng, end = random.Random(given.seed), time.time() + given.seconds
    streams = itertools.takewhile(lambda _: time.time() < end, iter(lambda: some_stream(rng)[:3000], None))
    return comparing.compare(given, streams, lambda many: [piped_differs(given.command, given.known, one) for one in many], size=1)


# ---- chunks


def cuttings(stream, has_random):
    """An offset, and the stream in chunks: byte by byte, and if that is wanted in others, also empty ones, which the stream decides."""
    rng, each = random.Random(stream), [stream[i : i + 1] for i in range(len(stream))]
    if not has_random:
        return 0, [each]
    offset = rng.choice([0, 0, 7, 1000, 70000, (1 << 64) - 65 - 4 * len(stream)])
    return offset, [pieces.cut(rng, stream), each, pieces.with_empty(rng, pieces.cut(rng, stream))]


def chunks_differ(words, model, streams, has_random=True):
    """What differs of each stream, read by `read_pieces` and by a feeder in one run of the program."""
    cases, found = [], [None] * len(streams)
    for place, stream in enumerate(streams):
        offset, ways = cuttings(stream, has_random)
        cases += [(place, reader, pieces.joined(way), offset) for way in ways for reader in ("events", "steps")]
    lines = [rows.row_line(*case) for _, *case in cases]
    for (place, *case), line, said in zip(cases, lines, rows.run(words, lines)):
        text = differing(said, pieces.model_lines(model, *case))
        found[place] = found[place] or text and line[:2000] + "  " + text
    return found


def chunks():
    """Reads chunked streams, and compares the events, and each step of a feeder, with a model.

    tools/compare pieces              10,000 random streams, from seed 1
    tools/compare pieces --short 2    all streams that go on from some beginnings by up to 2 bytes, byte by byte

    Each stream is cut at random, byte by byte, and with empty chunks between. Of each step of a feeder the request or the bytes that it consumed
    are compared, what is then held, and what is stored.
    """
    more = [("--short", {"metavar": "DEPTH", "type": common.whole, "help": "short streams instead of random ones"})]
    given = comparing.arguments(chunks.__doc__, "rows", common.MODEL, numbers=[("seed", 1), ("count", 10000)], more=more)
    shorts = (front + more for front, more in given.known.short_streams(given.short or 0))
    streams = comparing.drawn(given, some_stream) if given.short is None else shorts
    return comparing.compare(given, streams, lambda many: chunks_differ(given.command, given.known, many, given.short is None))


# ---- stripping


# Options of strip, and whether a custom section with a name stays.
CHOICES = [
    ([], lambda name: False),
    (["--keep-names"], lambda name: name == b"name"),
    (["--keep", "name", "--keep", "a"], lambda name: name in (b"name", b"a")),
    (["--only", "name"], lambda name: name != b"name"),
    (["--only", "name", "--only", "a", "--keep-names"], lambda name: name != b"a"),
    (["--only", "n*", "--keep", "a*"], lambda name: name.startswith(b"a") or not name.startswith(b"n")),
]


def message(line, path=""):
    """What is said of the fault that a listing ends with, in a file or, without a path, in the standard input."""
    _, offset, said = line.split(" ", 2)
    return ("pulleynavy: %s: 0x%x: %s\n" % (path or "standard input", int(offset), said)).encode()


def strip_differs(given, data):
    """What differs of a stream that is stripped from its input and from a file, which is read twice; the result must list and strip the same."""
    words, model = given.command, given.known
    lines = model.reading(data, 0, True)
    with tempfile.NamedTemporaryFile(suffix=".wasm") as file:
        common.write(file.name, data)
        for options, stays in CHOICES:
            left = model.changed(data, lambda part, name: part if name is None or stays(name) else b"")
            for way, stream in (([], data), ([file.name], b"")):
                wanted = (b"", 1, message(lines[-1], *way)) if programs.status(lines) else (left, 0, b"")
                text = differing(programs.run([*words, *options, *way], stream), wanted)
                if text:
                    return "strip %s %s: %s" % (" ".join(options), "FILE" if way else "", text)
    if programs.status(lines):
        return None
    left = model.strip(data)
    text = differing(programs.run(words, left), (left, 0, b"")) or listing_differs(programs.command("list"), model, left)
    return text or (wabt_differs(words, model, data) if data in given.modules and shutil.which("wasm-strip") else None)


def contents(model, data):
    """The id and the content of each section of a stream without a fault."""
    return [(part[0], part[number_at(part, 1)[1] :]) for part, _ in model.parts(data)]


def wabt_differs(words, model, data):
    """Whether a stripped stream has other sections than wasm-strip leaves, which writes their lengths anew."""
    with tempfile.NamedTemporaryFile(suffix=".wasm") as file:
        common.write(file.name, data)
        done = subprocess.run(["wasm-strip", file.name], stderr=subprocess.PIPE)
        others = common.read_bytes(file.name)
    left = programs.run(words, data)[0]
    is_same = others[:8] == left[:8] and contents(model, others) == contents(model, left)
    return None if is_same and not done.returncode else "wasm-strip leaves other sections, or refuses it: %r" % done.stderr[:200]


def strip():
    """Strips random streams and given files, and compares the results with a model.

    tools/compare strip               2,000 streams, from seed 1
    tools/compare strip 7 0 a.wasm    the modules of a file, also with wasm-strip of wabt, if it is installed

    What is left of a stream is its header and its sections but the custom ones, byte for byte, and those that options keep; of a stream
    with a fault nothing is left, and the fault is reported. What is left must list without a fault, and be left by stripping it again.
    """
    return comparing.random_streams(strip.__doc__, "strip", common.MODEL, strip_differs, some_stream)


# ---- editing

# Names and data of sections that are added: lengths at the ends of one and two bytes among them.
NEW = [("c", b"xyz"), ("", b""), ("name", b"\0\2\1x"), ("a", bytes(124)), ("a", bytes(125)), ("d", bytes(16_380)), ("\u03b1", bytes(range(256)))]


def edited(model, data, added, replaces):
    """A stream without a fault, in which sections are replaced where it has their names, and the others appended."""
    there = {name for _, name in model.parts(data)} if replaces else set()
    new = {name: model.custom(name, content) for name, content in added if name in there}
    appended = [model.custom(name, content) for name, content in added if name not in there]
    return model.changed(data, lambda part, name: new.get(name, part)) + b"".join(appended)


def data_of(part, name):
    """The data of a custom section, which has this name."""
    content = part[number_at(part, 1)[1] :]
    return content[number_at(content, 0)[1] + len(name) :]


def extracts_differ(words, model, names, data):
    """What differs of the data of sections with these names."""
    for name in set(names):
        for index, part in enumerate([part for part, other in model.parts(data) if other == name], 1):
            text = differing(programs.run([*words, "--index=%d" % index, name], data), (data_of(part, name), 0, b""))
            if text:
                return text
    return None


def edit_differs(given, data):
    """What differs of a stream to which sections are added, and of each section that is extracted again."""
    adds, model = given.command, given.known
    lines, rng = model.reading(data, 0, True), random.Random(len(data) + sum(data))
    added, replaces = [(name.encode(), content) for name, content in rng.choices(NEW, k=rng.randrange(1, 4))], rng.random() < 0.5
    wanted = edited(model, data, added, replaces) if programs.status(lines) == 0 else b""
    def told(*path):
        return wanted, programs.status(lines), b"" if wanted else message(lines[-1], *path)

    with tempfile.TemporaryDirectory() as folder:
        words = ["--replace"] * replaces
        for number, (name, content) in enumerate(added):
            words.append("%s=%s" % (name.decode(), common.write(os.path.join(folder, str(number)), content)))
        path = common.write(os.path.join(folder, "a.wasm"), data)
        text = differing(programs.run([*adds, *words, path]), told(path)) or differing(programs.run([*adds, *words, "-"], data), told())
    if text or not wanted:
        return text
    if programs.status(model.reading(wanted, 0, True)):
        return "the edited stream has a fault by the model"
    text = extracts_differ([adds[0], "extract"], model, [name for name, _ in added], wanted)
    return text or (others_differ(adds, data) if data in given.modules else None)


# What must take a module after an edit if it took it before.
READERS = (["wasm-objdump", "-h"], ["llvm-readobj", "--sections"],
           ["node", "-e", "WebAssembly.compile(require('fs').readFileSync(process.argv[1])).catch(() => process.exit(1))"])


def others_differ(adds, data):
    """Whether node, wabt or LLVM refuses a module after an edit that it took before."""
    with tempfile.TemporaryDirectory() as folder:
        before, new = common.write(os.path.join(folder, "a.wasm"), data), common.write(os.path.join(folder, "new"), b"xyz")
        after = common.write(os.path.join(folder, "b.wasm"), programs.run([*adds, "c=" + new, before])[0])
        for words in READERS:
            if shutil.which(words[0]) and programs.run([*words, before])[1] == 0 and programs.run([*words, after])[1]:
                return "%s refuses the edited module" % words[0]
    return None


def edits():
    """Adds custom sections to random streams and given files, extracts them again, and compares the results with a model.

    tools/compare edits               1,000 streams, from seed 1
    tools/compare edits 7 0 a.wasm    the modules of a file, which node, wabt and LLVM must take as before

    An edited stream is its header, its sections, byte for byte except for those that are replaced in their places, and the new sections as
    the standard encodes them. It must have no fault. Of a stream with a fault nothing is written, and the fault is reported.
    """
    return comparing.random_streams(edits.__doc__, "add", common.MODEL, edit_differs, some_stream, count=1000)
