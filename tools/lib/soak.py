"""Reads random streams by the C library for as long as you like, on all cores, and compares what it says with both models.

    tools/soak                              a minute, by the archive in prebuilt/
    tools/soak --minutes 480 --seed 7 FILE  eight hours, with real files
    tools/soak --archive FILE --jobs 1      another archive, on one core

A stream is a random one, a module with items, a FILE or a part of it, two of these joined at random places, or any of them with bytes changed, cut off or put
in. Each is listed whole with its items and some features, stripped, edited, and read in three random cuttings, by a feeder and by a parser. Callers are built with
sanitizers, and the bytes of each call end before a page that nothing may read. The same streams are then read by random calls in any order
(tools/lib/sequences.c), and some are listed by `wasm_list` in little memory, and read in chunks by `test_rows` if it is built. Each difference is made smaller
and printed as bytes.
"""
import contextlib
import itertools
import multiprocessing
import os
import random
import re
import resource
import signal
import struct
import subprocess
import tempfile
import time

import common
import comparing
import modelled
import pieces
import programs
import sequences
import test_c
from compare_streams import chunks_differ, listing_differs
from modules import stream_of
from streams import random_bytes, some_stream

SOURCE = os.path.join(common.LIB, "soak.c")
EXAMPLES = os.path.join(test_c.CRATE, "examples")
ARCHIVE = os.path.join(common.PREBUILT, "libpulleynavy-x86_64.a")
# How many streams a round has, how many of them may end the driver, and how many bytes are taken of a file.
ROUND, CRASHES, LARGEST = 2000, 3, 30000
# The kinds of edits in the order of their numbers, names of edits, and how many bytes of a stream are the data of its edit.
KINDS, NAMES, MOST_DATA = ("append", "replace", "remove", "keep"), (b"name", b"", b"x", b"a", b"linking", b"no section"), 20
# What the program may map beside the stream: its own text, the C library, a chunk and a page of lines.
ROOM = 12 << 20

# ---- streams


def mutated(rng, data):
    """The stream with some bytes changed, put in, taken out, cut off or put after it."""
    out = bytearray(data)
    for _ in range(rng.choice([1, 1, 1, 2, 3, 10])):
        place, how = rng.randrange(len(out) + 1), rng.random()
        if how < 0.4 and place < len(out):
            out[place] = rng.choice([0, 1, 3, 10, 11, 12, 127, 128, 255, rng.randrange(256), out[place] ^ 1 << rng.randrange(8)])
        elif how < 0.6:
            out[place:place] = random_bytes(rng, rng.randrange(1, 9))
        elif how < 0.8:
            del out[place : place + rng.randrange(1, 9)]
        elif how < 0.9:
            del out[place:]
        else:
            out += bytes(rng.randrange(300)) if rng.random() < 0.5 else some_stream(rng)[8:]
    return bytes(out)


def source(rng, files):
    """A random stream, a module with items, a file, or a part of one."""
    data = rng.choice(files) if files and rng.random() < 0.4 else rng.choice((some_stream, stream_of))(rng)
    start = rng.randrange(max(1, len(data) - LARGEST)) if rng.random() < 0.5 else 0
    return data if len(data) <= LARGEST else data[:8] * bool(start) + data[start : start + rng.randrange(LARGEST)]


def spliced(rng, files):
    """A source, or two that are joined at random places, often with some bytes changed."""
    data = source(rng, files)
    if rng.random() < 0.2:
        other = source(rng, files)
        data = data[: rng.randrange(len(data) + 1)] + other[rng.randrange(len(other) + 1) :]
    return mutated(rng, data) if rng.random() < 0.5 else data


def cuttings(stream, way):
    """The offsets and the chunks in which a stream is read. A number, its way, decides them, so that they stay alike while it is made smaller."""
    rng = random.Random(way)
    size = rng.choice([1, 1, 2, 3, 7, 16, 100] if len(stream) < 400 else [7, 16, 100, 1000])
    equal = [stream[place : place + size] for place in range(0, len(stream), size)]
    offset = rng.choice([0, 0, 7, 1000, 70000, (1 << 64) - 65 - 4 * len(stream)])
    return [(0, pieces.cut(rng, stream)), (offset, pieces.with_empty(rng, pieces.cut(rng, stream))), (offset, equal)]


# ---- what the driver says, and the models


def numbers(*values):
    return struct.pack("<%dQ" % len(values), *values)


def features_of(way):
    """The features that a stream is read with, mostly all of them."""
    return (3, 3, 3, 2, 1, 0)[way % 6]


def edit_of(way):
    """The kind of an edit and its name."""
    return KINDS[way % 4], NAMES[way // 4 % len(NAMES)]


def case(stream, way):
    """A stream and its cuttings, as the driver reads them."""
    cut = b"".join(numbers(offset, len(chunks), *map(len, chunks)) for offset, chunks in cuttings(stream, way))
    kind, name = edit_of(way)
    edit = numbers(KINDS.index(kind), len(name)) + name
    return numbers(1 + way % 64, features_of(way), len(stream), 3) + stream + edit + cut


def said(driver, cases):
    """The text that the driver prints of each case. If it fails, the text of the last one says how, and the others have none."""
    if not cases:
        return []
    done = subprocess.run([driver], input=b"".join(case(*one) for one in cases), stdout=subprocess.PIPE, stderr=subprocess.PIPE, timeout=3600)
    *texts, last = done.stdout.decode(errors="replace").split("\n\n")
    if done.returncode:
        texts.append("%s\nstatus %d %s" % (last, done.returncode, done.stderr.decode(errors="replace")[:1500]))
    return texts


def wanted_of(model, stream, way):
    """What the models say: the lines and items of a stream, its bytes when it is stripped and edited, or its fault again, and each step of a feeder."""
    lines = modelled.without_ranges(modelled.listed(stream, features_of(way)))
    changed = [model.strip(stream), model.strip(stream, True), model.edit(stream, *edit_of(way), stream[:MOST_DATA])]
    lines += [lines[-1] if lines[-1].startswith("fault") else data.hex() for data in changed]
    for offset, chunks in cuttings(stream, way):
        for line, _, held, _ in model.steps(chunks, offset):
            lines += [line, "%d" % held]
    return "\n".join(lines)


def differences(driver, model, cases):
    """What differs of each case, or None. After some that end the driver the others are left out."""
    found = []
    for _ in range(CRASHES):
        rest = cases[len(found) :]
        pairs = [(text, wanted_of(model, *one)) for one, text in zip(rest, said(driver, rest))]
        found += [text != wanted and common.first_difference(text.split("\n"), wanted.split("\n")) or None for text, wanted in pairs]
    return found + [None] * (len(cases) - len(found))


def sequences_differ(program, streams, seed, seconds=0):
    """What differs if streams are read by random calls, or None, and how many calls were made."""
    with tempfile.NamedTemporaryFile() as file:
        done = test_c.run([program, str(seed), str(seconds), sequences.with_sizes(file.name, streams)])
    text = done.stdout.decode(errors="replace")
    made = re.search(r"(\d+) calls", text)
    return (text[:2000] if done.returncode or not made else None), int(made[1]) if made else 0


# ---- rounds


def programs_differ(model, streams):
    """What differs of the programs in Rattle: of some streams the events in chunks, and the listing in little memory."""
    rows = programs.path_of("test_rows")
    if os.access(rows, os.X_OK):
        yield from zip(streams[::10], chunks_differ([rows], model, streams[::10]))
    words = programs.command("list")
    for stream in streams[::100]:
        size = ROOM + 4 * len(stream)
        limit = lambda: resource.setrlimit(resource.RLIMIT_AS, (size, size))
        yield stream, listing_differs(words, model, stream, preexec_fn=limit)


def soaked(task):
    """A round: how many bytes and calls it has, and each stream that differs, with its way and what makes it differ."""
    seed, driver, caller, path, files = task
    rng, model = random.Random(seed), common.load(path)
    cases = [(spliced(rng, files), rng.getrandbits(16)) for _ in range(ROUND)]
    streams = [stream for stream, _ in cases]
    found = [(*one, text) for one, text in zip(cases, differences(driver, model, cases)) if text]
    found += [(stream, 0, text) for stream, text in programs_differ(model, streams) if text]
    number = rng.getrandbits(32)
    text, calls = sequences_differ(caller, streams, number, 1)
    if text:
        alone = (stream for stream in streams if sequences_differ(caller, [stream], number)[0])
        found.append((next(alone, b""), 0, "seed %d of sequences.c: %s" % (number, text)))
    return sum(map(len, streams)), calls, found


def smaller(driver, caller, model, data, way, text):
    """The smallest stream that differs as this one does, and what differs of it."""
    seed = re.match(r"seed (\d+) of sequences.c", text)
    tries = [lambda data: differences(driver, model, [(data, way)])[0], lambda data: next((said for _, said in programs_differ(model, [data]) if said), None)]
    tries += [lambda data: sequences_differ(caller, [data], seed[1])[0]] if seed else []
    differs = next((one for one in tries if one(data)), None)
    data = comparing.smallest(data, differs) if differs else data
    return data, differs(data) if differs else text


def built(folder, archive):
    """The driver and the program of random calls, by the first compiler here, with sanitizers if this machine has them. None without a compiler."""
    sequences.written(folder)
    for c, _ in test_c.compilers():
        for flags in reversed(list(test_c.kinds_of_flags(folder, c))):
            more = [*flags, "-I" + folder, "-I" + EXAMPLES]
            return [test_c.compiled(folder, c, source, "c11", more, archive, "soak") for source in (SOURCE, sequences.SOURCE)]
    return None


def rounds(given, jobs, made):
    """What each round has and finds, until the time is over."""
    end, files = time.time() + 60 * given.minutes, list(common.modules_of(given.files))
    with multiprocessing.Pool(jobs, signal.signal, (signal.SIGINT, signal.SIG_IGN)) as pool:
        for number in itertools.count(0, jobs):
            yield from pool.map(soaked, [("%d-%d" % (given.seed, number + job), *made, given.model, files) for job in range(jobs)], 1)
            if time.time() >= end:
                return


def main():
    cores = len(os.sched_getaffinity(0))
    more = [
        ("--minutes", {"metavar": "N", "type": float, "default": 1, "help": "how long (1)"}),
        ("--jobs", {"metavar": "N", "type": common.whole, "default": cores, "help": "how many processes (%d)" % cores}),
        ("--seed", {"metavar": "S", "type": common.whole, "default": 1, "help": "the seed (1)"}),
        ("--archive", {"metavar": "FILE", "type": common.existing, "default": ARCHIVE, "help": "the library, instead of that in prebuilt/"}),
    ]
    given = comparing.arguments(__doc__, None, common.MODEL, more=more, files=True)
    streams = size = calls = differ = 0
    # Interrupted, it still says what it did.
    with tempfile.TemporaryDirectory() as folder, contextlib.suppress(KeyboardInterrupt):
        made = built(folder, given.archive)
        if not made:
            return 0
        for read, called, found in rounds(given, max(1, given.jobs), made):
            for data, way, text in found[: max(0, common.SHOWN - differ)]:
                data, text = smaller(*made, given.known, data, way, text)
                print("DIFFERS %s (way %d)\n  %s" % (data.hex(), way, text), flush=True)
            streams, size, calls, differ = streams + ROUND, size + read, calls + called, differ + len(found)
    print("%d streams of %d bytes, %d cuttings, %d random calls, %d differ (seed %d)" % (streams, size, 3 * streams, calls, differ, given.seed))
    return common.DIFFERS if differ else 0
