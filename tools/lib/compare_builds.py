"""Compares the programs that cargo builds of the proved sources with those that Rattle's compiler builds, on random streams and mutants."""
import glob
import os
import random
import shutil
import subprocess
import tempfile

import cargo
import common
import pieces
import programs
import rows
import try_cargo
from compare_dumps import some_case
from items import ROWS
from modules import mutants, stream_of
from streams import some_stream

# How many files both programs read in one run.
BATCH = 500
RUNS = (["list"], ["list", "--json"], ["dump", "--bytes", "--names"], ["dump", "--json"], ["check"])


def built(folder):
    """The program that cargo builds of a copy of these sources."""
    clone = os.path.join(folder, "clone")
    cargo.copied(clone)
    common.must(["cargo", "build", "--release", "--offline", "--quiet", "--bin", "pulleynavy", "--target-dir", os.path.join(folder, "target")], folder=clone)
    return os.path.join(folder, "target", "release", "pulleynavy")


def some(rng, count):
    """Streams of three kinds, the same number of each: random, modules with items, and these with changed bytes."""
    streams = [(stream_of if number % 2 else some_stream)(rng) for number in range(2 * count // 3 + 1)]
    return (streams + list(mutants(rng, streams, count)))[:count]


def said(program, words, folder):
    done = subprocess.run([program, *words], cwd=folder, stdin=subprocess.DEVNULL, stdout=subprocess.PIPE, stderr=subprocess.PIPE)
    return done.returncode, done.stdout, done.stderr


def differing(both, folder, streams):
    """The runs of both programs over these streams that differ, each with its first difference."""
    names = ["%04d" % number for number in range(len(streams))]
    for name, stream in zip(names, streams):
        common.write(os.path.join(folder, name), stream)
    for words in [*([*run, *names] for run in RUNS), *(["strip", name] for name in names[::20])]:
        one, other = (said(program, words, folder) for program in both)
        if one != other:
            yield words, one, other


def alone(both, folder, streams, words):
    """The first of these streams for which both programs differ alone."""
    run = words[: next(at for at, word in enumerate(words) if word.isdigit())]
    for stream in streams:
        common.write(os.path.join(folder, "0000"), stream)
        one, other = (said(program, [*run, "0000"], folder) for program in both)
        if one != other:
            return "pulleynavy %s of %s\n  cargo   %r\n  Rattle  %r" % (" ".join(run), stream.hex(), one, other)
    return "pulleynavy %s of %d files, and of none alone" % (" ".join(run), len(streams))


def main():
    """Compares the program that cargo builds of the proved sources with the one that Rattle's compiler builds, on random streams and mutants.

    tools/compare builds              20,000 streams, from seed 1
    tools/compare builds 7 1000000    a million, from seed 7

    Both programs list, dump and check the same files, many at once, and strip each twentieth: output, messages and statuses are compared. The program of
    Rattle is the one that was built here, or that of `prebuilt/`. Status 3: there is no cargo, or no program of these sources.
    """
    given = common.arguments(main.__doc__, [("seed", 1), ("count", 20_000)])
    if not cargo.found():
        return common.NO_PROGRAM
    other = try_cargo.of_rattle("pulleynavy")
    if not other:
        common.stop(common.NO_PROGRAM, "there is no program of Rattle of these sources: tools/run --build pulleynavy")
    rng, differ, compared = random.Random(given.seed), [], 0
    with tempfile.TemporaryDirectory() as folder:
        both, place = (built(folder), other), os.path.join(folder, "streams")
        while compared < given.count and not differ:
            streams = some(rng, min(BATCH, given.count - compared))
            differ = [alone(both, place, streams, words) for words, _, _ in differing(both, place, streams)]
            compared += len(streams)
            shutil.rmtree(place)
    return common.tell(differ, "%d streams, %d differ (seed %d)" % (compared, len(differ), given.seed))


# ---- readings

# The readers of a stream, and of one in chunks.
WHOLE, IN_CHUNKS = ("stream", "prefix"), ("events", "steps")


def rows_built(folder):
    """The program test_rows that cargo builds of a copy of these sources. It is a test, which is the program where a variable says so."""
    clone = os.path.join(folder, "clone")
    cargo.copied(clone)
    words = ["--test", "rows", "--release", "--offline", "--quiet", "--target-dir", os.path.join(folder, "target")]
    common.must(["cargo", "test", "--no-run", *words], folder=clone)
    [path] = [path for path in glob.glob(os.path.join(folder, "target", "release", "deps", "rows-*")) if not path.endswith(".d")]
    return ["env", "PULLEYNAVY_ROWS=1", path]


def rows_of(rng, stream):
    """The rows of a stream: as a whole, as a prefix, and in chunks; and two items, which have nothing to do with it."""
    chunks = pieces.joined(pieces.cut(rng, stream))
    offset = rng.choice([0, 0, 7, 2**32 - 3, 2**64 - 1 - len(chunks)])
    lines = [rows.row_line(reader, stream, offset) for reader in WHOLE] + [rows.row_line(reader, chunks, offset) for reader in IN_CHUNKS]
    return lines + [rows.row_line(*some_case(rng, list(ROWS))) for _ in range(2)]


def readings():
    """Compares what test_rows reads, as cargo builds it and as Rattle's compiler does: streams, whole and in chunks, with requests and hints, and items.

    tools/compare readings              20,000 streams and 40,000 items, from seed 1
    tools/compare readings 7 1000000    a million streams, from seed 7

    Status 3: there is no cargo, or `rt ci` has built no program of these sources.
    """
    given = common.arguments(readings.__doc__, [("seed", 1), ("count", 20_000)])
    if not cargo.found():
        return common.NO_PROGRAM
    rng, differ, compared = random.Random(given.seed), [], 0
    with tempfile.TemporaryDirectory() as folder:
        both = rows_built(folder), [programs.built("test_rows")]
        while compared < given.count and not differ:
            streams = some(rng, min(BATCH, given.count - compared))
            lines = [line for stream in streams for line in rows_of(rng, stream)]
            one, other = (rows.run(words, lines) for words in both)
            differ = ["%s  cargo  %r\n  Rattle %r" % found for found in zip(lines, one, other) if found[1] != found[2]]
            compared += len(streams)
    return common.tell(differ, "%d streams and %d items, %d differ (seed %d)" % (compared, 2 * compared, len(differ), given.seed))
