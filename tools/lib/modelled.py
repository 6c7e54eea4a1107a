"""What the models say of streams, as the C library and its bindings list, strip and edit them."""
import json
import random
import re

import common
import programs
from modules import stream_of
from streams import some_stream

# Edits, each with a name that streams have or lack.
EDITS = [("append", "a", "xyz"), ("replace", "name", ""), ("remove", "", ""), ("keep", "name", ""), ("append", "a name", "z" * 130)]
EDITS += [("replace", "x", "z" * 126), ("remove", "name", ""), ("keep", "x", "")]


def listed(stream, features=3):
    """The lines of the models, where a body that passes its section is refused as soon as its size has been read."""
    return common.load(common.MODEL_OF_ITEMS).listing(stream, features, True)


def drawn(seed, count):
    """Random streams, half of them modules with items, with the lines of the models."""
    rng = random.Random(seed)
    return [(stream, listed(stream)) for stream in [(stream_of if number % 2 else some_stream)(rng) for number in range(count)]]


def events(lines):
    return [line for line in lines if not line.startswith("  ")]


def without_ranges(lines):
    """The lines without the offsets of lists of elements, which the library has no call for."""
    return [re.sub(r"^(  \d+ element\(.*) \d+\.\.\d+ (#\d+\[)", r"\1 \2", line) for line in lines]


def status(lines):
    return programs.status(events(lines))


def stripped(stream, lines):
    """A stream without its custom sections, or nothing if it has a fault."""
    return b"" if status(lines) else common.load(common.MODEL).strip(stream)


def edit(number):
    return EDITS[number % len(EDITS)]


def edited(number, stream, lines):
    """A stream after the edit with this number, or nothing if it has a fault."""
    kind, name, data = edit(number)
    return b"" if status(lines) else common.load(common.MODEL).edit(stream, kind, name.encode(), data.encode())


def write(path, streams):
    """Writes streams as the tests of the bindings read them: each with its lines, stripped, and after an edit. Returns the path."""
    def row(number, stream, lines):
        changed = {"stripped": stripped(stream, lines), "edited": edited(number, stream, lines)}
        changed = {name: None if status(lines) else data.hex() for name, data in changed.items()}
        return {"hex": stream.hex(), "lines": lines, "edit": edit(number), **changed}

    return common.write(path, "".join(json.dumps(row(number, *one)) + "\n" for number, one in enumerate(streams)))
